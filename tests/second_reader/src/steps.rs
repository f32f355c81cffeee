//! Every moment of a run: a process writes through the library into a mapped file and is stopped after each machine instruction
//! (Linux on x86-64). The file is judged each time that it has changed: a kill there would leave it so.

use crate::format::Edition;
use crate::library;
use crate::mapped::Mapped;
use crate::plans::{self, Left, Plan};
use crate::random::Random;
use crate::report::Report;
use crate::runs::{play, Run};
use std::collections::BTreeMap;
use std::ffi::{c_int, c_long, c_void};
use std::io;
use std::path::Path;
use std::process::Command;

extern "C" {
    fn ptrace(request: c_int, ...) -> c_long;
    fn waitpid(process: c_int, status: *mut c_int, options: c_int) -> c_int;
    fn raise(signal: c_int) -> c_int;
}

const TRACE_ME: c_int = 0;
const SINGLE_STEP: c_int = 9;
const SIGTRAP: c_int = 5;
const SIGSTOP: c_int = 19;

/// The edition of a run: the written ones take turns.
fn edition_of(number: u64) -> Edition {
    Edition::WRITTEN[number as usize % Edition::WRITTEN.len()]
}

/// Runs 0 and 1 are document 01's worked run in both written editions, 2 and 3 request C-22's first example; the others have up to 12 nodes.
fn run_of(seed: u64, number: u64) -> Run {
    let edition = edition_of(number);
    match number {
        0..=1 => plans::worked(edition),
        2..=3 => plans::padded(edition),
        _ => {
            let random = Random::of(seed, number);
            plans::run(&random, edition, random.below(13), 4)
        }
    }
}

/// The process that is stepped through: it stops itself, then makes the calls.
pub fn write_traced(seed: u64, number: u64, file: &Path) -> io::Result<()> {
    let run = run_of(seed, number);
    let mut desk = library::desk_in(Mapped::of(file)?, &run);
    let none = std::ptr::null_mut::<c_void>();
    // SAFETY: these two take no memory of ours.
    let failed = unsafe { ptrace(TRACE_ME, 0, none, none) != 0 || raise(SIGSTOP) != 0 };
    if failed {
        return Err(io::Error::last_os_error());
    }
    let answers = play(&mut desk, &run.calls, u64::MAX);
    match answers.iter().find(|reported| reported.is_err()) {
        Some(reported) => Err(io::Error::other(format!(
            "a call was refused: {reported:?}"
        ))),
        None => Ok(()),
    }
}

/// How a stopped process stands.
#[derive(PartialEq, Eq)]
enum Status {
    Stopped(c_int),
    Ended(c_int),
    Killed(c_int),
}

fn wait(process: c_int) -> io::Result<Status> {
    let mut status = 0;
    // SAFETY: `status` is a live variable.
    if unsafe { waitpid(process, &mut status, 0) } != process {
        return Err(io::Error::last_os_error());
    }
    Ok(match status & 0x7f {
        0 => Status::Ended(status >> 8 & 0xff),
        0x7f => Status::Stopped(status >> 8 & 0xff),
        signal => Status::Killed(signal),
    })
}

/// One instruction more.
fn step(process: c_int) -> io::Result<Status> {
    let none = std::ptr::null_mut::<c_void>();
    // SAFETY: the process is a stopped child of ours; no memory of ours is taken.
    if unsafe { ptrace(SINGLE_STEP, process, none, none) } != 0 {
        return Err(io::Error::last_os_error());
    }
    wait(process)
}

/// What was seen of all the runs.
#[derive(Default)]
struct Counts {
    instructions: u64,
    files: BTreeMap<(Edition, Left), usize>,
    in_order: usize,
}

/// Steps through one run from before begin to the end of the process.
fn step_through(
    seed: u64,
    number: u64,
    file: &Path,
    counts: &mut Counts,
    report: &mut Report,
) -> io::Result<()> {
    let plan = Plan::of(run_of(seed, number), report);
    std::fs::write(file, &plan.run.buffer)?;
    let child = Command::new(std::env::current_exe()?)
        .args(["write-traced", &seed.to_string(), &number.to_string()])
        .arg(file)
        .spawn()?;
    let process = child.id() as c_int;
    let mapped = Mapped::of(file)?;
    if wait(process)? != Status::Stopped(SIGSTOP) {
        return Err(io::Error::other("the process did not stop before it began"));
    }
    let mut last = Vec::new();
    loop {
        if mapped.as_ref() != last {
            last = mapped.as_ref().to_vec();
            if let Some(left) = plan.left(&last, report) {
                let edition = edition_of(number);
                *counts.files.entry((edition, left)).or_insert(0) += 1;
            }
            counts.in_order += usize::from(plan.is_in_order(&last));
        }
        match step(process)? {
            Status::Stopped(SIGTRAP) => counts.instructions += 1,
            Status::Ended(0) => break,
            _ => return Err(io::Error::other("the process did not end well")),
        }
    }
    report.same("whole at the end", &true, &(last == plan.finished));
    Ok(())
}

/// Steps through so many runs; counts the different files that were seen on the way.
pub fn steps(seed: u64, count: u64, folder: &Path, report: &mut Report) -> io::Result<()> {
    std::fs::create_dir_all(folder)?;
    let file = folder.join("step.aff");
    let mut counts = Counts::default();
    for number in 0..count {
        report.begin_run(seed, number);
        step_through(seed, number, &file, &mut counts, report)?;
        report.end(&[]);
    }
    std::fs::remove_file(file)?;
    println!("stopped after each of {} instructions", counts.instructions);
    let seen = plans::shown(&counts.files, &Edition::WRITTEN);
    println!("files seen: {seen}");
    for edition in Edition::WRITTEN {
        let seen = plans::shown(&counts.files, &[edition]);
        println!("edition {}: files seen: {seen}", edition.number());
    }
    println!(
        "of them exactly the first so many stores in order: {}",
        counts.in_order
    );
    Ok(())
}
