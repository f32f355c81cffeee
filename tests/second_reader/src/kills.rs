//! Real kills: a process writes a file through the library into a mapped file on disk and is ended by SIGKILL at a random moment; the
//! file that it leaves is judged.

use crate::format::Edition;
use crate::library;
use crate::mapped::Mapped;
use crate::plans::{self, Left, Plan};
use crate::random::Random;
use crate::report::Report;
use crate::runs::{play, Run};
use crate::writer::Store;
use std::collections::BTreeMap;
use std::io::{self, BufRead, BufReader, Read, Write};
use std::os::unix::process::ExitStatusExt;
use std::path::{Path, PathBuf};
use std::process::{Child, ChildStdout, Command, Stdio};
use std::time::{Duration, Instant};

/// How often each run is made and killed.
const KILLS_OF_A_RUN: u64 = 10;
const SIGKILL: i32 = 9;

/// The edition of the run that kill `number` is of: the written ones take turns.
fn edition_of(number: u64) -> Edition {
    let turn = number / KILLS_OF_A_RUN;
    Edition::WRITTEN[turn as usize % Edition::WRITTEN.len()]
}

/// The run that kill `number` of a seed is of.
fn run_of(seed: u64, number: u64) -> Run {
    let random = Random::of(seed, number / KILLS_OF_A_RUN);
    let nodes = random.pick(&[60, 400, 1200, 2048, 2048]);
    let elements = random.pick(&[8, 200]);
    plans::run(&random, edition_of(number), nodes, elements)
}

/// The process that is killed: the calls of a run through the library, into a mapped file that holds its buffer. It says when it begins
/// and when it has closed.
pub fn write(seed: u64, number: u64, file: &Path) -> io::Result<()> {
    let run = run_of(seed, number);
    let mut desk = library::desk_in(Mapped::of(file)?, &run);
    say("begins")?;
    let answers = play(&mut desk, &run.calls, u64::MAX);
    match answers.iter().find(|reported| reported.is_err()) {
        Some(reported) => Err(io::Error::other(format!(
            "a call was refused: {reported:?}"
        ))),
        None => say("closed"),
    }
}

fn say(word: &str) -> io::Result<()> {
    let mut out = io::stdout();
    writeln!(out, "{word}")?;
    out.flush()
}

/// When a process is killed: so long after this.
enum After {
    Start,
    Begin,
    Store(usize),
}

struct Moment {
    after: After,
    more: Duration,
}

/// A process that writes, with what it says.
struct Writing {
    child: Child,
    words: BufReader<ChildStdout>,
}

impl Writing {
    fn start(seed: u64, number: u64, file: &Path) -> io::Result<Writing> {
        let mut child = Command::new(std::env::current_exe()?)
            .args(["write", &seed.to_string(), &number.to_string()])
            .arg(file)
            .stdout(Stdio::piped())
            .spawn()?;
        let words = BufReader::new(child.stdout.take().expect("piped"));
        Ok(Writing { child, words })
    }

    /// Waits until it begins.
    fn begin(&mut self) -> io::Result<()> {
        match self.word()?.as_str() {
            "begins" => Ok(()),
            word => Err(io::Error::other(format!("not 'begins' but '{word}'"))),
        }
    }

    fn word(&mut self) -> io::Result<String> {
        let mut line = String::new();
        self.words.read_line(&mut line)?;
        Ok(line.trim_end().to_string())
    }

    /// Waits until a store is seen, or until the process has ended.
    fn watch(&mut self, mapped: &Mapped, (place, byte): Store) -> io::Result<()> {
        let mut looks = 0_u64;
        while mapped.byte(place) != byte {
            looks += 1;
            if looks.is_multiple_of(65_536) && self.child.try_wait()?.is_some() {
                break;
            }
        }
        Ok(())
    }

    /// Kills it; reports whether the signal was what ended it, and whether it had said that it closed.
    fn kill(mut self) -> io::Result<(bool, bool)> {
        self.child.kill()?;
        let mut said = String::new();
        self.words.read_to_string(&mut said)?;
        let status = self.child.wait()?;
        Ok((status.signal() == Some(SIGKILL), said.ends_with("closed\n")))
    }

    /// Waits for its end.
    fn end(mut self) -> io::Result<()> {
        let closed = self.word()? == "closed";
        match self.child.wait()?.success() && closed {
            true => Ok(()),
            false => Err(io::Error::other(
                "a process that was not killed did not close",
            )),
        }
    }
}

/// Waits without sleep: a sleeping process is woken too late.
fn spin(time: Duration) {
    let start = Instant::now();
    while start.elapsed() < time {
        std::hint::spin_loop();
    }
}

/// What the killed processes left.
#[derive(Default)]
struct Counts {
    left: BTreeMap<(Edition, Left), usize>,
    inside_close: usize,
    in_order: usize,
    by_signal: usize,
    closed: usize,
}

/// A run that is made again and again in one file.
struct Target {
    seed: u64,
    plan: Plan,
    file: PathBuf,
    times: Times,
}

/// What a run that is not killed takes: in all; from the last store before close to the first of close; from that to the last.
#[derive(Clone, Copy, Default)]
struct Times {
    run: Duration,
    sums: Duration,
    stores: Duration,
}

/// About how long a signal takes to end a process, and a process to start.
const SIGNAL: Duration = Duration::from_micros(40);
const START: Duration = Duration::from_millis(2);

fn store_or_begin(store: Option<usize>) -> After {
    store.map_or(After::Begin, After::Store)
}

impl Target {
    /// Makes the run once without a kill: the file must be whole.
    fn new(seed: u64, number: u64, folder: &Path, report: &mut Report) -> io::Result<Target> {
        let mut target = Target {
            seed,
            plan: Plan::of(run_of(seed, number), report),
            file: folder.join("kill.aff"),
            times: Times::default(),
        };
        target.times = target.timed(number)?;
        let buffer = std::fs::read(&target.file)?;
        report.same("not killed", &true, &(buffer == target.plan.finished));
        Ok(target)
    }

    /// A process that writes into the file as it was before the run.
    fn start(&self, number: u64) -> io::Result<Writing> {
        std::fs::write(&self.file, &self.plan.run.buffer)?;
        Writing::start(self.seed, number, &self.file)
    }

    fn timed(&self, number: u64) -> io::Result<Times> {
        let mut writing = self.start(number)?;
        let mapped = Mapped::of(&self.file)?;
        writing.begin()?;
        let start = Instant::now();
        let close = self.plan.before_close;
        let mut seen = |store: Option<usize>| -> io::Result<Duration> {
            if let Some(store) = store {
                writing.watch(&mapped, self.plan.stores[store])?;
            }
            Ok(start.elapsed())
        };
        let put = seen(self.last_put())?;
        let first = seen((close..self.plan.stores.len()).find(|i| self.is_visible(*i)))?;
        let last = seen((close..self.plan.stores.len()).rfind(|i| self.is_visible(*i)))?;
        writing.end()?;
        Ok(Times {
            run: start.elapsed(),
            sums: first - put,
            stores: last - first,
        })
    }

    /// Starts a process, kills it, and hands back the file that it left; one that said that it closed must have left it whole.
    fn left_by(
        &self,
        number: u64,
        moment: Moment,
        counts: &mut Counts,
        report: &mut Report,
    ) -> io::Result<Vec<u8>> {
        let mut writing = self.start(number)?;
        match moment.after {
            After::Start => (),
            After::Begin => writing.begin()?,
            After::Store(store) => {
                writing.watch(&Mapped::of(&self.file)?, self.plan.stores[store])?
            }
        }
        spin(moment.more);
        let (by_signal, closed) = writing.kill()?;
        counts.by_signal += usize::from(by_signal);
        counts.closed += usize::from(closed);
        let buffer = std::fs::read(&self.file)?;
        let whole = buffer == self.plan.finished;
        report.same("closed, and not whole", &false, &(closed && !whole));
        Ok(buffer)
    }

    /// A moment: while the process starts, in the whole time of its calls, at any store, or about the stores of close.
    fn moment(&self, random: &Random) -> Moment {
        let part = |time: Duration| time * random.below(1001) as u32 / 1000;
        let close = self.plan.before_close;
        let seen = |from: usize| (from..close).find(|i| self.is_visible(*i));
        let (after, more) = match random.below(20) {
            0 => (After::Start, START),
            1..=5 => (After::Begin, self.times.run * 11 / 10),
            6..=8 => (store_or_begin(seen(random.below(close))), SIGNAL),
            _ => {
                let early = self.times.sums.saturating_sub(2 * SIGNAL);
                let more = early + part(self.times.stores + 3 * SIGNAL);
                let after = store_or_begin(self.last_put());
                return Moment { after, more };
            }
        };
        Moment {
            after,
            more: part(more),
        }
    }

    /// The last store before close that can be seen.
    fn last_put(&self) -> Option<usize> {
        (0..self.plan.before_close).rfind(|i| self.is_visible(*i))
    }

    /// Whether a store can be seen when it is made: it changes a byte, and not the first, which is stored twice.
    fn is_visible(&self, store: usize) -> bool {
        let (place, byte) = self.plan.stores[store];
        place > 0 && self.plan.run.buffer[place] != byte
    }
}

/// Kills so many processes; counts what they left.
pub fn kills(seed: u64, count: u64, folder: &Path, report: &mut Report) -> io::Result<()> {
    std::fs::create_dir_all(folder)?;
    let mut counts = Counts::default();
    let mut target: Option<Target> = None;
    for number in 0..count {
        report.begin_run(seed, number);
        if number % KILLS_OF_A_RUN == 0 {
            target = Some(Target::new(seed, number, folder, report)?);
        }
        let target = target.as_ref().expect("made at number 0");
        let random = Random::of(!seed, number);
        let buffer = target.left_by(number, target.moment(&random), &mut counts, report)?;
        if let Some(left) = target.plan.left(&buffer, report) {
            let edition = edition_of(number);
            *counts.left.entry((edition, left)).or_insert(0) += 1;
        }
        counts.inside_close += usize::from(target.plan.is_inside_close(&buffer));
        counts.in_order += usize::from(target.plan.is_in_order(&buffer));
        report.end(&buffer);
    }
    std::fs::remove_file(folder.join("kill.aff"))?;
    counts.print(count);
    Ok(())
}

impl Counts {
    fn print(&self, count: u64) {
        println!(
            "{count} processes: {} ended by SIGKILL, of all {} had said that they closed",
            self.by_signal, self.closed
        );
        println!("left {}", plans::shown(&self.left, &Edition::WRITTEN));
        for edition in Edition::WRITTEN {
            let left = plans::shown(&self.left, &[edition]);
            println!("edition {}: left {left}", edition.number());
        }
        println!(
            "killed between the stores of a close: {}; exactly the first so many stores in order: {}",
            self.inside_close, self.in_order
        );
    }
}
