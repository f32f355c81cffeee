//! An independent second reader of AFF files, a generator of images, and comparisons with the library. See README.md.

#[cfg(feature = "library")]
mod agree;
mod answers;
mod any_order;
mod blocks;
mod cases;
mod damage;
mod format;
mod images;
#[cfg(feature = "library")]
mod kills;
mod kinds;
#[cfg(feature = "library")]
mod library;
#[cfg(feature = "library")]
mod linked;
mod lists;
#[cfg(feature = "library")]
mod mapped;
mod md5;
mod moved;
mod open;
mod orders;
mod pairs;
#[cfg(any(test, feature = "library"))]
mod paths;
#[cfg(feature = "library")]
mod plans;
mod random;
mod report;
mod runs;
#[cfg(feature = "library")]
mod steps;
#[cfg(test)]
mod tests;
mod times;
mod tree_by_calls;
mod trees;
mod writer;

use answers::Choice;
use lists::Program;
use report::Report;
use std::error::Error;
use std::io::Write;
use std::path::Path;
use std::process::ExitCode;

const USAGE: &str = "second_reader list FILE
second_reader listall FILE
second_reader make SEED COUNT FOLDER
second_reader cases SEED COUNT FOLDER
second_reader agree SEED COUNT
second_reader lists SEED COUNT LIST LISTALL
second_reader writes SEED COUNT
second_reader orders SEED COUNT
second_reader kills SEED COUNT FOLDER
second_reader steps SEED COUNT FOLDER
second_reader time CALL ARGUMENTS SAMPLES BATCH";

/// True where nothing differs.
type Outcome = Result<bool, Box<dyn Error>>;

fn main() -> ExitCode {
    let arguments: Vec<String> = std::env::args().skip(1).collect();
    let words: Vec<&str> = arguments.iter().map(String::as_str).collect();
    match run(&words) {
        Ok(true) => ExitCode::SUCCESS,
        Ok(false) => ExitCode::FAILURE,
        Err(error) => {
            eprintln!("{error}");
            ExitCode::from(2)
        }
    }
}

fn run(words: &[&str]) -> Outcome {
    match words {
        ["list", file] => list(Path::new(file), Choice::NotVoid),
        ["listall", file] => list(Path::new(file), Choice::All),
        ["make", seed, count, folder] => make(seed.parse()?, count.parse()?, Path::new(folder)),
        ["cases", seed, count, folder] => cases(seed.parse()?, count.parse()?, Path::new(folder)),
        ["lists", seed, count, programs @ ..] => lists(seed.parse()?, count.parse()?, programs),
        ["writes", seed, count] => writes(seed.parse()?, count.parse()?),
        ["orders", seed, count] => orders(seed.parse()?, count.parse()?),
        ["time", rest @ ..] => times::run(rest),
        _ => linked_run(words),
    }
}

/// Prints what the program `list` or `listall` prints of a file.
fn list(file: &Path, choice: Choice) -> Outcome {
    let image = std::fs::read(file)?;
    std::io::stdout().write_all(&answers::listing(&image, choice))?;
    Ok(true)
}

/// Writes images NAME.aff with what `list` and `listall` must print of them, NAME.list and NAME.listall, and an index.
fn make(seed: u64, count: u64, folder: &Path) -> Outcome {
    std::fs::create_dir_all(folder)?;
    let mut index = format!("seed {seed}\n");
    for number in 0..count {
        let image = images::image(seed, number);
        let name = format!("s{seed}-{number:05}");
        std::fs::write(folder.join(format!("{name}.aff")), &image.bytes)?;
        for (program, choice) in [("list", Choice::NotVoid), ("listall", Choice::All)] {
            let out = answers::listing(&image.bytes, choice);
            std::fs::write(folder.join(format!("{name}.{program}")), out)?;
        }
        index += &format!("{name} {} bytes  {}\n", image.bytes.len(), image.what);
    }
    std::fs::write(folder.join("INDEX.txt"), index)?;
    Ok(true)
}

/// Writes the sample of the gate: FOLDER/stdin has the images, FOLDER/stdout the answers.
fn cases(seed: u64, count: usize, folder: &Path) -> Outcome {
    let sample =
        cases::sample(seed, count).map_err(|number| format!("an accepted image got {number}"))?;
    std::fs::write(folder.join("stdin"), sample.input)?;
    std::fs::write(folder.join("stdout"), sample.output)?;
    Ok(true)
}

/// The commands that call the library.
#[cfg(feature = "library")]
fn linked_run(words: &[&str]) -> Outcome {
    linked::run(words)
}

#[cfg(not(feature = "library"))]
fn linked_run(words: &[&str]) -> Outcome {
    match words {
        ["agree" | "kills" | "steps", ..] => {
            Err("built without the library; see README.md, feature `library`".into())
        }
        _ => Err(USAGE.into()),
    }
}

/// Compares the programs `list` and `listall` with this reader.
fn lists(seed: u64, count: u64, programs: &[&str]) -> Outcome {
    let [list, listall] = programs else {
        return Err(USAGE.into());
    };
    let programs = [
        Program::new(list, Choice::NotVoid),
        Program::new(listall, Choice::All),
    ];
    println!("seed {seed}, {count} images");
    let mut report = Report::default();
    let numbers = (0..).filter(|number| lists::is_listed(seed, *number));
    for number in numbers.take(count as usize) {
        lists::compare(seed, number, &programs, &mut report)?;
    }
    Ok(report.finish())
}

#[cfg(feature = "library")]
const DESK: Option<runs::NewDesk> = Some(library::desk);
#[cfg(not(feature = "library"))]
const DESK: Option<runs::NewDesk> = None;

#[cfg(feature = "library")]
const READERS: &[trees::Reading] = &[trees::read_here, trees::read_by_library];
#[cfg(not(feature = "library"))]
const READERS: &[trees::Reading] = &[trees::read_here];

const OTHERS: orders::Others = orders::Others {
    desk: DESK,
    readers: READERS,
};

/// Compares the writer's model with this reader, and with the library's writer where it is linked.
fn writes(seed: u64, count: u64) -> Outcome {
    let beside = DESK.map_or("the reader", |_| "the reader and the library's writer");
    println!("seed {seed}, {count} runs: the model beside {beside}");
    let mut report = Report::default();
    for number in 0..count {
        runs::compare(seed, number, DESK, &mut report);
    }
    Ok(report.finish())
}

/// Compares runs with the same puts in other orders: on the model, and on the library's writer and reader where it is linked. After the pairs of neighbouring
/// puts, a tenth as many blocks of puts, and as many pairs of runs with puts moved among the makes. Each part is counted by itself.
fn orders(seed: u64, count: u64) -> Outcome {
    let of = DESK.map_or("the model", |_| "the model and the library's writer");
    let tenth = count.div_ceil(10);
    println!("seed {seed}, {count} pairs: two orders of {of}");
    let pairs = compared(seed, count, orders::compare);
    println!("seed {seed}, {tenth} blocks of puts in another order, in a buffer that is never too small: {of}");
    let blocks = compared(seed, tenth, any_order::compare);
    println!("seed {seed}, {tenth} pairs of runs with puts moved among the makes: {of}");
    let moved = compared(seed, tenth, tree_by_calls::compare);
    Ok(pairs && blocks && moved)
}

/// One part of `orders`; true where nothing differs.
fn compared(seed: u64, count: u64, compare: fn(u64, u64, orders::Others, &mut Report)) -> bool {
    let mut report = Report::default();
    for number in 0..count {
        compare(seed, number, OTHERS, &mut report);
    }
    report.finish()
}
