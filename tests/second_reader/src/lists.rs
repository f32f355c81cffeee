//! Runs the programs `list` and `listall` on images and compares what they print with what document 01, "The lister", and requests C-12 and C-15 say.

use crate::answers::{listing, Choice, LISTED};
use crate::format::form_for;
use crate::images::image;
use crate::open::open;
use crate::report::Report;
use std::io::{self, Write};
use std::path::Path;
use std::process::{Command, Stdio};

/// What a program prints with some bytes on its standard input; an error where it does not end well.
fn printed(program: &Path, input: &[u8]) -> io::Result<Vec<u8>> {
    let mut child = Command::new(program)
        .stdin(Stdio::piped())
        .stdout(Stdio::piped())
        .spawn()?;
    let mut pipe = child.stdin.take().expect("piped");
    let output = std::thread::scope(|scope| {
        // A program may stop reading an input that is too long: a write that fails is no fault.
        scope.spawn(move || pipe.write_all(input).is_ok());
        child.wait_with_output()
    })?;
    if !output.status.success() {
        return Err(io::Error::other(format!("{}", output.status)));
    }
    Ok(output.stdout)
}

/// The first lines of an output, for people.
fn head(bytes: &[u8]) -> String {
    String::from_utf8_lossy(&bytes[..bytes.len().min(120)]).into_owned()
}

/// A program, and the nodes that it lists.
pub struct Program<'a> {
    path: &'a Path,
    choice: Choice,
}

impl<'a> Program<'a> {
    pub fn new(path: &'a str, choice: Choice) -> Program<'a> {
        let path = Path::new(path);
        Program { path, choice }
    }
}

/// Image `number` of a seed through the programs.
pub fn compare(
    seed: u64,
    number: u64,
    programs: &[Program],
    report: &mut Report,
) -> io::Result<()> {
    let image = image(seed, number);
    report.begin(seed, number, &image);
    report.opened(&image, &open(&image.bytes, &form_for(&image.bytes)));
    for program in programs {
        let ours = listing(&image.bytes, program.choice);
        let theirs = printed(program.path, &image.bytes)?;
        let name = program.path.display();
        report.same(
            &format!("{name}: first lines"),
            &head(&ours),
            &head(&theirs),
        );
        report.same(&format!("{name}: whole output"), &(ours == theirs), &true);
    }
    report.end(&image.bytes);
    Ok(())
}

/// Whether an image is one for the programs: at most 65,536 bytes, or one of the few that are just too long.
pub fn is_listed(seed: u64, number: u64) -> bool {
    image(seed, number).bytes.len() <= LISTED + 1
}
