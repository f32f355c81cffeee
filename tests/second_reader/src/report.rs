//! Counts what agrees and what differs, by refusal number and edition, and keeps the images that differ.

use crate::format::{Edition, Refusal};
use crate::images::{Aim, Image};
use crate::kinds::{self, Kind};
use crate::open::{bad_nodes, Refused};
use std::collections::BTreeMap;
use std::fmt::{self, Debug, Display, Formatter};

#[derive(Default)]
pub struct Report {
    case: String,
    file: String,
    faults: usize,
    agree: usize,
    differ: usize,
    questions: u64,
    by_number: BTreeMap<u32, Counts>,
    kinds: BTreeMap<(u32, Kind), Counts>,
    judged: [Counts; 2],
}

/// How often something was met, by edition; `None` is what has no edition.
#[derive(Default)]
struct Counts(BTreeMap<Option<Edition>, usize>);

impl Counts {
    fn add(&mut self, edition: Option<Edition>) {
        *self.0.entry(edition).or_insert(0) += 1;
    }

    fn total(&self) -> usize {
        self.0.values().sum()
    }
}

impl Display for Counts {
    /// The total, then the parts: `9 (none: 1, edition 1: 2, edition 2: 3, edition 3: 3)`.
    fn fmt(&self, f: &mut Formatter) -> fmt::Result {
        let part = |(edition, count): (&Option<Edition>, &usize)| match edition {
            None => format!("none: {count}"),
            Some(edition) => format!("edition {}: {count}", edition.number()),
        };
        let parts: Vec<String> = self.0.iter().map(part).collect();
        match parts.is_empty() {
            true => write!(f, "0"),
            false => write!(f, "{} ({})", self.total(), parts.join(", ")),
        }
    }
}

/// Lines about one case, and images kept, are limited.
const MOST_LINES: usize = 5;
const MOST_KEPT: usize = 20;

impl Report {
    pub fn begin(&mut self, seed: u64, number: u64, image: &Image) {
        self.case = format!("seed {seed}, image {number} ({})", image.what);
        self.file = format!("differs-{seed}-{number}.aff");
        self.faults = 0;
    }

    #[cfg(feature = "library")]
    pub fn begin_limit(&mut self, length: usize) {
        self.begin_case(format!("{length} zeros"));
    }

    pub fn begin_run(&mut self, seed: u64, number: u64) {
        self.begin_case(format!("seed {seed}, run {number}"));
    }

    pub fn begin_pair(&mut self, seed: u64, number: u64) {
        self.begin_case(format!("seed {seed}, pair {number}"));
    }

    pub fn begin_block(&mut self, seed: u64, number: u64) {
        self.begin_case(format!("seed {seed}, block {number}"));
    }

    pub fn begin_moved(&mut self, seed: u64, number: u64) {
        self.begin_case(format!("seed {seed}, moved puts {number}"));
    }

    /// A case of which no image is kept.
    fn begin_case(&mut self, case: String) {
        self.case = case;
        self.file.clear();
        self.faults = 0;
    }

    /// Two answers to one question, this reader's first.
    pub fn same<T: PartialEq + Debug + ?Sized>(&mut self, what: &str, ours: &T, theirs: &T) {
        self.questions += 1;
        if ours == theirs {
            return;
        }
        self.faults += 1;
        if self.faults <= MOST_LINES {
            let (ours, theirs) = (shown(ours), shown(theirs));
            println!("{}: {what}: here {ours}, there {theirs}", self.case);
        }
    }

    /// This reader's verdict, beside what the maker of the image knows. It is counted for the edition whose text the image has.
    pub fn opened<T>(&mut self, image: &Image, reported: &Result<T, Refused>) {
        let refusal = reported.as_ref().err().copied();
        let number = refusal.map_or(0, |r| r.number);
        let edition = Edition::from_text(&image.bytes);
        self.by_number.entry(number).or_default().add(edition);
        if number == 10 {
            let nodes = bad_nodes(&image.bytes);
            self.met(10, kinds::of_node(&nodes[0]), edition);
            if let Some(kind) = kinds::of_several(&nodes) {
                self.met(10, kind, edition);
            }
        }
        match image.aim {
            Aim::Accepted => self.same("aim", &None, &refusal),
            Aim::Refused(aim) => self.same("aim", &Some(aim), &refusal),
            Aim::Unknown => (),
        }
    }

    /// The number of one call's answer, 0 where it is accepted, with the edition that is written.
    pub fn reported(&mut self, reported: &Result<u64, Refusal>, edition: Option<Edition>) {
        let number = reported.as_ref().err().map_or(0, |refusal| refusal.0);
        self.by_number.entry(number).or_default().add(edition);
    }

    /// A kind of malformed name or path, which 10 or 14 is about; of a put, of altered memory, or of two orders of puts, with the number of the refusal that it
    /// got, or 0.
    pub fn met(&mut self, number: u32, kind: Kind, edition: Option<Edition>) {
        self.kinds.entry((number, kind)).or_default().add(edition);
    }

    /// Whether a state of passed memory passed 24, with the edition that the record has.
    pub fn judged(&mut self, passed: bool, edition: Option<Edition>) {
        self.judged[usize::from(passed)].add(edition);
    }

    pub fn end(&mut self, image: &[u8]) {
        if self.faults == 0 {
            self.agree += 1;
            return;
        }
        self.differ += 1;
        if self.differ <= MOST_KEPT && !self.file.is_empty() {
            match std::fs::write(&self.file, image) {
                Ok(()) => println!("{}: kept in {}", self.case, self.file),
                Err(error) => println!("{}: {error}", self.file),
            }
        }
    }

    /// The last lines; true where nothing differs.
    pub fn finish(&self) -> bool {
        for (number, count) in &self.by_number {
            match number {
                0 => println!("accepted: {count}"),
                _ => println!("refused {number}: {count}"),
            }
        }
        for ((number, (what, more)), count) in &self.kinds {
            match number {
                0 => println!("{what}, {more}: {count}"),
                _ => println!("{number}: {what}, {more}: {count}"),
            }
        }
        let [refused, passed] = &self.judged;
        if refused.total() + passed.total() > 0 {
            println!("states of memory passed: {passed} pass 24, {refused} do not");
        }
        println!("{} answers compared", self.questions);
        println!("{} agree, {} differ", self.agree, self.differ);
        self.differ == 0
    }
}

fn shown<T: Debug + ?Sized>(value: &T) -> String {
    let text = format!("{value:?}");
    match text.char_indices().nth(300) {
        None => text,
        Some((end, _)) => format!("{}...", &text[..end]),
    }
}
