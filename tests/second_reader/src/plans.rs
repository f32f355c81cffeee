//! Runs of the writer for processes that are stopped half-way: the file before, the calls, the stores in document 01's order, and
//! what may be left of the file at any moment.

use crate::format::{form_for, Edition, Kind};
use crate::images::subkey;
use crate::library;
use crate::open::{open, Refused};
use crate::random::Random;
use crate::report::Report;
use crate::runs::{padded_calls, play, shows_run, worked_calls, Call, Run};
use crate::writer::{Store, Writer, ALIGNMENT, TEXT_AREA, TREE_AREA};
use std::collections::BTreeMap;

/// A run that is accepted to its end, with what is known of it beforehand.
pub struct Plan {
    pub run: Run,
    /// Every store of its calls, in order.
    pub stores: Vec<Store>,
    /// How many of them come before those of close.
    pub before_close: usize,
    /// The file after the last store.
    pub finished: Vec<u8>,
}

/// What a stopped process left.
#[derive(Clone, Copy, PartialEq, Eq, PartialOrd, Ord, Debug)]
pub enum Left {
    AsItWas,
    Refused,
    Whole,
}

/// How many files of some editions were left in each way.
pub fn shown(counts: &BTreeMap<(Edition, Left), usize>, editions: &[Edition]) -> String {
    let of = |left: Left| -> usize {
        let count = |edition: &Edition| counts.get(&(*edition, left)).copied().unwrap_or(0);
        editions.iter().map(count).sum()
    };
    format!(
        "as it was: {}, refused by 3: {}, whole: {}",
        of(Left::AsItWas),
        of(Left::Refused),
        of(Left::Whole)
    )
}

/// The calls of a run of so many nodes in an edition, and the file that it writes into. `most` is how many elements a node gets at most. The file has at least
/// the header, all bytes put and 7 for each put, the strings with their zeros, and the entries.
pub fn run(random: &Random, edition: Edition, nodes: usize, most: usize) -> Run {
    let mut calls = vec![Call::begin(edition)];
    let mut size = edition.header();
    for node in 1..=nodes {
        // A number at the end keeps the names of siblings apart; some names come again below other parents.
        let parent = random.below(node);
        let mut name = if random.one_in(3) {
            b"t".to_vec()
        } else {
            subkey(random, edition)[..1].to_vec()
        };
        name.extend(node.to_string().bytes());
        size += name.len() + 26;
        calls.push(Call::Make(parent as u64, name));
        if !random.one_in(5) {
            let code = random.between(2, 5) as u64;
            let width = Kind::from_code(code).map_or(1, |kind| kind.width());
            let bytes = random.bytes(random.below(most + 1) * width);
            size += bytes.len() + ALIGNMENT as usize - 1;
            calls.push(Call::Put(node as u64, code, bytes));
        }
    }
    calls.push(Call::Close);
    Run {
        buffer: before(random, size + random.below(3) * 512),
        text: random.bytes(TEXT_AREA),
        tree: random.bytes(TREE_AREA),
        calls,
    }
}

/// Document 01's worked run in an edition, in a buffer of 214 zeros.
pub fn worked(edition: Edition) -> Run {
    Run {
        buffer: vec![0; 214],
        text: vec![0; TEXT_AREA],
        tree: vec![0; TREE_AREA],
        calls: worked_calls(edition),
    }
}

/// Request C-22's first example in an edition, in a buffer of 238 bytes that are not zero: every store of padding can be seen.
pub fn padded(edition: Edition) -> Run {
    Run {
        buffer: vec![0x55; 238],
        text: vec![0; TEXT_AREA],
        tree: vec![0; TREE_AREA],
        calls: padded_calls(edition),
    }
}

/// A file before a run: zeros, any bytes, or an older file of any written edition that opens.
fn before(random: &Random, size: usize) -> Vec<u8> {
    match random.below(3) {
        0 => vec![0; size],
        1 => random.bytes(size),
        _ => {
            let buffer = random.bytes(size);
            let mut old = Writer::passed(buffer, vec![0; TEXT_AREA], vec![0; TREE_AREA]);
            let calls = [Call::begin(random.pick(&Edition::WRITTEN)), Call::Close];
            play(&mut old, &calls, u64::MAX);
            old.buffer
        }
    }
}

impl Plan {
    /// Plays a run on the model, call by call; the run must be accepted, and its file must show the tree that it describes.
    pub fn of(run: Run, report: &mut Report) -> Plan {
        let mut model = run.desk();
        let mut stores = Vec::new();
        let mut before_close = 0;
        let mut answers = Vec::new();
        for call in &run.calls {
            match call {
                Call::Begin(..) => stores.push((0, 0)),
                Call::Put(_, _, bytes) => stores.extend(model.putting(bytes)),
                Call::Close => {
                    before_close = stores.len();
                    stores.extend(model.closing());
                }
                _ => (),
            }
            answers.extend(play(&mut model, std::slice::from_ref(call), u64::MAX));
        }
        shows_run(&run.calls, &answers, &model.buffer, report);
        Plan {
            finished: model.buffer,
            run,
            stores,
            before_close,
        }
    }

    /// What is left of the file: as it was, refused by 3, or whole. Anything else is reported, and is `None`.
    pub fn left(&self, buffer: &[u8], report: &mut Report) -> Option<Left> {
        let by_library = opened_by_library(buffer);
        let here = open(buffer, &form_for(buffer)).map(|_| ()).err();
        report.same("opening", &here, &by_library);
        let left = match here {
            _ if buffer == self.run.buffer => Some(Left::AsItWas),
            Some(refused) if refused == Refused::from((3, 0)) => Some(Left::Refused),
            None if buffer == self.finished => Some(Left::Whole),
            _ => None,
        };
        report.same("as it was, refused by 3, or whole", &true, &left.is_some());
        left
    }

    /// Whether a file is exactly what the first so many stores in order leave, for some number of them.
    pub fn is_in_order(&self, buffer: &[u8]) -> bool {
        let before = &self.run.buffer;
        let mut different = before.iter().zip(buffer).filter(|(a, b)| a != b).count();
        let mut first = before[0];
        for (place, byte) in &self.stores {
            if different == 0 {
                return true;
            }
            // Place 0 is stored twice, any other place at most once.
            let old = match place {
                0 => std::mem::replace(&mut first, *byte),
                _ => before[*place],
            };
            different += usize::from(*byte != buffer[*place]);
            different -= usize::from(old != buffer[*place]);
        }
        different == 0
    }

    /// Whether some store of close is to be seen in a file, but not all.
    pub fn is_inside_close(&self, buffer: &[u8]) -> bool {
        let seen =
            |(place, byte): &Store| buffer[*place] == *byte && self.run.buffer[*place] != *byte;
        buffer != self.finished && self.stores[self.before_close..].iter().any(seen)
    }
}

/// What the library's opening reports of a file: none where it accepts.
fn opened_by_library(buffer: &[u8]) -> Option<Refused> {
    let (mut strings, mut entries) = (vec![0; 2048], vec![0; 2048]);
    let form = library::form_for(buffer);
    library::open(buffer, &form, &mut strings, &mut entries)
        .0
        .err()
}

#[cfg(test)]
mod tests {
    use super::*;
    use crate::runs::Call;

    fn planned(run: Run) -> Plan {
        let mut report = Report::default();
        let plan = Plan::of(run, &mut report);
        report.end(&[]);
        assert!(report.finish());
        plan
    }

    /// What a file is judged as, and whether anything was reported of it.
    fn judged(plan: &Plan, buffer: &[u8]) -> (Option<Left>, bool) {
        let mut report = Report::default();
        let left = plan.left(buffer, &mut report);
        report.end(&[]);
        (left, report.finish())
    }

    /// The first so many stores leave the file as it was, refused by 3, or whole.
    #[test]
    fn in_order() {
        for edition in Edition::WRITTEN {
            leaves_in_order(&planned(run(&Random::of(3, 7), edition, 4, 3)));
            leaves_in_order(&planned(padded(edition)));
        }
    }

    fn leaves_in_order(plan: &Plan) {
        let mut buffer = plan.run.buffer.clone();
        assert_eq!(judged(plan, &buffer), (Some(Left::AsItWas), true));
        for (made, (place, byte)) in (1..).zip(&plan.stores) {
            buffer[*place] = *byte;
            let left = match made == plan.stores.len() {
                true => Left::Whole,
                false if buffer == plan.run.buffer => Left::AsItWas,
                false => Left::Refused,
            };
            assert_eq!(judged(plan, &buffer), (Some(left), true), "{made}");
            assert!(plan.is_in_order(&buffer), "{made}");
        }
    }

    /// A file whose `L` stands before all the rest does is none of the three.
    #[test]
    fn out_of_order() {
        for edition in Edition::WRITTEN {
            leaves_out_of_order(&planned(worked(edition)));
        }
    }

    fn leaves_out_of_order(plan: &Plan) {
        let mut buffer = plan.finished.clone();
        let (place, byte) = plan.stores[plan.stores.len() - 2];
        assert_ne!(byte, plan.run.buffer[place]);
        buffer[place] = plan.run.buffer[place];
        assert_eq!(judged(plan, &buffer), (None, false));
        assert!(!plan.is_in_order(&buffer));
        assert!(plan.is_inside_close(&buffer));
    }

    /// Every call of a planned run is accepted. The worked run makes 1 + 4 + 210 stores, the one with padding 1 + 3 + 13 + 222.
    #[test]
    fn accepted() {
        for edition in Edition::WRITTEN {
            let plan = planned(worked(edition));
            assert_eq!((plan.before_close, plan.stores.len()), (5, 215));
            let plan = planned(padded(edition));
            assert_eq!((plan.before_close, plan.stores.len()), (17, 239));
            let run = run(&Random::of(5, 5), edition, 2048, 8);
            let made = |call: &&Call| matches!(call, Call::Make(..));
            assert_eq!(run.calls.iter().filter(made).count(), 2048);
            let mut desk = run.desk();
            let answers = play(&mut desk, &run.calls, u64::MAX);
            assert!(answers.iter().all(Result::is_ok));
        }
    }
}
