//! Request C-23: two neighbouring puts to different nodes may change places. Both orders are played on the writer, and what is claimed of them is
//! compared wherever its hypotheses hold.

use crate::kinds;
use crate::pairs::{random_pair, Allowances, Order, Pair, ORDERS};
use crate::random::Random;
use crate::report::Report;
use crate::runs::{begun, call_both, shows_run, stores, Call, Desk, NewDesk, Run};
use crate::trees::{File, Reading};
use crate::writer::{Reported, ALIGNMENT};

/// What is compared beside the model: another writer where there is one, and readers, this one first.
#[derive(Clone, Copy)]
pub struct Others {
    pub desk: Option<NewDesk>,
    pub readers: &'static [Reading],
}

/// One order of a pair, as it was played.
pub struct Played {
    pub calls: Vec<Call>,
    /// What each call was allowed, what it reported, and the numbers of the record after it.
    pub allowances: Vec<u64>,
    pub answers: Vec<Reported>,
    pub numbers: Vec<[u64; 8]>,
    pub buffer: Vec<u8>,
}

impl Played {
    /// The end of data after a call.
    pub fn end(&self, number: usize) -> u64 {
        self.numbers[number][6]
    }

    /// The number of the close that was accepted.
    pub fn closed(&self) -> Option<usize> {
        let is_close = |number: &usize| matches!(self.calls[*number], Call::Close);
        let numbers = 0..self.calls.len();
        numbers
            .filter(is_close)
            .find(|number| self.answers[*number].is_ok())
    }

    /// The size of the file, from the record after close: `numbers[6] + numbers[0] - 168`.
    pub fn size(&self) -> Option<u64> {
        let numbers = self.numbers[self.closed()?];
        let (edition, _) = begun(&self.calls);
        Some(numbers[6] + numbers[0] - edition.header() as u64)
    }

    /// The bytes of the file; of none that is not closed.
    pub fn file(&self) -> &[u8] {
        let size = self.size().unwrap_or(0) as usize;
        &self.buffer[..size.min(self.buffer.len())]
    }

    /// How many calls there are after the accepted close.
    pub fn calls_after_close(&self) -> usize {
        self.closed()
            .map_or(0, |close| self.calls.len() - close - 1)
    }

    /// The number of the first accepted put from a call on.
    pub fn accepted_put(&self, from: usize) -> Option<usize> {
        let is_put = |number: &usize| matches!(self.calls[*number], Call::Put(..));
        let numbers = from..self.calls.len();
        numbers
            .filter(is_put)
            .find(|number| self.answers[*number].is_ok())
    }
}

/// What of C-23 applies to a pair.
#[derive(Clone, Copy, PartialEq, Eq, Debug)]
pub enum Claim {
    /// The same calls are accepted in both orders, both puts and a close among them.
    Applies,
    /// Why not: the number of a refusal that comes in one order only, or 0.
    DoesNotApply(u32, kinds::Kind),
}

/// A random pair of a seed.
pub fn compare(seed: u64, number: u64, others: Others, report: &mut Report) {
    let pair = random_pair(&Random::of(seed, number));
    report.begin_pair(seed, number);
    let plays = ORDERS.map(|order| played(&pair, order, others.desk, report));
    compare_plays(&pair, &plays, others.readers, report);
    count(&plays, met(&pair, &plays), report);
    report.end(&[]);
}

/// Counts what was met, by the edition of the first run, and the answers of both runs, each by its own.
pub fn count(plays: &[Played; 2], met: Vec<(u32, kinds::Kind)>, report: &mut Report) {
    let editions = plays.each_ref().map(|played| begun(&played.calls).0);
    for (number, kind) in met {
        report.met(number, kind, Some(editions[0]));
    }
    for (played, edition) in plays.iter().zip(editions) {
        for reported in &played.answers {
            report.reported(reported, Some(edition));
        }
    }
}

/// Compares all that is claimed of two orders.
pub fn compare_plays(
    pair: &Pair,
    plays: &[Played; 2],
    readers: &[Reading],
    report: &mut Report,
) -> Claim {
    if both_accepted(pair, plays) {
        ends_after_puts(pair, plays, report);
    }
    if assumes_nothing(pair, plays) {
        same_later_answers(pair.first + 2, plays, report);
    }
    let claim = claim(pair, plays);
    match claim {
        Claim::Applies => {
            same_answers(|number| pair.place(number), plays, report);
            same_ends(pair, plays, report);
            same_files(pair, plays, readers, report);
        }
        // What is refused in one order only depends on the buffer's length or on an allowance.
        Claim::DoesNotApply(number, _) => {
            report.same("in one order only", &true, &[0, 21, 23].contains(&number));
        }
    }
    claim
}

/// Plays an order of a pair.
pub fn played(pair: &Pair, order: Order, desk: Option<NewDesk>, report: &mut Report) -> Played {
    let allowances = &pair.allowances[order as usize];
    played_run(pair.run(order), allowances, desk, report)
}

/// Plays a run: on the model, and on the other writer where there is one, whose answers are then compared and taken.
pub fn played_run(
    run: Run,
    allowances: &Allowances,
    desk: Option<NewDesk>,
    report: &mut Report,
) -> Played {
    let mut model = run.desk();
    let mut other = desk.map(|new| new(&run));
    let mut played = Played {
        calls: Vec::new(),
        allowances: Vec::new(),
        answers: Vec::new(),
        numbers: Vec::new(),
        buffer: Vec::new(),
    };
    let mut used = 0;
    for (number, call) in run.calls.iter().enumerate() {
        let allowance = match allowances {
            Allowances::Each(list) => list[number],
            Allowances::Total(total) => total.saturating_sub(used),
        };
        let reported = match other.as_deref_mut() {
            Some(other) => call_both(number, call, allowance, &mut model, other, report)[1],
            None => model.call(call, allowance),
        };
        used += stores(call, &reported);
        let desk: &dyn Desk = other.as_deref().unwrap_or(&model);
        played.allowances.push(allowance);
        played.answers.push(reported);
        played.numbers.push(desk.numbers().0);
    }
    let desk: &dyn Desk = other.as_deref().unwrap_or(&model);
    played.buffer = desk.memory()[0].to_vec();
    played.calls = run.calls;
    played
}

/// Whether both puts are accepted in both orders.
fn both_accepted(pair: &Pair, plays: &[Played; 2]) -> bool {
    let puts = pair.first..pair.first + 2;
    plays
        .iter()
        .all(|played| played.answers[puts.clone()].iter().all(Result::is_ok))
}

/// Whether the claim applies, or why it does not.
fn claim(pair: &Pair, plays: &[Played; 2]) -> Claim {
    let [one, other] = plays;
    let is_refused =
        |number: usize| one.answers[number].is_err() && other.answers[pair.place(number)].is_err();
    if is_refused(pair.first) || is_refused(pair.first + 1) {
        return Claim::DoesNotApply(0, kinds::PUT_REFUSED);
    }
    if let Some((number, refusal)) = refused_once(pair, plays) {
        let of_pair = number < pair.first + 2;
        return Claim::DoesNotApply(refusal, kinds::of_one_order(of_pair));
    }
    match one.closed() {
        None => Claim::DoesNotApply(0, kinds::NOT_CLOSED),
        Some(_) => Claim::Applies,
    }
}

/// The first call that is refused in one order only, with the number of the refusal.
fn refused_once(pair: &Pair, plays: &[Played; 2]) -> Option<(usize, u32)> {
    let [one, other] = plays;
    for number in 0..one.calls.len() {
        for (here, there) in [(one, other), (other, one)] {
            let answers = (here.answers[number], there.answers[pair.place(number)]);
            if let (Err((refusal, _)), Ok(_)) = answers {
                return Some((number, refusal));
            }
        }
    }
    None
}

/// Whether the lengths of the two puts agree modulo 8.
fn lengths_agree(pair: &Pair) -> bool {
    let [one, other] = pair.lengths();
    one % ALIGNMENT == other % ALIGNMENT
}

/// Just after the two puts the data end at the same place exactly where the lengths agree modulo 8, else at most 7 apart; the next multiple of 8 is the same.
fn ends_after_puts(pair: &Pair, plays: &[Played; 2], report: &mut Report) {
    let [one, other] = plays.each_ref().map(|played| played.end(pair.first + 1));
    report.same("same end", &lengths_agree(pair), &(one == other));
    report.same("ends within 7", &true, &(one.abs_diff(other) < ALIGNMENT));
    let next = |end: u64| end.next_multiple_of(ALIGNMENT);
    report.same("next multiple of 8", &next(one), &next(other));
}

/// Whether both puts are accepted, their lengths agree modulo 8, and the later calls have the same allowances: of these calls nothing is assumed.
fn assumes_nothing(pair: &Pair, plays: &[Played; 2]) -> bool {
    let [one, other] = plays;
    let later = pair.first + 2..;
    both_accepted(pair, plays)
        && lengths_agree(pair)
        && one.allowances[later.clone()] == other.allowances[later]
}

/// Then every answer from a call on is the same, accepted or not, and every number of the record.
pub fn same_later_answers(from: usize, plays: &[Played; 2], report: &mut Report) {
    let [one, other] = plays;
    for number in from..one.calls.len() {
        let what = format!("call {number}, nothing assumed");
        report.same(&what, &one.answers[number], &other.answers[number]);
        report.same(&what, &one.numbers[number], &other.numbers[number]);
    }
}

/// All answers are the same but for the stores that accepted puts report: node numbers, stores of close, refusals with their places. `place` is where a call
/// of one order is in the other.
pub fn same_answers(place: impl Fn(usize) -> usize, plays: &[Played; 2], report: &mut Report) {
    let [one, other] = plays;
    for (number, call) in one.calls.iter().enumerate() {
        let (here, there) = (one.answers[number], other.answers[place(number)]);
        let without_stores = |reported: Reported| match call {
            Call::Put(..) => reported.map(|_| 0),
            _ => reported,
        };
        let what = format!("call {number} in both orders");
        report.same(&what, &without_stores(here), &without_stores(there));
    }
}

/// The ends of data after each later call: from the first accepted put on they are the same.
fn same_ends(pair: &Pair, plays: &[Played; 2], report: &mut Report) {
    let [one, other] = plays;
    let Some(put) = one.accepted_put(pair.first + 2) else {
        return;
    };
    for number in put..one.calls.len() {
        let what = format!("end of data after call {number}");
        report.same(&what, &one.end(number), &other.end(number));
    }
}

/// The files of both orders.
fn same_files(pair: &Pair, plays: &[Played; 2], readers: &[Reading], report: &mut Report) {
    let same_size = lengths_agree(pair) || plays[0].accepted_put(pair.first + 2).is_some();
    for files in files_shown(plays, readers, report) {
        same_trees(&pair.nodes(), same_size, plays, &files, report);
    }
}

/// Both buffers show the tree that their calls describe, and open with begin's form by every reader. What each reader reads of both.
pub fn files_shown(
    plays: &[Played; 2],
    readers: &[Reading],
    report: &mut Report,
) -> Vec<[File; 2]> {
    for played in plays {
        shows_run(&played.calls, &played.answers, &played.buffer, report);
    }
    let read_both = |read: &Reading| {
        plays
            .each_ref()
            .map(|played| read(&played.buffer, begun(&played.calls).1))
    };
    let read: Vec<_> = readers.iter().map(read_both).collect();
    for there in &read[1..] {
        report.same("files by both readers", &read[0], there);
    }
    let mut files = Vec::new();
    for both in read {
        match both {
            [Ok(one), Ok(other)] => files.push([one, other]),
            refused => {
                let opened = refused.each_ref().map(Result::is_ok);
                report.same("opened", &[true, true], &opened);
            }
        }
    }
    files
}

/// The same trees, node for node; the data of every node but those of the puts moved at the same place; the same size exactly where it must be, else sizes that
/// differ by at most 7.
pub fn same_trees(
    moved: &[u64],
    same_size: bool,
    plays: &[Played; 2],
    files: &[File; 2],
    report: &mut Report,
) {
    let [one, other] = files;
    report.same("tree", &one.tree, &other.tree);
    let others = |file: &File| {
        let mut offsets = file.offsets.clone();
        for node in moved {
            if let Some(offset) = offsets.get_mut(*node as usize) {
                *offset = None;
            }
        }
        offsets
    };
    report.same("offsets of other nodes", &others(one), &others(other));
    let recorded = plays.each_ref().map(Played::size);
    report.same("size", &recorded, &[Some(one.size), Some(other.size)]);
    report.same("same size", &same_size, &(one.size == other.size));
    let apart = one.size.abs_diff(other.size);
    report.same("sizes within 7", &true, &(apart < ALIGNMENT));
}

/// What a pair is counted for, with the number of a refusal that comes in one order only, or 0.
pub fn met(pair: &Pair, plays: &[Played; 2]) -> Vec<(u32, kinds::Kind)> {
    let mut met = match claim(pair, plays) {
        Claim::DoesNotApply(number, kind) => vec![(number, kind)],
        Claim::Applies => applied_to(pair, plays).map(|kind| (0, kind)).to_vec(),
    };
    if assumes_nothing(pair, plays) {
        met.push((0, kinds::of_later(&plays[0].answers[pair.first + 2..])));
    }
    met
}

/// What a pair is like to which the claim applies.
fn applied_to(pair: &Pair, plays: &[Played; 2]) -> [kinds::Kind; 6] {
    let [one, other] = plays;
    [
        kinds::ALL,
        kinds::of_lengths(lengths_agree(pair)),
        kinds::of_later_put(one.accepted_put(pair.first + 2).is_some()),
        kinds::of_calls_after_close(one.calls_after_close()),
        kinds::of_files(plays.each_ref().map(Played::file)),
        kinds::of_allowances(&one.allowances, &other.allowances, pair.first),
    ]
}
