//! `AnyOrder` of request C-23: in a buffer that is never too small, with allowances that suffice, a block of puts may come in any order. Two orders are played
//! on the writer. Nothing is assumed of either: every call must be accepted in both or refused in both.

use crate::blocks::{random_block, Block};
use crate::kinds;
use crate::orders::{count, files_shown, played_run, same_answers, same_later_answers};
use crate::orders::{same_trees, Others, Played};
use crate::pairs::{Order, ORDERS};
use crate::random::Random;
use crate::report::Report;
use crate::runs::{Call, NewDesk};
use crate::trees::Reading;
use crate::writer::ALIGNMENT;

/// A random block of a seed.
pub fn compare(seed: u64, number: u64, others: Others, report: &mut Report) {
    let block = random_block(&Random::of(seed, number));
    report.begin_block(seed, number);
    let plays = ORDERS.map(|order| played(&block, order, others.desk, report));
    compare_plays(&block, &plays, others.readers, report);
    let met = met(&block, &plays).into_iter().map(|kind| (0, kind));
    count(&plays, met.collect(), report);
    report.end(&[]);
}

/// Plays an order of a block.
pub fn played(block: &Block, order: Order, desk: Option<NewDesk>, report: &mut Report) -> Played {
    let run = block.run(order);
    let allowances = block.allowances(&run.calls);
    played_run(run, &allowances, desk, report)
}

/// Compares all that is claimed of two orders.
pub fn compare_plays(block: &Block, plays: &[Played; 2], readers: &[Reading], report: &mut Report) {
    for played in plays {
        nothing_short(block, played, report);
    }
    // All puts of the block are accepted, so it does not matter which of them are compared.
    same_answers(|number| number, plays, report);
    same_ends(block, plays, report);
    if block.lengths_agree() {
        same_later_answers(block.after(), plays, report);
    }
    if plays[0].closed().is_some() {
        same_files(block, plays, readers, report);
    }
}

/// All puts of the block are accepted; no call is refused by 21, and no put by 23.
fn nothing_short(block: &Block, played: &Played, report: &mut Report) {
    let puts = &played.answers[block.first..block.after()];
    report.same(
        "all puts of the block accepted",
        &true,
        &puts.iter().all(Result::is_ok),
    );
    for (number, call) in played.calls.iter().enumerate() {
        let refusal = played.answers[number].err().map_or(0, |(number, _)| number);
        let is_put = matches!(call, Call::Put(..));
        let short = refusal == 21 || (is_put && refusal == 23);
        let what = format!("call {number} refused by 21 or 23");
        report.same(&what, &false, &short);
    }
}

/// The number of the first accepted put after the block.
fn later_put(block: &Block, plays: &[Played; 2]) -> Option<usize> {
    plays[0].accepted_put(block.after())
}

/// From the last put of the block on: the next multiple of 8 is the same, and the ends of data are the same exactly where the lengths of the last puts agree
/// modulo 8 or a later put has been accepted.
fn same_ends(block: &Block, plays: &[Played; 2], report: &mut Report) {
    let [one, other] = plays;
    let put = later_put(block, plays);
    for number in block.after() - 1..one.calls.len() {
        let what = format!("end of data after call {number}");
        let (here, there) = (one.end(number), other.end(number));
        let next = |end: u64| end.next_multiple_of(ALIGNMENT);
        report.same(&what, &next(here), &next(there));
        let same = block.lengths_agree() || put.is_some_and(|put| put <= number);
        report.same(&what, &same, &(here == there));
    }
}

/// Both files open and show the same tree; sizes differ by as much as the ends of data.
fn same_files(block: &Block, plays: &[Played; 2], readers: &[Reading], report: &mut Report) {
    let same_size = block.lengths_agree() || later_put(block, plays).is_some();
    let last = plays[0].calls.len() - 1;
    let ends = plays.each_ref().map(|played| played.end(last));
    for files in files_shown(plays, readers, report) {
        same_trees(&block.nodes(), same_size, plays, &files, report);
        let [one, other] = &files;
        let sums = [one.size + ends[1], other.size + ends[0]];
        report.same("sizes and ends", &sums[0], &sums[1]);
    }
}

/// What a block is counted for.
pub fn met(block: &Block, plays: &[Played; 2]) -> Vec<kinds::Kind> {
    let [one, _] = plays;
    if one.closed().is_none() {
        return vec![kinds::NOT_CLOSED];
    }
    let left = |played: &Played| played.buffer.len() - played.file().len();
    let left = plays.each_ref().map(left);
    vec![
        kinds::ALL,
        kinds::of_block(block.order.len()),
        kinds::of_last_lengths(block.lengths_agree()),
        kinds::of_later_put(later_put(block, plays).is_some()),
        kinds::of_calls_after_close(one.calls_after_close()),
        kinds::of_files(plays.each_ref().map(Played::file)),
        kinds::of_bytes_left(left[0].min(left[1])),
    ]
}
