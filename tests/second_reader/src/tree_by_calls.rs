//! `TreeByCalls` of request C-23: the tree that a file shows depends on the accepted makes in their order and on the accepted puts in any order, and on nothing
//! else of the run.

use crate::kinds;
use crate::moved::{random_runs, Planned};
use crate::orders::{count, files_shown, played_run, Others, Played};
use crate::random::Random;
use crate::report::Report;
use crate::runs::{begun, Call, NewDesk};
use crate::trees::Reading;

/// A random pair of runs of a seed.
pub fn compare(seed: u64, number: u64, others: Others, report: &mut Report) {
    let runs = random_runs(&Random::of(seed, number));
    report.begin_moved(seed, number);
    let meant = runs.each_ref().map(|planned| planned.meant.clone());
    let plays = runs.map(|planned| played(planned, others.desk, report));
    compare_plays(&meant, &plays, others.readers, report);
    let met = met(&plays).map(|kind| (0, kind));
    count(&plays, met.to_vec(), report);
    report.end(&[]);
}

/// Plays a planned run.
pub fn played(planned: Planned, desk: Option<NewDesk>, report: &mut Report) -> Played {
    played_run(planned.run, &planned.allowances, desk, report)
}

/// The calls that are meant are accepted, and no others; makes report the same numbers; both files open and show the same tree.
pub fn compare_plays(
    meant: &[Vec<bool>; 2],
    plays: &[Played; 2],
    readers: &[Reading],
    report: &mut Report,
) {
    for (meant, played) in meant.iter().zip(plays) {
        let accepted: Vec<bool> = played.answers.iter().map(Result::is_ok).collect();
        report.same("accepted calls", meant, &accepted);
    }
    let [one, other] = plays;
    report.same("node numbers", &node_numbers(one), &node_numbers(other));
    for [one, other] in files_shown(plays, readers, report) {
        report.same("tree", &one.tree, &other.tree);
    }
}

/// The calls that were accepted, with their numbers.
fn accepted(played: &Played) -> impl Iterator<Item = (usize, &Call)> {
    let calls = played.calls.iter().enumerate();
    calls.filter(|(number, _)| played.answers[*number].is_ok())
}

/// What the accepted makes report.
fn node_numbers(played: &Played) -> Vec<u64> {
    accepted(played)
        .filter(|(_, call)| matches!(call, Call::Make(..)))
        .filter_map(|(number, _)| played.answers[number].ok())
        .collect()
}

/// The nodes of the accepted puts, in order.
fn put_nodes(played: &Played) -> Vec<u64> {
    let node = |(_, call): (usize, &Call)| match call {
        Call::Put(node, _, _) => Some(*node),
        _ => None,
    };
    accepted(played).filter_map(node).collect()
}

/// Whether an accepted put comes before an accepted make.
fn put_before_make(played: &Played) -> bool {
    let calls: Vec<&Call> = accepted(played).map(|(_, call)| call).collect();
    let put = calls.iter().position(|call| matches!(call, Call::Put(..)));
    let make = calls
        .iter()
        .rposition(|call| matches!(call, Call::Make(..)));
    put.zip(make).is_some_and(|(put, make)| put < make)
}

/// What a pair of runs is counted for.
pub fn met(plays: &[Played; 2]) -> [kinds::Kind; 5] {
    let [one, other] = plays.each_ref().map(put_nodes);
    let editions = plays.each_ref().map(|played| begun(&played.calls).0);
    [
        kinds::ALL,
        kinds::of_editions(editions[0] == editions[1]),
        kinds::of_put_order(one == other),
        kinds::of_puts_among_makes(plays.each_ref().map(put_before_make)),
        kinds::of_files(plays.each_ref().map(Played::file)),
    ]
}
