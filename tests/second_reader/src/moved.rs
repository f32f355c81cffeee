//! Random pairs of runs for `TreeByCalls` of request C-23: the same makes in the same order, and the same puts, each anywhere after the make of its node. Refused
//! calls, edition, form, buffer, areas and allowances are drawn for each run.

use crate::format::{Edition, Kind};
use crate::images::subkey;
use crate::pairs::{begin, data, needed_by, some_calls, Allowances};
use crate::random::Random;
use crate::runs::{add, bad_name, begun, filled, void_nodes, Call, Run, Style};
use crate::writer::{Writer, TEXT_AREA, TREE_AREA};

/// A run with its allowances.
pub struct Planned {
    pub run: Run,
    pub allowances: Allowances,
    /// Whether each call is meant to be accepted.
    pub meant: Vec<bool>,
}

/// What both runs have in common. Node n is made by the make at place n - 1.
struct Contents {
    makes: Vec<Call>,
    puts: Vec<Call>,
}

/// Two runs with the same contents.
pub fn random_runs(random: &Random) -> [Planned; 2] {
    let begins = [begin(random), begin(random)];
    let editions = begins.each_ref().map(|begin| {
        let (edition, _) = begun(std::slice::from_ref(begin));
        edition
    });
    // A name of edition 2 is one of edition 3, too.
    let contents = contents(random, editions[0].min(editions[1]));
    begins.map(|begin| planned(random, begin, &contents))
}

/// Some nodes, some of them with data.
fn contents(random: &Random, edition: Edition) -> Contents {
    let nodes = random.pick(&[1, 2, 3, 4, 6, 9, 14, 30]);
    let mut children: Vec<(u64, Vec<u8>)> = Vec::new();
    while children.len() < nodes {
        let parent = random.below(children.len() + 1) as u64;
        let name = match random.one_in(3) && !children.is_empty() {
            true => random.pick(&children).1,
            false => subkey(random, edition),
        };
        if !children.contains(&(parent, name.clone())) {
            children.push((parent, name));
        }
    }
    let with_data = (1..=nodes as u64).filter(|_| !random.one_in(4));
    let put = |node: u64| {
        let (code, bytes) = data(random);
        Call::Put(node, code, bytes)
    };
    Contents {
        puts: with_data.map(put).collect(),
        makes: children
            .into_iter()
            .map(|(parent, name)| Call::Make(parent, name))
            .collect(),
    }
}

/// The makes in order, and each put anywhere after the make of its node; in one of four runs after all makes.
fn arranged(random: &Random, contents: &Contents) -> Vec<Call> {
    let last = contents.makes.len();
    let puts_last = random.one_in(4);
    let mut puts_after = vec![Vec::new(); last + 1];
    for number in random.permutation(contents.puts.len()) {
        let put = &contents.puts[number];
        let first = match put {
            Call::Put(node, _, _) if !puts_last => *node as usize,
            _ => last,
        };
        puts_after[random.between(first, last)].push(put.clone());
    }
    let mut calls = Vec::new();
    for (number, puts) in puts_after.into_iter().enumerate() {
        if number > 0 {
            calls.push(contents.makes[number - 1].clone());
        }
        calls.extend(puts);
    }
    calls
}

/// A run with its own buffer and areas, refused calls among the others, a close, and some calls after it.
fn planned(random: &Random, begin: Call, contents: &Contents) -> Planned {
    let length = 10_000 + random.below(4_000);
    let mut run = Run {
        buffer: filled(random, length),
        text: random.bytes(TEXT_AREA),
        tree: random.bytes(TREE_AREA),
        calls: Vec::new(),
    };
    let mut model = run.desk();
    let mut meant = Vec::new();
    let refused_one_in = random.pick(&[2, 4, 1000]);
    let calls = [vec![begin], arranged(random, contents), vec![Call::Close]];
    for call in calls.concat() {
        while !meant.is_empty() && random.one_in(refused_one_in) {
            let refused = refused(random, &model, &contents.makes);
            meant.push(add(&mut run, &mut model, refused.clone()));
            assert_eq!(meant.last(), Some(&false), "{refused:?}");
        }
        meant.push(add(&mut run, &mut model, call.clone()));
        assert_eq!(meant.last(), Some(&true), "{call:?}");
    }
    some_calls(random, &mut run, &mut model, Style::Usual, &[0, 0, 1, 2]);
    meant.resize(run.calls.len(), false);
    Planned {
        allowances: allowances(random, &run),
        run,
        meant,
    }
}

/// A call that is refused now, by 14, 15, 17, 18, 19 or 21.
fn refused(random: &Random, now: &Writer, makes: &[Call]) -> Call {
    let nodes = now.record.nodes;
    let edition = Edition::written(now.record.edition).expect("begun");
    let any_node = random.below(nodes as usize + 1) as u64;
    let no_node = random.pick(&[nodes + 1, nodes + 2, 1 << 32, u64::MAX]);
    let (code, bytes) = data(random);
    let void = void_nodes(now);
    let full: Vec<u64> = (1..=nodes).filter(|node| !void.contains(node)).collect();
    match random.below(8) {
        0 => Call::Make(any_node, bad_name(random, edition)),
        1 => Call::Make(no_node, subkey(random, edition)),
        2..=3 if nodes > 0 => random.pick(&makes[..nodes as usize]),
        4 => Call::Put(any_node, random.pick(&[0, 1, 6, 1 << 32 | 3]), bytes),
        5 => wrong_length(random, any_node),
        6 if !full.is_empty() => Call::Put(random.pick(&full), code, bytes),
        7 if !void.is_empty() => {
            let too_long = vec![7; now.buffer.len() - random.below(168)];
            Call::Put(random.pick(&void), 2, too_long)
        }
        _ => Call::Put(random.pick(&[0, no_node]), code, bytes),
    }
}

/// A put of bytes that are no whole number of elements.
fn wrong_length(random: &Random, node: u64) -> Call {
    let code = random.pick(&[3, 4, 5]);
    let width = Kind::from_code(code).expect("a type").width();
    let size = width * random.below(3) + random.between(1, width - 1);
    Call::Put(node, code, random.bytes(size))
}

/// Allowances that suffice: without limit, exactly what each call needs, or one total.
fn allowances(random: &Random, run: &Run) -> Allowances {
    let needed = needed_by(&run.calls, run);
    match random.below(4) {
        0 => Allowances::Each(vec![u64::MAX; needed.len()]),
        1 => Allowances::Each(needed),
        2 => Allowances::Total(needed.iter().sum()),
        _ => Allowances::Total(needed.iter().sum::<u64>() + random.below(20) as u64),
    }
}
