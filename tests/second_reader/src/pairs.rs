//! Random pairs of runs for request C-23: after one begin the same calls, but two neighbouring puts to different nodes have changed places.

use crate::format::{Edition, Kind};
use crate::random::Random;
use crate::runs::{add, filled, make, middle, play, stores, void_nodes, Call, Run, Style};
use crate::writer::{Reported, Writer, TEXT_AREA, TREE_AREA};

/// Both orders of a pair: as the calls were drawn, and with the two puts exchanged.
pub const ORDERS: [Order; 2] = [Order::Drawn, Order::Exchanged];

#[derive(Clone, Copy, PartialEq, Eq, Debug)]
pub enum Order {
    Drawn,
    Exchanged,
}

/// What the calls of one order may store.
#[derive(Clone, PartialEq, Eq, Debug)]
pub enum Allowances {
    /// One for each call.
    Each(Vec<u64>),
    /// One total: each call gets what the earlier ones left.
    Total(u64),
}

/// A run, the number of the first of the two puts among its calls, and the allowances of both orders.
pub struct Pair {
    pub run: Run,
    pub first: usize,
    pub allowances: [Allowances; 2],
}

impl Pair {
    /// The run of an order.
    pub fn run(&self, order: Order) -> Run {
        Run {
            buffer: self.run.buffer.clone(),
            text: self.run.text.clone(),
            tree: self.run.tree.clone(),
            calls: in_order(&self.run.calls, self.first, order),
        }
    }

    /// The lengths of the two puts, as they were drawn.
    pub fn lengths(&self) -> [u64; 2] {
        [self.first, self.first + 1].map(|number| match &self.run.calls[number] {
            Call::Put(_, _, bytes) => bytes.len() as u64,
            other => unreachable!("{other:?} is no put"),
        })
    }

    /// The nodes of the two puts, as they were drawn.
    pub fn nodes(&self) -> [u64; 2] {
        [self.first, self.first + 1].map(|number| match &self.run.calls[number] {
            Call::Put(node, _, _) => *node,
            other => unreachable!("{other:?} is no put"),
        })
    }

    /// Where a call of one order is in the other.
    pub fn place(&self, number: usize) -> usize {
        exchanged(number, self.first)
    }
}

/// The number of a call after the two from `first` on have changed places.
fn exchanged(number: usize, first: usize) -> usize {
    match number {
        _ if number == first => first + 1,
        _ if number == first + 1 => first,
        _ => number,
    }
}

/// A list with one item for each call, in an order.
fn in_order<T: Clone>(items: &[T], first: usize, order: Order) -> Vec<T> {
    let mut items = items.to_vec();
    if order == Order::Exchanged {
        items.swap(first, first + 1);
    }
    items
}

/// A random pair. Both puts are accepted when they are drawn; a shorter buffer or an allowance may have them refused.
pub fn random_pair(random: &Random) -> Pair {
    let style = if random.one_in(100) {
        Style::Long
    } else {
        Style::Usual
    };
    let mut run = Run {
        buffer: filled(random, if style == Style::Long { 140_000 } else { 8_000 }),
        text: random.bytes(TEXT_AREA),
        tree: random.bytes(TREE_AREA),
        calls: Vec::new(),
    };
    let mut model = run.desk();
    add(&mut run, &mut model, begin(random));
    some_calls(
        random,
        &mut run,
        &mut model,
        Style::Usual,
        &[0, 2, 3, 6, 12, 25],
    );
    while void_nodes(&model).len() < 2 {
        let call = make(random, &model, Style::Usual);
        add(&mut run, &mut model, call);
    }
    let first = run.calls.len();
    for put in two_puts(random, &void_nodes(&model)) {
        assert!(add(&mut run, &mut model, put), "the buffer is long enough");
    }
    some_calls(random, &mut run, &mut model, style, &[0, 0, 1, 2, 5, 9]);
    if !random.one_in(20) {
        add(&mut run, &mut model, Call::Close);
        some_calls(random, &mut run, &mut model, style, &[0, 0, 1, 2]);
        if random.one_in(6) {
            add(&mut run, &mut model, Call::Close);
        }
    }
    run.buffer.resize(length(random, &run, first), 5);
    let allowances = allowances(random, &run, first);
    Pair {
        run,
        first,
        allowances,
    }
}

/// A lawful begin, some with another form.
pub fn begin(random: &Random) -> Call {
    let edition = random.pick(&Edition::WRITTEN);
    match random.one_in(8) {
        true => Call::Begin(edition.number() as u32, random.bytes(12)),
        false => Call::begin(edition),
    }
}

/// Makes and puts, most of them lawful, as many as one of the numbers.
pub fn some_calls(
    random: &Random,
    run: &mut Run,
    model: &mut Writer,
    style: Style,
    numbers: &[usize],
) {
    for _ in 0..random.pick(numbers) {
        let call = middle(random, model, style);
        add(run, model, call);
    }
}

/// Lawful puts to two different nodes of a list.
fn two_puts(random: &Random, nodes: &[u64]) -> [Call; 2] {
    let mut nodes = nodes.to_vec();
    random.shuffle(&mut nodes);
    let (code, bytes) = data(random);
    let (other_code, other_bytes) = match random.one_in(4) {
        // Chars whose length agrees with the first one modulo 8.
        true => (2, random.bytes(bytes.len() % 8 + 8 * random.below(3))),
        false => data(random),
    };
    [
        Call::Put(nodes[0], code, bytes),
        Call::Put(nodes[1], other_code, other_bytes),
    ]
}

/// The code of a type, and bytes of some elements; of none, now and then.
pub fn data(random: &Random) -> (u64, Vec<u8>) {
    let code = random.pick(&[2, 2, 2, 3, 3, 4, 5]);
    let width = Kind::from_code(code).expect("a type").width();
    let most = if width == 1 { 17 } else { 5 };
    let count = match random.below(10) {
        0 => 0,
        _ => random.between(1, most),
    };
    (code, random.bytes(count * width))
}

/// The finished sizes of both orders after so many calls, where nothing is short.
fn sizes(run: &Run, first: usize, calls: usize) -> [u64; 2] {
    ORDERS.map(|order| {
        let mut model = run.desk();
        play(
            &mut model,
            &in_order(&run.calls, first, order)[..calls],
            u64::MAX,
        );
        model.finished()
    })
}

/// The length of a buffer: about the finished sizes after the two puts or at the end, and so between those of the two orders; shorter; or long enough.
fn length(random: &Random, run: &Run, first: usize) -> usize {
    let about = |calls: usize| {
        let [one, other] = sizes(run, first, calls);
        let (low, high) = (one.min(other), one.max(other));
        random.between(low as usize - 1, high as usize + 1)
    };
    let header = Edition::Two.header();
    match random.below(8) {
        0..=1 => about(first + 2),
        2..=3 => about(run.calls.len()),
        4 => random.between(header, run.buffer.len()),
        5 => header + random.below(200),
        _ => run.buffer.len(),
    }
}

/// The stores that each call of an order makes where allowances are not short.
fn needed(run: &Run, first: usize, order: Order) -> Vec<u64> {
    needed_by(&in_order(&run.calls, first, order), run)
}

/// The stores that each of some calls makes on a run's buffer where allowances are not short.
pub fn needed_by(calls: &[Call], run: &Run) -> Vec<u64> {
    let answers: Vec<Reported> = play(&mut run.desk(), calls, u64::MAX);
    let made = calls.iter().zip(&answers);
    made.map(|(call, reported)| stores(call, reported))
        .collect()
}

/// The allowances of both orders: without limit; the same for the same call; those that each order needs; or one total. Many are tight.
fn allowances(random: &Random, run: &Run, first: usize) -> [Allowances; 2] {
    let needs = ORDERS.map(|order| needed(run, first, order));
    match random.below(10) {
        0..=2 => ORDERS.map(|_| Allowances::Each(vec![u64::MAX; run.calls.len()])),
        3..=5 => {
            let shared = shared(random, &needs, first);
            ORDERS.map(|order| Allowances::Each(in_order(&shared, first, order)))
        }
        6..=7 => own(random, needs, first).map(Allowances::Each),
        _ => {
            let total = total(random, &needs);
            ORDERS.map(|_| Allowances::Total(total))
        }
    }
}

/// One allowance for each call, in the order drawn: what one order needs, or what both need; and one of them short by one, now and then.
fn shared(random: &Random, needs: &[Vec<u64>; 2], first: usize) -> Vec<u64> {
    let drawn = &needs[0];
    let exchanged = in_order(&needs[1], first, Order::Exchanged);
    let both = drawn.iter().zip(&exchanged).map(|(a, b)| *a.max(b));
    let mut shared = match random.below(6) {
        0 => drawn.clone(),
        1 => exchanged,
        _ => both.collect(),
    };
    if random.one_in(6) {
        shorten(random, &mut shared, 0);
    }
    shared
}

/// What each order needs, and up to two more for a call. Before the two puts both orders have the same.
fn own(random: &Random, needs: [Vec<u64>; 2], first: usize) -> [Vec<u64>; 2] {
    needs.map(|mut order| {
        for allowance in &mut order[first..] {
            *allowance += random.below(3) as u64;
        }
        if random.one_in(8) {
            shorten(random, &mut order, first);
        }
        order
    })
}

/// Takes one from an allowance, from a call on, where there is one to take.
fn shorten(random: &Random, allowances: &mut [u64], from: usize) {
    let call = random.between(from, allowances.len() - 1);
    allowances[call] = allowances[call].saturating_sub(1);
}

/// A total about what the two orders need, or any that is smaller.
fn total(random: &Random, needs: &[Vec<u64>; 2]) -> u64 {
    let sums: [u64; 2] = [needs[0].iter().sum(), needs[1].iter().sum()];
    let (low, high) = (sums[0].min(sums[1]), sums[0].max(sums[1]));
    match random.below(6) {
        0 => random.below(high as usize + 1) as u64,
        1..=3 => random.between(low.saturating_sub(1) as usize, high as usize + 1) as u64,
        _ => high + random.below(20) as u64,
    }
}
