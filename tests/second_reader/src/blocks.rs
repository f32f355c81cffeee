//! Random runs for `AnyOrder` of request C-23: makes, then a block of puts to different nodes, in two orders, in a buffer that is never too small.

use crate::pairs::{begin, data, some_calls, Allowances, Order};
use crate::random::Random;
use crate::runs::{add, filled, make, void_nodes, Call, Run, Style};
use crate::writer::{Writer, ALIGNMENT, TEXT_AREA, TREE_AREA};

/// A run with a block of puts, and another order of them.
pub struct Block {
    pub run: Run,
    /// The number of the first put of the block among the calls.
    pub first: usize,
    /// For each put of the other order, its place in the block as drawn.
    pub order: Vec<usize>,
    /// What close may store.
    pub close: u64,
}

impl Block {
    /// The run of an order.
    pub fn run(&self, order: Order) -> Run {
        let mut calls = self.run.calls.clone();
        if order == Order::Exchanged {
            for (place, put) in self.order.iter().enumerate() {
                calls[self.first + place] = self.run.calls[self.first + put].clone();
            }
        }
        Run {
            buffer: self.run.buffer.clone(),
            text: self.run.text.clone(),
            tree: self.run.tree.clone(),
            calls,
        }
    }

    /// The allowances of some calls: 7 more than its bytes for each put, and for each close the one of the block.
    pub fn allowances(&self, calls: &[Call]) -> Allowances {
        let allowance = |call: &Call| match call {
            Call::Put(_, _, bytes) => bytes.len() as u64 + ALIGNMENT - 1,
            Call::Close => self.close,
            _ => u64::MAX,
        };
        Allowances::Each(calls.iter().map(allowance).collect())
    }

    /// The number of the first call after the block.
    pub fn after(&self) -> usize {
        self.first + self.order.len()
    }

    /// The nodes of the block's puts.
    pub fn nodes(&self) -> Vec<u64> {
        self.puts().iter().map(|(node, _)| *node).collect()
    }

    /// Whether the lengths of the last puts of the two orders agree modulo 8.
    pub fn lengths_agree(&self) -> bool {
        let puts = self.puts();
        let length = |place: usize| puts[place].1 % ALIGNMENT;
        let last = self.order.len() - 1;
        length(last) == length(self.order[last])
    }

    /// Node and length of each put of the block.
    fn puts(&self) -> Vec<(u64, u64)> {
        let put = |call: &Call| match call {
            Call::Put(node, _, bytes) => (*node, bytes.len() as u64),
            other => unreachable!("{other:?} is no put"),
        };
        let calls = &self.run.calls[self.first..self.after()];
        calls.iter().map(put).collect()
    }
}

/// A length of buffer that is never too small: 168 bytes, 14 and the bytes of the name for each make, 19 and the bytes of the data for each put.
pub fn never_too_small(calls: &[Call]) -> usize {
    let most = |call: &Call| match call {
        Call::Make(_, name) => 14 + name.len(),
        Call::Put(_, _, bytes) => 19 + bytes.len(),
        _ => 0,
    };
    168 + calls.iter().map(most).sum::<usize>()
}

/// A random run with a block of 2 to 12 puts, and a random other order of them.
pub fn random_block(random: &Random) -> Block {
    let mut run = Run {
        buffer: filled(random, 12_000),
        text: random.bytes(TEXT_AREA),
        tree: random.bytes(TREE_AREA),
        calls: Vec::new(),
    };
    let mut model = run.desk();
    add(&mut run, &mut model, begin(random));
    let (few, more) = ([0, 0, 2, 3, 6, 12], [0, 0, 1, 2, 5, 9]);
    some_calls(random, &mut run, &mut model, Style::Usual, &few);
    let puts = random.between(2, 12);
    makes_until(random, &mut run, &mut model, puts);
    let first = run.calls.len();
    for put in block(random, void_nodes(&model), puts) {
        assert!(add(&mut run, &mut model, put), "lawful puts");
    }
    some_calls(random, &mut run, &mut model, Style::Usual, &more);
    let close = close_allowance(random, &model);
    add(&mut run, &mut model, Call::Close);
    some_calls(random, &mut run, &mut model, Style::Usual, &[0, 0, 1, 2]);
    let length = never_too_small(&run.calls);
    run.buffer.resize(length, 5);
    Block {
        run,
        first,
        order: other_order(random, puts),
        close,
    }
}

/// Makes, some of them refused, until there are so many Void nodes.
fn makes_until(random: &Random, run: &mut Run, model: &mut Writer, nodes: usize) {
    while void_nodes(model).len() < nodes {
        let call = make(random, model, Style::Usual);
        add(run, model, call);
    }
}

/// Lawful puts to some of the nodes. In four of sixteen blocks each put but the first needs 7 bytes of padding, the most that there is; in one no put has a byte.
fn block(random: &Random, mut nodes: Vec<u64>, puts: usize) -> Vec<Call> {
    random.shuffle(&mut nodes);
    let lengths = random.below(16);
    let put = |node: &u64| {
        let (code, bytes) = match lengths {
            0 => (2, Vec::new()),
            1..=4 => (2, random.bytes(1 + 8 * random.below(3))),
            _ => data(random),
        };
        Call::Put(*node, code, bytes)
    };
    nodes[..puts].iter().map(put).collect()
}

/// What close needs, or more; one less, now and then, so that it is refused by 23.
fn close_allowance(random: &Random, model: &Writer) -> u64 {
    let needed = model.closing().len() as u64;
    match random.below(12) {
        0 => needed - 1,
        1..=6 => needed,
        _ => u64::MAX,
    }
}

/// The numbers below n in an order that is not ascending (n above 1).
fn other_order(random: &Random, n: usize) -> Vec<usize> {
    let mut order = random.permutation(n);
    while order.is_sorted() {
        random.shuffle(&mut order);
    }
    order
}
