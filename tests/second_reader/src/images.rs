//! Lawful images of all editions: random trees, names, kinds, and places of the sections. `damage.rs` spoils them.

use crate::damage;
use crate::format::{Edition, Kind, DATA, MOST, SIGNATURE, SYMBOLS, TEXT, TREE};
use crate::md5::md5;
use crate::open::{Refused, Span};
use crate::random::Random;
use std::collections::HashSet;

/// What the maker of an image knows of it.
#[derive(Clone, Copy, PartialEq, Eq, Debug)]
pub enum Aim {
    Accepted,
    Refused(Refused),
    Unknown,
}

pub struct Image {
    pub bytes: Vec<u8>,
    pub aim: Aim,
    pub what: String,
}

/// A tree entry as it is written, whether or not it is lawful.
#[derive(Clone, Copy)]
pub struct Node {
    pub code: u8,
    pub parent: u64,
    pub string: u32,
    pub count: u32,
    pub offset: u64,
}

impl Node {
    pub fn is_void(&self) -> bool {
        self.code == Kind::Void.code()
    }

    /// Bytes of an element; 1 where the type does not exist.
    pub fn width(&self) -> usize {
        Kind::from_code(u64::from(self.code)).map_or(1, Kind::width)
    }

    pub fn bytes(&self) -> Vec<u8> {
        let mut bytes = vec![self.code];
        bytes.extend(self.parent.to_be_bytes());
        bytes.extend(self.string.to_be_bytes());
        if !self.is_void() {
            bytes.extend(self.count.to_be_bytes());
            bytes.extend(self.offset.to_be_bytes());
        }
        bytes
    }
}

/// An image in the making: its tables, where its sections stand, and all its bytes.
#[derive(Clone)]
pub struct Draft {
    pub edition: Edition,
    pub strings: Vec<Vec<u8>>,
    /// Whether the last string has no zero, where it has a byte (request C-13).
    pub unterminated: bool,
    pub nodes: Vec<Node>,
    /// Bytes after the last entry, in the tree section; bytes cut off its end.
    pub tail: Vec<u8>,
    pub cut: usize,
    pub bytes: Vec<u8>,
    pub spans: [Span; 3],
    pub records: [u64; 3],
}

impl Draft {
    pub fn symbols(&self) -> Vec<u8> {
        let ended = |string: &Vec<u8>| [string.as_slice(), &[0]].concat();
        let mut bytes: Vec<u8> = self.strings.iter().flat_map(ended).collect();
        if self.lacks_zero() {
            bytes.pop();
        }
        bytes
    }

    /// Whether the symbol section ends with a byte of its last string. An empty string has its zero always: without it, it would be none.
    pub fn lacks_zero(&self) -> bool {
        self.unterminated && self.strings.last().is_some_and(|string| !string.is_empty())
    }

    pub fn tree(&self) -> Vec<u8> {
        let mut bytes: Vec<u8> = self.nodes.iter().flat_map(Node::bytes).collect();
        bytes.extend(&self.tail);
        bytes.truncate(bytes.len() - self.cut);
        bytes
    }

    fn put(&mut self, place: usize, bytes: &[u8]) {
        self.bytes[place..place + bytes.len()].copy_from_slice(bytes);
    }

    /// Writes both tables to their sections, then the header.
    pub fn finish(mut self) -> Vec<u8> {
        let (symbols, tree) = (self.symbols(), self.tree());
        self.put(self.spans[SYMBOLS].offset as usize, &symbols);
        self.put(self.spans[TREE].offset as usize, &tree);
        self.seal();
        self.bytes
    }

    /// Writes the header: signature, places, sums.
    pub fn seal(&mut self) {
        self.put(0, self.edition.text());
        self.put(TEXT, &self.edition.form());
        for section in 0..3 {
            let place = self.edition.place_of(section);
            self.put(place, &self.spans[section].offset.to_be_bytes());
            self.put(place + 8, &self.spans[section].size.to_be_bytes());
            if self.edition.has_counts() {
                self.put(place + 16, &self.records[section].to_be_bytes());
            }
        }
        sum_again(&mut self.bytes, self.edition, &self.spans);
    }
}

/// Makes the sums right: symbol, tree, data, header, so that a section may cover the sums before its own.
pub fn sum_again(bytes: &mut [u8], edition: Edition, spans: &[Span; 3]) {
    let whole = Span {
        offset: 0,
        size: bytes.len() as u64,
    };
    for (section, span) in spans.iter().enumerate() {
        if whole.holds(span.offset, span.size) {
            let sum = md5(&bytes[span.offset as usize..][..span.size as usize]);
            let place = edition.place_of_sum(section);
            bytes[place..place + 16].copy_from_slice(&sum);
        }
    }
    sum_header(bytes, edition);
}

/// Makes the header sum right.
pub fn sum_header(bytes: &mut [u8], edition: Edition) {
    let sum = md5(&bytes[..edition.summed()]);
    bytes[edition.summed()..edition.header()].copy_from_slice(&sum);
}

/// Parents in order of making: the parent of node i + 1 is at most i.
fn shape(random: &Random) -> Vec<u64> {
    let nodes = match random.below(60) {
        0..=3 => 0,
        4..=30 => random.between(1, 8),
        31..=56 => random.between(9, 90),
        57..=58 => random.between(91, 400),
        _ => random.pick(&[MOST - 1, MOST, MOST]),
    };
    let form = random.below(5);
    let parent = |i: usize, random: &Random| match form {
        0 => i,
        1 => 0,
        2 => i.saturating_sub(random.below(3)),
        _ => random.below(i + 1),
    };
    (0..nodes).map(|i| parent(i, random) as u64).collect()
}

const FIRST: &[u8] = b"ABCXYZabcxyzqQ_:";
const LATER: &[u8] = b"ABCXYZabcxyz0189.-_:";

/// Names that only edition 3 has (C-15). Some are like the listers' escapes, or like the end of a line.
pub const WIDE_NAMES: [&[u8]; 26] = [
    b"9a",
    b"0",
    b".",
    b"..",
    b"-",
    b" ",
    b"  ",
    b"a b",
    b"a ",
    b"\n",
    b"a\n",
    b"\r\n",
    b"\t",
    b"\\",
    b"\\x20",
    b"\\x5c",
    b"0x20",
    b"\x01",
    b"\x7f",
    b"~",
    b"\xff",
    b"\xc3\xa9",
    b"p x=\xff\\",
    b" void 0",
    b"momentum,1",
    b"LHPC AFF version 3.0",
];

/// Bytes at the bounds of what the listers print as it is, and at those of the narrow names. Any other but `/` and zero is drawn besides.
const WIDE: &[u8] = b"\x01\x02\t\n\x1e\x1f !\"#-.09:;@AZ[\\]^_`az{|}~\x7f\x80\x81\xfe\xff";

/// Any byte of a subkey of edition 3.
fn wide_byte(random: &Random) -> u8 {
    let any = match 1 + random.below(254) as u8 {
        b'/' => 255,
        byte => byte,
    };
    random.pick(&[random.pick(WIDE), any])
}

/// A random subkey of an edition; a few in a hundred are long. In edition 3 a third are those of the other editions.
pub fn subkey(random: &Random, edition: Edition) -> Vec<u8> {
    let length = match random.below(40) {
        0 => random.between(20, 70),
        1..=30 => random.below(3),
        _ => random.below(8),
    };
    let wide = edition == Edition::Three;
    match random.below(6) {
        0 if wide => random.pick(&WIDE_NAMES).to_vec(),
        1..=3 if wide => (0..=length).map(|_| wide_byte(random)).collect(),
        _ => {
            let later = (0..length).map(|_| random.pick(LATER));
            [random.pick(FIRST)].into_iter().chain(later).collect()
        }
    }
}

/// Strings that are no subkeys of an edition: each may stand in the table while no node has it for its name. With each the place of the first byte that
/// breaks the rule (C-18), by hand.
const NO_NARROW: [(&[u8], u64); 18] = [
    (b"", 0),
    (b"9a", 0),
    (b".a", 0),
    (b"-", 0),
    (b"a/b", 1),
    (b"/", 0),
    (b"a b", 1),
    (b" ", 0),
    (b"a;", 1),
    (b"a\x01", 1),
    (b"\xc3\xa9", 0),
    (b"a\xff", 1),
    (b"a@", 1),
    (b"[", 0),
    (b"momentum,1", 8),
    (b"a.b c d", 3),
    (b"..", 0),
    (b"a\\n", 1),
];
const NO_WIDE: [(&[u8], u64); 9] = [
    (b"", 0),
    (b"/", 0),
    (b"//", 0),
    (b"/a", 0),
    (b"a/", 1),
    (b"a/b", 1),
    (b" /", 1),
    (b"9\n\\/x", 3),
    (b"momentum,1/x/y", 10),
];

/// Bytes that are in no subkey of editions 1 and 2, other than zero. The first of them is not a subkey's, and neither is a digit, a dot or a minus.
pub const NEVER: &[u8] = b" /,;@[`{\x01!\"#$%&'()*+<=>?\\]^|}~\x7f\x80\xe9\xff";
const NEVER_FIRST: &[u8] = b"09.-";

/// A string that is no subkey of an edition, and the place of the first byte that breaks the rule: one of the list, or a subkey with another byte in
/// place of its first, its last or one between. Any bytes but zero may follow.
pub fn malformed(random: &Random, edition: Edition) -> (Vec<u8>, u64) {
    let (listed, never, never_first) = match edition {
        Edition::One | Edition::Two => (NO_NARROW.as_slice(), NEVER, NEVER_FIRST),
        Edition::Three => (NO_WIDE.as_slice(), b"/".as_slice(), b"".as_slice()),
    };
    if random.one_in(3) {
        let (string, place) = random.pick(listed);
        return (string.to_vec(), place);
    }
    let mut string = [subkey(random, edition), vec![random.pick(LATER); 2]].concat();
    let last = string.len() - 1;
    let place = random.pick(&[0, random.between(1, last - 1), last]);
    string[place] = match place {
        0 => random.pick(&[never, never_first].concat()),
        _ => random.pick(never),
    };
    for byte in &mut string[place + 1..] {
        if random.one_in(4) {
            *byte = 1 + random.below(255) as u8;
        }
    }
    (string, place as u64)
}

/// Gives each node a name: often one that a node elsewhere has, else a new one.
fn named(random: &Random, edition: Edition, parents: &[u64]) -> (Vec<Vec<u8>>, Vec<Node>) {
    let mut strings: Vec<Vec<u8>> = Vec::new();
    let mut known = HashSet::new();
    let mut taken = HashSet::new();
    let mut nodes = Vec::new();
    let reuse = random.pick(&[2, 3, 20]);
    for parent in parents {
        let mut string = random.below(strings.len().max(1));
        if random.one_in(reuse) || string >= strings.len() || taken.contains(&(*parent, string)) {
            let mut name = subkey(random, edition);
            while !known.insert(name.clone()) {
                name.push(random.pick(LATER));
            }
            string = strings.len();
            strings.push(name);
        }
        taken.insert((*parent, string));
        nodes.push(Node {
            code: 1 + random.below(5) as u8,
            parent: *parent,
            string: string as u32,
            count: 0,
            offset: 0,
        });
    }
    (strings, nodes)
}

/// Numbers the nodes anew, so that "a parent may have a higher number than its child".
fn renumbered(random: &Random, nodes: Vec<Node>) -> Vec<Node> {
    let order = random.permutation(nodes.len());
    let mut placed = nodes.clone();
    for (old, node) in nodes.iter().enumerate() {
        let mut moved = *node;
        if node.parent > 0 {
            moved.parent = order[node.parent as usize - 1] as u64 + 1;
        }
        placed[order[old]] = moved;
    }
    placed
}

/// Adds strings that no node has, and shuffles the table.
fn with_unused(random: &Random, edition: Edition, strings: &mut Vec<Vec<u8>>, nodes: &mut [Node]) {
    let wanted = match random.below(40) {
        0 => MOST,
        1..=12 => strings.len() + random.below(12),
        _ => strings.len(),
    };
    let mut known: HashSet<Vec<u8>> = strings.iter().cloned().collect();
    while strings.len() < wanted.min(MOST) {
        let mut string = match random.one_in(2) {
            true => malformed(random, edition).0,
            false => subkey(random, edition),
        };
        while !known.insert(string.clone()) {
            string.push(1 + random.below(255) as u8);
        }
        strings.push(string);
    }
    let order = random.permutation(strings.len());
    let mut placed = strings.clone();
    for (old, string) in strings.iter().enumerate() {
        placed[order[old]] = string.clone();
    }
    *strings = placed;
    for node in nodes {
        node.string = order[node.string as usize] as u32;
    }
}

/// Random tables of any edition, not yet placed.
pub fn tables(random: &Random) -> Draft {
    tables_of(random, random.pick(&Edition::ALL))
}

/// Random tables of an edition, not yet placed.
pub fn tables_of(random: &Random, edition: Edition) -> Draft {
    let parents = shape(random);
    let (mut strings, mut nodes) = named(random, edition, &parents);
    if !random.one_in(3) {
        nodes = renumbered(random, nodes);
    }
    with_unused(random, edition, &mut strings, &mut nodes);
    let mut draft = draft(random, edition, strings, nodes);
    if random.one_in(3) {
        longer_before_last(random, &mut draft);
    }
    draft
}

/// Adds a string before the last one that begins as the last one does. `apart` writes the rest of it after a section that lacks its last zero:
/// a reader that goes on after the section would find the two equal.
fn longer_before_last(random: &Random, draft: &mut Draft) {
    let last = draft.strings.len().saturating_sub(1);
    let Some(string) = draft.strings.last() else {
        return;
    };
    let longer = [string.as_slice(), &[random.pick(LATER)]].concat();
    if string.is_empty() || draft.strings.len() == MOST || draft.strings.contains(&longer) {
        return;
    }
    insert_string(draft, last, longer);
    draft.records[SYMBOLS] += 1;
}

/// Inserts a string at a number of the table. The nodes keep their names.
pub fn insert_string(draft: &mut Draft, number: usize, string: Vec<u8>) {
    draft.strings.insert(number, string);
    for node in &mut draft.nodes {
        node.string += u32::from(node.string as usize >= number);
    }
}

pub fn draft(random: &Random, edition: Edition, strings: Vec<Vec<u8>>, nodes: Vec<Node>) -> Draft {
    let full = nodes.iter().filter(|node| !node.is_void()).count() as u64;
    let any = random.next();
    Draft {
        edition,
        records: [
            strings.len() as u64,
            nodes.len() as u64,
            random.pick(&[full, full, 0, u64::MAX, 1 << 32, any]),
        ],
        unterminated: random.one_in(3),
        strings,
        nodes,
        tail: Vec::new(),
        cut: 0,
        bytes: Vec::new(),
        spans: [Span::default(); 3],
    }
}

/// Places the three sections after the header in some order, with or without gaps, none over another.
pub fn apart(random: &Random, draft: &mut Draft) {
    let data = match random.below(6) {
        0 => 0,
        1 => random.between(1, 15),
        2..=4 => random.between(16, 120),
        _ => random.between(121, 900),
    };
    let sizes = [draft.symbols().len(), draft.tree().len(), data];
    let gap = random.pick(&[0, 0, 1, 7, 40]);
    let mut at = draft.edition.header();
    for section in random.permutation(3) {
        at += random.below(gap + 1);
        draft.spans[section] = Span {
            offset: at as u64,
            size: sizes[section] as u64,
        };
        at += sizes[section];
    }
    at += random.below(gap + 1);
    draft.bytes = match random.one_in(3) {
        true => vec![0; at],
        false => random.bytes(at),
    };
    if random.one_in(2) {
        fill_data(random, draft);
    }
    if draft.lacks_zero() {
        follow(random, draft);
    }
}

/// Writes something after a symbol section that lacks its last zero: what a name may go on with, a zero, or what an earlier string goes on with.
/// Where the tree table is there, `finish` writes over it.
fn follow(random: &Random, draft: &mut Draft) {
    let (_, end) = ends(draft.spans[SYMBOLS]);
    let last = draft.strings.last().expect("it lacks a zero");
    let longer = draft
        .strings
        .iter()
        .filter(|string| string.len() > last.len());
    let rest = longer
        .filter_map(|string| string.strip_prefix(last.as_slice()))
        .next();
    let rest = [rest.unwrap_or(b"x"), &[0]].concat();
    let bytes = random.pick(&[
        rest.clone(),
        rest,
        vec![0],
        vec![random.pick(LATER)],
        b"/a".to_vec(),
        Vec::new(),
    ]);
    for (place, byte) in draft.bytes[end..].iter_mut().zip(bytes) {
        *place = byte;
    }
}

/// Stored numbers at the edges: infinities, NaNs, zeros, the least and greatest of doubles and of 32-bit integers.
const EDGES: [u64; 14] = [
    0x7ff0_0000_0000_0000,
    0xfff0_0000_0000_0000,
    0x7ff8_0000_0000_0000,
    0x7ff0_0000_0000_0001,
    0xffff_ffff_ffff_ffff,
    0x8000_0000_0000_0000,
    0x0000_0000_0000_0001,
    0x000f_ffff_ffff_ffff,
    0x0010_0000_0000_0000,
    0x7fef_ffff_ffff_ffff,
    0x3ff0_0000_0000_0000,
    0x7fff_ffff_8000_0000,
    0x8000_0000_7fff_ffff,
    0xffff_ffba_0000_0046,
];

/// Fills the data section with such numbers, eight bytes each.
fn fill_data(random: &Random, draft: &mut Draft) {
    let (start, end) = ends(draft.spans[DATA]);
    for eight in draft.bytes[start..end].chunks_mut(8) {
        let number = random.pick(&EDGES).to_be_bytes();
        eight.copy_from_slice(&number[..eight.len()]);
    }
}

/// Moves the data section, and empty tables, over header, tables or anything: "Sections may stand anywhere, overlap".
fn anywhere(random: &Random, draft: &mut Draft) {
    let length = draft.bytes.len();
    for section in [SYMBOLS, TREE] {
        if draft.spans[section].size == 0 {
            draft.spans[section].offset = random.between(0, length) as u64;
        }
    }
    let edition = draft.edition;
    let head = edition.header();
    // The data section is summed after the other two, so it may hold any header bytes but its own sum and the header's.
    let free = edition.place_of_sum(DATA);
    let after = free + 16;
    let (start, end) = match random.below(16) {
        0 => (0, free),
        1 => (random.below(free), free),
        2 => (0, SIGNATURE),
        3 => (head, length),
        4 => (random.between(head, length), length),
        5 => {
            let start = random.between(head, length);
            (start, random.between(start, length))
        }
        6 => {
            let empty = random.pick(&[0, 1, length, random.below(length)]);
            (empty, empty)
        }
        7 => ends(draft.spans[SYMBOLS]),
        8 => ends(draft.spans[TREE]),
        9 => (after, edition.summed()),
        10 => (random.between(after, edition.summed()), edition.summed()),
        _ => return,
    };
    draft.spans[DATA] = Span {
        offset: start as u64,
        size: (end - start) as u64,
    };
}

fn ends(span: Span) -> (usize, usize) {
    (span.offset as usize, (span.offset + span.size) as usize)
}

/// Gives each node that is not Void data inside the data section: anywhere, at both ends, shared, or none.
pub fn with_data(random: &Random, draft: &mut Draft) {
    let (start, end) = ends(draft.spans[DATA]);
    let mut before = (start, 0);
    for node in &mut draft.nodes {
        if node.is_void() {
            continue;
        }
        let width = node.width();
        let most = (end - start) / width;
        let mut count = match random.below(8) {
            0 => 0,
            1 => most,
            _ => random.below(most.min(6) + 1),
        };
        let last = end - count * width;
        let mut offset = match random.below(6) {
            0 => start,
            1 => last,
            _ => random.between(start, last),
        };
        if random.one_in(5) && before.0 + before.1 * width <= end {
            (offset, count) = before;
        }
        before = (offset, count);
        (node.offset, node.count) = (offset as u64, count as u32);
    }
}

/// A lawful image, plainly laid out: the base of the damaged ones.
pub fn plain(random: &Random) -> Draft {
    let mut draft = tables(random);
    apart(random, &mut draft);
    with_data(random, &mut draft);
    draft
}

fn lawful(draft: Draft, what: &str) -> Image {
    let edition = draft.edition.number();
    Image {
        what: format!("edition {edition}: {what}, {} nodes", draft.nodes.len()),
        bytes: draft.finish(),
        aim: Aim::Accepted,
    }
}

fn usual(random: &Random) -> Image {
    let mut draft = tables(random);
    apart(random, &mut draft);
    anywhere(random, &mut draft);
    with_data(random, &mut draft);
    lawful(draft, "sections anywhere")
}

/// The symbol section over the signature: the text is a string, with or without its zero, or the zero alone is one. Or the front of the
/// text is a string. Up to `LHPC` that is a subkey, the name of a chain of nodes; in edition 3 all of the text is one.
fn over_signature(random: &Random) -> Image {
    let edition = random.pick(&Edition::ALL);
    let wide = edition == Edition::Three;
    let way = random.below(4);
    let longest = if wide { TEXT } else { 4 };
    let (string, place) = match way {
        0..=1 => (edition.text().to_vec(), 0),
        2 => (Vec::new(), TEXT),
        _ => (edition.text()[..random.between(1, longest)].to_vec(), 0),
    };
    let node = |parent: usize| Node {
        code: Kind::Void.code(),
        parent: parent as u64,
        string: 0,
        count: 0,
        offset: 0,
    };
    let nodes = match edition.is_subkey(&string) {
        true => random.below(4),
        false => 0,
    };
    let nodes = (0..nodes).map(node).collect();
    let mut draft = draft(random, edition, vec![string], nodes);
    draft.unterminated |= way == 3;
    apart(random, &mut draft);
    draft.spans[SYMBOLS].offset = place as u64;
    lawful(draft, "symbols over the signature")
}

/// The tree section inside the data header of an edition that has counts: the type is the last byte of the data offset, the parent is the
/// data size, the string number is the upper half of the data count.
fn over_header(random: &Random) -> Image {
    let names = random.between(1, 6);
    let edition = random.pick(&[Edition::Two, Edition::Three]);
    let mut draft = tables_of(random, edition);
    draft.strings = (0..names).map(|i| format!("n{i}").into_bytes()).collect();
    let string = random.below(names) as u32;
    draft.nodes = vec![Node {
        code: Kind::Void.code(),
        parent: 0,
        string,
        count: 0,
        offset: 0,
    }];
    draft.records = [
        names as u64,
        1,
        u64::from(string) << 32 | random.next() >> 32,
    ];
    apart(random, &mut draft);
    draft.spans[DATA] = Span { offset: 1, size: 0 };
    draft.spans[TREE] = Span {
        offset: edition.place_of(DATA) as u64 + 7,
        size: 13,
    };
    lawful(draft, "tree over the data header")
}

/// Tree and symbol section share a byte: the last of a data offset is the first letter of a name.
fn sharing(random: &Random) -> Image {
    let mut draft = tables(random);
    let Some(last) = draft.nodes.len().checked_sub(1) else {
        return lawful_empty(random);
    };
    draft.nodes[last].code = Kind::Char.code();
    let letter = draft.symbols()[0];
    let data = 300;
    let mut at = draft.edition.header() as u64;
    draft.spans[DATA] = Span {
        offset: at,
        size: data,
    };
    at += data;
    let tree = draft.tree().len() as u64;
    draft.spans[TREE] = Span {
        offset: at,
        size: tree,
    };
    let size = draft.symbols().len() as u64;
    draft.spans[SYMBOLS] = Span {
        offset: at + tree - 1,
        size,
    };
    draft.bytes = random.bytes((at + tree - 1 + size) as usize);
    with_data(random, &mut draft);
    let start = draft.spans[DATA].offset;
    let offset = (start..start + data).find(|place| *place as u8 == letter);
    draft.nodes[last].offset = offset.expect("300 places have every last byte");
    draft.nodes[last].count = 1;
    lawful(draft, "tree and symbols share a byte")
}

/// No node: "room 168 takes an empty tree". A header alone is a file.
fn lawful_empty(random: &Random) -> Image {
    let edition = random.pick(&Edition::ALL);
    let mut draft = draft(random, edition, Vec::new(), Vec::new());
    let length = draft.edition.header() + random.pick(&[0, 0, 1, 24]);
    draft.bytes = random.bytes(length);
    for span in &mut draft.spans {
        span.offset = random.pick(&[0, length, length, random.below(length)]) as u64;
    }
    lawful(draft, "empty sections")
}

/// A chain whose last path has a length near the listers' limit of 65,536: one byte less, the same, one byte more. All its nodes are
/// Void, or all but the last or another one (C-12: "21 looks only at the nodes listed"). In edition 3 the listers may print each byte of a name as four,
/// which the limit does not count; such a chain is shorter, since all its lines together are long.
fn long_path(random: &Random) -> Image {
    let edition = random.pick(&Edition::ALL);
    let (one, two) = match edition {
        Edition::One | Edition::Two => (b'p', b'q'),
        Edition::Three => {
            random.pick(&[(b'p', b'q'), (1, 2), (1, b'q'), (255, b'\\'), (b' ', b'.')])
        }
    };
    let nodes = match one {
        b'p' => random.pick(&[16, 64, 256, 1024]),
        _ => random.pick(&[16, 64, 256]),
    };
    let subkey = 65_536 / nodes - 1;
    let more = random.below(3);
    let full = random.pick(&[
        None,
        Some(nodes - 1),
        Some(nodes - 1),
        Some(random.below(nodes)),
    ]);
    let strings = vec![vec![one; subkey], vec![two; subkey - 1 + more]];
    let node = |i: usize| Node {
        code: if full == Some(i) {
            Kind::Int.code()
        } else {
            Kind::Void.code()
        },
        parent: i as u64,
        string: u32::from(i + 1 == nodes),
        count: 0,
        offset: 0,
    };
    let nodes = (0..nodes).map(node).collect();
    let mut draft = draft(random, edition, strings, nodes);
    apart(random, &mut draft);
    with_data(random, &mut draft);
    lawful(draft, "path near the listers' limit")
}

/// An image of 65,535 to 65,537 bytes, the last of them of no section.
fn long_image(random: &Random) -> Image {
    let mut draft = tables(random);
    apart(random, &mut draft);
    with_data(random, &mut draft);
    let length = draft.bytes.len().max(65_535 + random.below(3));
    draft.bytes.resize(length, 7);
    lawful(draft, "image near the listers' limit")
}

/// Image `number` of a seed.
pub fn image(seed: u64, number: u64) -> Image {
    let random = Random::of(seed, number);
    match random.below(100) {
        0..=35 => usual(&random),
        36..=37 => over_signature(&random),
        38..=39 => over_header(&random),
        40..=41 => sharing(&random),
        42..=43 => lawful_empty(&random),
        44..=45 => long_path(&random),
        46..=47 => long_image(&random),
        _ => damage::damaged(&random),
    }
}

/// A name that no string of the table is; a subkey of the edition.
pub fn new_name(random: &Random, edition: Edition, strings: &[Vec<u8>]) -> Vec<u8> {
    let mut name = subkey(random, edition);
    while strings.contains(&name) {
        name.push(random.pick(LATER));
    }
    debug_assert!(edition.is_subkey(&name));
    name
}
