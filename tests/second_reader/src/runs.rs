//! Random runs of the writer: the model's images beside the tree that the calls describe, cut after any number of stores,
//! and beside the library's writer where it is linked.

use crate::answers::{decoded, judged, Choice, Passed, Reader};
use crate::format::{big, form_for, Edition, Kind, MOST};
use crate::images::{malformed, subkey, WIDE_NAMES};
use crate::kinds;
use crate::open::{open, Refused};
use crate::random::Random;
use crate::report::Report;
use crate::writer::{Numbers, Record, Reported, Writer, ALIGNMENT, TEXT_AREA, TREE_AREA};
use std::collections::BTreeMap;

/// One call with its arguments; allowances come from a total that is handed down.
#[derive(Clone, Debug)]
pub enum Call {
    /// The number of an edition, and the form.
    Begin(u32, Vec<u8>),
    Make(u64, Vec<u8>),
    Put(u64, u64, Vec<u8>),
    Close,
    /// No call of the library: the caller alters what is passed.
    Alter(Alteration),
}

/// A number of the record, or a byte of buffer, text area or tree area.
#[derive(Clone, Copy, Debug)]
pub enum Alteration {
    Length(u64),
    Edition(u64),
    Strings(u64),
    Text(u64),
    Nodes(u64),
    End(u64),
    Flag(u64),
    Byte(usize, usize, u8),
}

/// What takes the calls of a run: the model, or the library's writer.
pub trait Desk {
    fn call(&mut self, call: &Call, allowance: u64) -> Reported;
    /// Buffer, text area, tree area.
    fn memory(&self) -> [&[u8]; 3];
    /// The 8 numbers and the form, as the caller of the C side sees them.
    fn numbers(&self) -> Numbers;
}

impl Desk for Writer {
    fn call(&mut self, call: &Call, allowance: u64) -> Reported {
        let answer = match call {
            Call::Begin(edition, form) => self.begin(*edition, form, allowance),
            Call::Make(parent, name) => self.make(*parent, name),
            Call::Put(node, code, bytes) => self.put(*node, *code, bytes, allowance),
            Call::Close => self.close(allowance),
            Call::Alter(alteration) => return self.alter(alteration),
        };
        self.last = answer.unwrap_or_else(|(_, place)| place);
        answer
    }

    fn memory(&self) -> [&[u8]; 3] {
        [&self.buffer, &self.text, &self.tree]
    }

    fn numbers(&self) -> Numbers {
        let record = &self.record;
        let numbers = [
            self.last,
            record.length,
            record.edition,
            record.strings,
            record.text,
            record.nodes,
            record.end,
            record.flag,
        ];
        (numbers, record.form)
    }
}

impl Writer {
    fn alter(&mut self, alteration: &Alteration) -> Reported {
        match *alteration {
            Alteration::Length(number) => self.record.length = number,
            Alteration::Edition(number) => self.record.edition = number,
            Alteration::Strings(number) => self.record.strings = number,
            Alteration::Text(number) => self.record.text = number,
            Alteration::Nodes(number) => self.record.nodes = number,
            Alteration::End(number) => self.record.end = number,
            Alteration::Flag(number) => self.record.flag = number,
            Alteration::Byte(area, place, byte) => {
                let area =
                    [&mut self.buffer, &mut self.text, &mut self.tree][area % 3].get_mut(place);
                if let Some(old) = area {
                    *old = byte;
                }
            }
        }
        Ok(0)
    }
}

/// A run: what is passed, and the calls.
pub struct Run {
    pub buffer: Vec<u8>,
    pub text: Vec<u8>,
    pub tree: Vec<u8>,
    pub calls: Vec<Call>,
}

impl Run {
    /// The model for this run, not yet begun.
    pub fn desk(&self) -> Writer {
        Writer::passed(self.buffer.clone(), self.text.clone(), self.tree.clone())
    }

    fn is_altered(&self) -> bool {
        self.calls.iter().any(|call| matches!(call, Call::Alter(_)))
    }
}

/// Stores that a call made: an accepted make reports a node, and stores nothing.
pub fn stores(call: &Call, reported: &Reported) -> u64 {
    match (call, reported) {
        (Call::Make(..), _) => 0,
        (_, Ok(made)) => *made,
        (_, Err((23, made))) => *made,
        _ => 0,
    }
}

/// Plays the calls with a total allowance: each gets what the earlier ones left. The answers.
pub fn play(desk: &mut dyn Desk, calls: &[Call], total: u64) -> Vec<Reported> {
    let mut left = total;
    let mut answers = Vec::new();
    for call in calls {
        let reported = desk.call(call, left);
        left -= stores(call, &reported);
        answers.push(reported);
    }
    answers
}

/// What the begin of a run was passed, where the run begins once, in a written edition.
pub fn begun(calls: &[Call]) -> (Edition, &[u8]) {
    match &calls[0] {
        Call::Begin(number, form) => {
            let edition = Edition::written((*number).into()).expect("drawn so");
            (edition, form)
        }
        other => unreachable!("{other:?} is no begin"),
    }
}

impl Call {
    /// The begin of an edition, with its form.
    pub fn begin(edition: Edition) -> Call {
        Call::Begin(edition.number() as u32, edition.form().to_vec())
    }
}

/// "child `a` of the root, child `n` of it, put one Int −70 there, close".
#[cfg(any(test, feature = "library"))]
pub fn worked_calls(edition: Edition) -> Vec<Call> {
    vec![
        Call::begin(edition),
        Call::Make(0, b"a".to_vec()),
        Call::Make(1, b"n".to_vec()),
        Call::Put(2, 3, vec![0xff, 0xff, 0xff, 0xba]),
        Call::Close,
    ]
}

/// Request C-22's first example: children `a` and `b` of the root, `abc` in `a`, then the Double 1.0 in `b`, close. 238 bytes and 239 stores.
#[cfg(any(test, feature = "library"))]
pub fn padded_calls(edition: Edition) -> Vec<Call> {
    vec![
        Call::begin(edition),
        Call::Make(0, b"a".to_vec()),
        Call::Make(0, b"b".to_vec()),
        Call::Put(1, 2, b"abc".to_vec()),
        Call::Put(2, 4, 1_f64.to_be_bytes().to_vec()),
        Call::Close,
    ]
}

/// A node as the calls describe it.
#[derive(Clone)]
struct Described {
    parent: u64,
    name: Vec<u8>,
    kind: Kind,
    bytes: Vec<u8>,
}

/// "Calls describe a tree by their arguments and by which were accepted. It starts as node 0, nameless and Void."
fn described(calls: &[Call], answers: &[Reported]) -> Vec<Described> {
    let root = Described {
        parent: 0,
        name: Vec::new(),
        kind: Kind::Void,
        bytes: Vec::new(),
    };
    let mut tree = vec![root.clone()];
    for (call, reported) in calls.iter().zip(answers) {
        match (call, reported) {
            (Call::Begin(..), Ok(_)) => tree.truncate(1),
            (Call::Make(parent, name), Ok(_)) => tree.push(Described {
                parent: *parent,
                name: name.clone(),
                ..root.clone()
            }),
            (Call::Put(node, code, bytes), Ok(_)) => {
                let node = &mut tree[*node as usize];
                node.kind = Kind::from_code(*code).expect("accepted");
                node.bytes = bytes.clone();
            }
            _ => (),
        }
    }
    tree
}

/// "Paths go by parents."
fn path_in(tree: &[Described], number: usize) -> Vec<u8> {
    match number {
        0 => Vec::new(),
        _ => {
            let node = &tree[number];
            let mut path = path_in(tree, node.parent as usize);
            path.push(b'/');
            path.extend(&node.name);
            path
        }
    }
}

/// Where the data of a finished file stand, from the calls alone (C-22).
struct Layout {
    /// All bytes of the data section.
    data: Vec<u8>,
    /// The offset of each node with data.
    offsets: BTreeMap<u64, u64>,
}

/// The bytes of the accepted puts in order after a header, each at a multiple of 8, with zeros before it.
fn laid_out(header: usize, calls: &[Call], answers: &[Reported]) -> Layout {
    let mut file = vec![0; header];
    let mut offsets = BTreeMap::new();
    for (call, reported) in calls.iter().zip(answers) {
        if let (Call::Put(node, _, bytes), Ok(_)) = (call, reported) {
            while !(file.len() as u64).is_multiple_of(ALIGNMENT) {
                file.push(0);
            }
            offsets.insert(*node, file.len() as u64);
            file.extend(bytes);
        }
    }
    Layout {
        data: file.split_off(header),
        offsets,
    }
}

/// "An opened file shows this tree if each of the tree's numbers answers with its name, path (output long enough), type, count
/// and bytes, and any other number with 15." The file is of the edition passed to begin.
/// Its data section is that of the calls, and each node's data begin where the calls put them.
fn shows(calls: &[Call], answers: &[Reported], buffer: &[u8], report: &mut Report) {
    let Call::Begin(number, form) = &calls[0] else {
        unreachable!("the calls of a run from its last begin on");
    };
    let tree = described(calls, answers);
    let opened = open(buffer, form);
    report.same("opened", &true, &opened.is_ok());
    let Ok(opened) = opened else { return };
    report.same("edition", &u64::from(*number), &opened.record.edition);
    let edition = Edition::written((*number).into()).expect("accepted");
    let layout = laid_out(edition.header(), calls, answers);
    let section = opened.record.data;
    let data = &buffer[section.offset as usize..][..section.size as usize];
    report.same("data section", layout.data.as_slice(), data);
    let passed = Passed {
        image: buffer,
        record: opened.record,
        strings: &opened.strings,
        entries: &opened.entries,
    };
    let Ok(reader) = judged(&passed) else {
        report.same("24", &true, &false);
        return;
    };
    report.same("order", &(tree.len() as u64), &order_length(&reader));
    for (number, node) in tree.iter().enumerate() {
        let n = number as u64;
        let path = if n == 0 {
            b"/".to_vec()
        } else {
            path_in(&tree, number)
        };
        report.same("name", &Ok(node.name.as_slice()), &reader.name(n));
        report.same("lookup", &Ok(n), &reader.lookup(&path));
        let mut output = vec![b'.'; path.len() + 2];
        let length = reader.path_into(n, &mut output);
        report.same("path length", &Ok(path.len() as u64), &length);
        report.same("path", &[path.as_slice(), b".."].concat(), &output);
        report.same("kind", &Ok(node.kind), &reader.kind(n));
        let offset = reader.view(n).map(|part| part.map(|part| part.offset));
        report.same("offset", &Ok(layout.offsets.get(&n).copied()), &offset);
        shows_data(&reader, n, node, buffer, report);
    }
    let past = [tree.len() as u64, u64::MAX].map(|n| reader.kind(n));
    report.same("other numbers", &[Err(15), Err(15)], &past);
}

/// The numbers that listing order writes, each once.
fn order_length(reader: &Reader) -> u64 {
    let mut area = vec![0; reader.nodes() as usize + 1];
    let written = reader.order_into(Choice::All, &mut area).unwrap_or(0);
    area.sort_unstable();
    area.dedup();
    written.min(area.len() as u64)
}

/// Count, bytes, and each element decoded.
fn shows_data(reader: &Reader, n: u64, node: &Described, buffer: &[u8], report: &mut Report) {
    let width = node.kind.width().max(1);
    let count = (node.bytes.len() / width) as u64;
    let view = reader.view(n).map(|part| {
        let part = part.unwrap_or_default();
        buffer[part.offset as usize..][..part.size as usize].to_vec()
    });
    report.same("count", &Ok(count), &reader.count(n));
    report.same("bytes", &Ok(node.bytes.clone()), &view);
    report.same("no element", &Err(16), &reader.element(n, count));
    for (index, bytes) in (0..).zip(node.bytes.chunks(width)) {
        let element = Ok(decoded(node.kind, bytes));
        report.same("element", &element, &reader.element(n, index));
    }
}

/// What a run is like.
#[derive(Clone, Copy, PartialEq, Eq)]
pub enum Style {
    Usual,
    /// Up to 2,049 nodes.
    Many,
    /// Long names, up to the end of the text area.
    Long,
    /// What is passed is altered between calls.
    Altered,
    /// Many begins, of all numbers of editions, in buffers of which half are too short.
    Begins,
}

/// A random run: mostly short, sometimes up to the limits of nodes, strings and text.
pub fn random_run(random: &Random) -> Run {
    let style = match random.below(120) {
        0 => Style::Many,
        1..=4 => Style::Long,
        5..=40 => Style::Altered,
        41..=48 => Style::Begins,
        _ => Style::Usual,
    };
    let mut run = Run {
        buffer: buffer(random, style),
        text: random.bytes(area(random, TEXT_AREA)),
        tree: random.bytes(area(random, TREE_AREA)),
        calls: Vec::new(),
    };
    let mut model = run.desk();
    add(&mut run, &mut model, begin(random, style));
    let calls = match style {
        Style::Many => 2 * MOST,
        Style::Long => 60,
        Style::Begins => random.between(2, 8),
        _ => random.pick(&[0, 3, 8, 12, 12, 20, 60]),
    };
    // The size that the file has after each put with padding, and the padding.
    let mut padded = Vec::new();
    for _ in 0..calls {
        if style == Style::Altered && random.one_in(4) {
            alter_and_restore(random, &mut run, &mut model);
        }
        let call = match style == Style::Begins && random.one_in(2) {
            true => begin(random, style),
            false => middle(random, &model, style),
        };
        let is_put = style == Style::Usual && matches!(call, Call::Put(..));
        let padding = if is_put { model.padding() } else { 0 };
        if add(&mut run, &mut model, call) && padding > 0 {
            padded.push((model.finished() as usize, padding as usize));
        }
    }
    let closed = add(&mut run, &mut model, Call::Close);
    for _ in 0..random.below(3) {
        let more = [Call::Close, middle(random, &model, style)];
        add(&mut run, &mut model, random.pick(&more));
    }
    if style == Style::Usual && closed && random.one_in(3) {
        // The finished size, or one byte around it: the last calls that make the file longer are refused or just fit.
        run.buffer
            .resize(model.finished() as usize - 1 + random.below(3), 5);
    } else if !padded.is_empty() && random.one_in(3) {
        // A put with padding just fits, or would fit without some or all of its padding.
        let (size, padding) = random.pick(&padded);
        run.buffer.resize(size - random.below(padding + 2), 5);
    }
    if random.one_in(6) {
        let again = [
            begin(random, style),
            Call::Make(0, b"again".to_vec()),
            Call::Close,
        ];
        run.calls.extend(again);
    }
    run
}

/// Adds a call, and plays it on the model, so that the next one can be drawn to suit. True where the model accepts it.
pub fn add(run: &mut Run, model: &mut Writer, call: Call) -> bool {
    let accepted = model.call(&call, u64::MAX).is_ok();
    run.calls.push(call);
    accepted
}

/// A buffer of any length about the least, or long enough.
fn buffer(random: &Random, style: Style) -> Vec<u8> {
    let length = match (style, random.below(7)) {
        (Style::Many | Style::Long, _) => 140_000,
        (Style::Begins, 0..=3) => random.pick(&[0, 1, 144, 167]),
        (_, 0) => random.pick(&[0, 1, 167, 168, 169, 181, 213, 214]),
        (_, 1..=3) => 168 + random.below(400),
        _ => 4000,
    };
    filled(random, length)
}

/// A buffer of some length: of zeros, of anything, or one that holds a finished file.
pub fn filled(random: &Random, length: usize) -> Vec<u8> {
    match random.below(3) {
        0 => vec![0; length],
        1 => random.bytes(length),
        _ => {
            let mut old = Writer::passed(vec![9; length], vec![0; TEXT_AREA], vec![0; TREE_AREA]);
            let calls = [Call::begin(random.pick(&Edition::WRITTEN)), Call::Close];
            play(&mut old, &calls, u64::MAX);
            old.buffer
        }
    }
}

fn area(random: &Random, size: usize) -> usize {
    match random.below(60) {
        0 => random.pick(&[0, size - 1, size + 1]),
        _ => size,
    }
}

/// Numbers of no written edition.
pub const NOT_WRITTEN: [u32; 6] = [0, 1, 1, 4, 256 + 2, u32::MAX];

/// A begin, mostly lawful. One that names no written edition comes with every form, buffer and allowance: 1, 3, 21, 23 in this order.
fn begin(random: &Random, style: Style) -> Call {
    let lawful = if style == Style::Begins { 2 } else { 20 };
    let edition = random.pick(&Edition::WRITTEN);
    let mut form = edition.form().to_vec();
    match random.below(4 + 2 * lawful) {
        0 => form.truncate(11),
        1 => form.push(0),
        2 => form = random.bytes(12),
        3 => form = Edition::One.form().to_vec(),
        _ => (),
    }
    match random.one_in(lawful) {
        true => Call::Begin(random.pick(&NOT_WRITTEN), form),
        false => Call::Begin(edition.number() as u32, form),
    }
}

/// A make or a put, most of them lawful.
pub fn middle(random: &Random, now: &Writer, style: Style) -> Call {
    let nodes = now.record.nodes.min(MOST as u64) as usize;
    match (style, random.below(12)) {
        (Style::Many, 1) => put(random, now),
        (Style::Many, _) => make(random, now, style),
        (_, 1..=5) if nodes > 0 => put(random, now),
        (_, 1..=2) => put(random, now),
        _ => make(random, now, style),
    }
}

pub fn make(random: &Random, now: &Writer, style: Style) -> Call {
    let nodes = now.record.nodes.min(MOST as u64) as usize;
    let left = TEXT_AREA.saturating_sub(now.record.text as usize);
    let parent = match random.below(30) {
        0 => random.pick(&[nodes as u64 + 1, u64::MAX, 1 << 32]),
        _ => random.below(nodes + 1) as u64,
    };
    let edition = Edition::written(now.record.edition).unwrap_or(Edition::Two);
    let mut name = subkey(random, edition);
    match (style, random.below(30)) {
        (_, 0) => name = bad_name(random, random.pick(&Edition::WRITTEN)),
        // A name that edition 2 refuses and edition 3 accepts.
        (Style::Altered, 1..=2) => name = random.pick(&WIDE_NAMES).to_vec(),
        (Style::Long, 1) => name = long_name(random),
        // As long as the text area takes with a zero, or one byte longer.
        (Style::Long, 2..=3) => name = vec![b'm'; left.max(2) - random.below(2)],
        (Style::Long, _) => name.extend(vec![b'l'; random.below(2000)]),
        (Style::Many, _) => name.extend(nodes.to_string().bytes()),
        // Names that an altered text area may hold twice.
        (Style::Altered, 3..=18) => name = vec![random.pick(b"ab")],
        (_, 1..=20) => name.truncate(1),
        _ => (),
    }
    Call::Make(parent, name)
}

const BAD_NAMES: [&[u8]; 14] = [
    b"",
    b"9a",
    b"9",
    b"a/b",
    b"/",
    b"a/",
    b"a b",
    b" ",
    b"a\0",
    b"\0",
    b"a\xe9",
    b"\xff",
    b"a\xff",
    b"momentum,1",
];

const BAD_WIDE_NAMES: [&[u8]; 9] = [
    b"", b"/", b"a/b", b"a/", b" /", b"\0", b"a\0", b"\xff \0", b".\n\0a",
];

/// A name malformed in an edition: one of a list, or any other, some with a zero in it.
pub fn bad_name(random: &Random, edition: Edition) -> Vec<u8> {
    let (mut name, _) = malformed(random, edition);
    match (edition, random.below(6)) {
        (Edition::Three, 0) => random.pick(&BAD_WIDE_NAMES).to_vec(),
        (Edition::One | Edition::Two, 0..=2) => random.pick(&BAD_NAMES).to_vec(),
        (_, 3..=4) if !name.is_empty() => {
            let place = random.below(name.len());
            name[place] = match edition {
                Edition::One | Edition::Two => random.pick(&[0, b'/', b' ', 255]),
                Edition::Three => random.pick(&[0, 0, b'/']),
            };
            name
        }
        _ => name,
    }
}

/// A name of thousands of bytes, some with a fault at their end or anywhere: 14 comes before 20.
fn long_name(random: &Random) -> Vec<u8> {
    let mut name = vec![b'k'; random.between(20_000, 33_000)];
    let last = name.len() - 1;
    match random.below(4) {
        0 => name[last] = random.pick(&[0, b'/', 255]),
        1 => name[random.below(last)] = random.pick(&[b' ', 0, b'/']),
        _ => (),
    }
    name
}

/// The nodes without data, but for the root.
pub fn void_nodes(now: &Writer) -> Vec<u64> {
    let nodes = now.record.nodes.min(MOST as u64) as usize;
    let slots = (1..).zip(now.tree.chunks(25).take(nodes));
    slots
        .filter(|(_, slot)| slot[0] == 1)
        .map(|(number, _)| number)
        .collect()
}

/// A put to any node, mostly to one that is Void.
fn put(random: &Random, now: &Writer) -> Call {
    let nodes = now.record.nodes.min(MOST as u64) as usize;
    let void = void_nodes(now);
    let node = match random.below(4) {
        1..=3 if !void.is_empty() => random.pick(&void),
        _ => random.below(nodes + 2) as u64,
    };
    let code = match random.below(12) {
        0 => random.pick(&[0, 1, 6, 259, 1 << 32 | 3, u64::MAX]),
        // Chars and Ints leave ends that are no multiple of 8.
        _ => random.pick(&[2, 2, 2, 3, 3, 4, 5]),
    };
    let width = Kind::from_code(code).map_or(1, |kind| kind.width().max(1));
    let count = match random.below(6) {
        0 => 0,
        1..=2 if width == 1 => random.pick(&[7, 8, 9, 15, 16, 17]),
        _ => random.between(1, 5),
    };
    let mut size = count * width;
    if random.one_in(12) {
        size += 1;
    }
    Call::Put(node, code, random.bytes(size))
}

/// Another number in the record, or another byte where strings, entries or data stand.
fn alteration(random: &Random, now: &Writer) -> Alteration {
    let record = &now.record;
    let any = random.next();
    let other = |number: u64| {
        let near = [
            number.wrapping_add(1),
            number.wrapping_sub(1),
            0,
            number | 1 << 32,
            u64::MAX,
            any,
        ];
        random.pick(&near)
    };
    match random.below(26) {
        0 => Alteration::Length(other(record.length)),
        1 => Alteration::Strings(other(record.strings)),
        2 => Alteration::Text(other(record.text)),
        3 => Alteration::Nodes(other(record.nodes)),
        4 => Alteration::End(other(record.end)),
        18..=21 => Alteration::End(other_end(random, now)),
        22..=25 => other_offset(random, now),
        5..=6 => Alteration::Flag(random.pick(&[0, 1, 2, 7, 256, 1 << 32 | 1, u64::MAX, any])),
        7..=8 => Alteration::Byte(0, random.below(now.buffer.len()), random.byte()),
        9..=11 => {
            let place = random.below(record.text.min(TEXT_AREA as u64) as usize + 1);
            Alteration::Byte(1, place, random.pick(b"ab/9aabb\0"))
        }
        12..=14 => {
            let other_written = if record.edition == 2 { 3 } else { 2 };
            let none = random.pick(&[0, 1, 1, 4, 256 + 3, 1 << 32 | 2, 1 << 32 | 3, u64::MAX, any]);
            Alteration::Edition(random.pick(&[other_written, none]))
        }
        _ => slot_byte(random, record),
    }
}

/// Another end of data: inside the header, among the data put, a few bytes after them, about the highest that the buffer takes, or past it.
fn other_end(random: &Random, now: &Writer) -> u64 {
    let (old, length) = (now.record.end, now.record.length);
    let header = Edition::Two.header() as u64;
    let put = old.saturating_sub(header).min(length) as usize;
    let entries: u64 = now
        .tree
        .chunks(25)
        .take(now.record.nodes.min(MOST as u64) as usize)
        .map(|slot| if slot[0] == 1 { 13 } else { 25 })
        .sum();
    let highest = length
        .saturating_sub(now.record.text)
        .saturating_sub(entries);
    match random.below(9) {
        0 => random.below(header as usize) as u64,
        1 => random.pick(&[header - 8, header - 1, header]),
        2..=3 => header + random.below(put + 1) as u64,
        4..=5 => old.saturating_add(random.between(1, 16) as u64),
        6 => highest.saturating_sub(random.below(20) as u64),
        7 => highest.saturating_add(random.between(1, 2) as u64),
        _ => random.pick(&[length, length.saturating_add(1), u64::MAX, 1 << 32 | old]),
    }
}

/// Another last byte of the offset of a node that has data, where there is one: near the old one, or about the first and the last place inside what was
/// put. Most of them are no multiple of 8.
fn other_offset(random: &Random, now: &Writer) -> Alteration {
    let nodes = now.record.nodes.min(MOST as u64) as usize;
    let slots = now.tree.chunks_exact(25).take(nodes).enumerate();
    let full: Vec<(usize, &[u8])> = slots.filter(|(_, slot)| slot[0] != 1).collect();
    if full.is_empty() {
        return slot_byte(random, &now.record);
    }
    let (number, slot) = random.pick(&full);
    let width = Kind::from_code(slot[0].into()).map_or(1, |kind| kind.width() as u64);
    let last = now.record.end.wrapping_sub(big(slot, 13, 4) * width);
    let offset = match random.below(4) {
        0 => random.between(166, 170) as u64,
        1 => last.wrapping_add(random.below(3) as u64).wrapping_sub(1),
        _ => {
            let near = big(slot, 17, 8).wrapping_add(random.below(20) as u64);
            near.wrapping_sub(10)
        }
    };
    Alteration::Byte(2, 25 * number + 24, offset as u8)
}

/// Another byte in a node's slot: its type, or the end of its parent, string, count or offset, most of them near what exists.
fn slot_byte(random: &Random, record: &Record) -> Alteration {
    let node = random.below(record.nodes.clamp(1, MOST as u64) as usize);
    let strings = record.strings.clamp(1, 250) as usize;
    let (field, low, high) = random.pick(&[
        (0, 0, 6),
        (8, 0, node),
        (8, node, node + 2),
        (12, 0, strings),
        (16, 0, 3),
        (24, 164, 172),
        (24, 0, 255),
        (7, 0, 1),
        (23, 0, 1),
    ]);
    Alteration::Byte(2, 25 * node + field, random.between(low, high) as u8)
}

/// The alteration that undoes another.
fn undone(alteration: &Alteration, now: &Writer) -> Alteration {
    let record = &now.record;
    match *alteration {
        Alteration::Length(_) => Alteration::Length(record.length),
        Alteration::Edition(_) => Alteration::Edition(record.edition),
        Alteration::Strings(_) => Alteration::Strings(record.strings),
        Alteration::Text(_) => Alteration::Text(record.text),
        Alteration::Nodes(_) => Alteration::Nodes(record.nodes),
        Alteration::End(_) => Alteration::End(record.end),
        Alteration::Flag(_) => Alteration::Flag(record.flag),
        Alteration::Byte(area, place, byte) => {
            let old = [&now.buffer, &now.text, &now.tree][area % 3].get(place);
            Alteration::Byte(area, place, *old.unwrap_or(&byte))
        }
    }
}

/// An alteration and a call; then, mostly, what was altered is put back.
fn alter_and_restore(random: &Random, run: &mut Run, model: &mut Writer) {
    let altered = alteration(random, model);
    let restored = undone(&altered, model);
    add(run, model, Call::Alter(altered));
    let calls = [middle(random, model, Style::Altered), Call::Close];
    let close = usize::from(random.one_in(12));
    add(run, model, calls[close].clone());
    if !random.one_in(10) {
        add(run, model, Call::Alter(restored));
    }
}

/// Makes a desk for a run that has not begun.
pub type NewDesk = fn(&Run) -> Box<dyn Desk>;

/// One run: whole, at some cuts, and beside another desk where there is one.
pub fn compare(seed: u64, number: u64, other: Option<NewDesk>, report: &mut Report) {
    let random = Random::of(seed, number);
    let run = random_run(&random);
    report.begin_run(seed, number);
    let mut whole = run.desk();
    let answers = play(&mut whole, &run.calls, u64::MAX);
    let total: u64 = run
        .calls
        .iter()
        .zip(&answers)
        .map(|(c, t)| stores(c, t))
        .sum();
    count(&run, &answers, report);
    let cuts = cuts(&random, &run.calls, &answers, total);
    if !run.is_altered() {
        shows_run(&run.calls, &answers, &whole.buffer, report);
        for cut in &cuts {
            check_cut(&run, *cut, total, report);
        }
    }
    if let Some(other) = other {
        for cut in cuts.iter().copied().chain([u64::MAX]) {
            beside(&run, &mut run.desk(), other(&run).as_mut(), cut, report);
        }
    }
    report.end(&[]);
}

/// What request C-22 is about in a run: puts, padded or not, and how they were cut; and the first call after an altered end of data or offset. The number is
/// 23 for a put that was cut, 24 for a call that was refused by it, else 0.
pub fn met(run: &Run, answers: &[Reported]) -> Vec<(u32, kinds::Kind)> {
    let header = Edition::Two.header() as u64;
    let (mut end, mut before, mut altered) = (0, None, None);
    let mut met = Vec::new();
    for (call, reported) in run.calls.iter().zip(answers) {
        if let Call::Alter(alteration) = call {
            altered = match *alteration {
                // An end that is put back is not altered.
                Alteration::End(number) if before.take() == Some(number) => None,
                Alteration::End(number) => {
                    before = Some(end);
                    Some(kinds::of_end(number, header, run.buffer.len() as u64))
                }
                Alteration::Byte(2, place, byte) if place % 25 == 24 => {
                    let aligned = u64::from(byte).is_multiple_of(ALIGNMENT);
                    (!aligned).then_some(kinds::UNALIGNED)
                }
                _ => None,
            };
            if let Alteration::End(number) = *alteration {
                end = number;
            }
            continue;
        }
        if let Some(kind) = altered.take() {
            let number = if *reported == Err((24, 0)) { 24 } else { 0 };
            met.push((number, kind));
        }
        match (call, reported) {
            (Call::Begin(..), _) => end = header,
            (Call::Put(_, _, bytes), Ok(made)) => {
                met.push((0, kinds::of_put(bytes, made - bytes.len() as u64)));
                end += made;
            }
            (Call::Put(..), Err((23, made))) => {
                let padding = end.next_multiple_of(ALIGNMENT) - end;
                met.push((23, kinds::of_cut_put(*made, padding)));
            }
            _ => (),
        }
    }
    met
}

/// Counts the answers of the writer's calls, and the names that make refused, by the edition that the record then has; and what request C-22 is about, by the
/// edition of the first begin.
fn count(run: &Run, answers: &[Reported], report: &mut Report) {
    let mut edition = None;
    let first = match run.calls.first() {
        Some(Call::Begin(number, _)) => Edition::written((*number).into()),
        _ => None,
    };
    for (number, kind) in met(run, answers) {
        report.met(number, kind, first);
    }
    for (call, reported) in run.calls.iter().zip(answers) {
        match call {
            Call::Begin(number, _) => edition = Edition::written((*number).into()),
            Call::Alter(Alteration::Edition(number)) => edition = Edition::written(*number),
            _ => (),
        }
        if matches!(call, Call::Alter(_)) {
            continue;
        }
        report.reported(reported, edition);
        if let (Call::Make(_, name), Err((14, place))) = (call, reported) {
            report.met(14, kinds::of_name(name, *place), edition);
        }
    }
}

/// All cuts of a short run; some of a long one, a part of them inside puts, where the padding is more often met than their bytes.
fn cuts(random: &Random, calls: &[Call], answers: &[Reported], total: u64) -> Vec<u64> {
    if total <= 260 {
        return (0..=total).collect();
    }
    let some = if calls.len() > 100 { 1 } else { 12 };
    let mut cuts: Vec<u64> = (0..some)
        .map(|_| random.below(total as usize) as u64)
        .collect();
    let (mut before, mut puts) = (0, Vec::new());
    for (call, reported) in calls.iter().zip(answers) {
        let made = stores(call, reported);
        if let (Call::Put(_, _, bytes), Ok(_)) = (call, reported) {
            let padding = made - bytes.len() as u64;
            puts.extend([(before, made), (before, padding), (before, padding)]);
        }
        before += made;
    }
    puts.retain(|(_, size)| *size > 0);
    let inside = if puts.is_empty() { 0 } else { some / 2 };
    for _ in 0..inside {
        let (first, size) = random.pick(&puts);
        cuts.push(first + random.below(size as usize) as u64);
    }
    cuts.extend([0, 1, total - 1, total]);
    cuts
}

/// After an accepted close the buffer opens and shows the tree that the calls since the last begin describe.
pub fn shows_run(calls: &[Call], answers: &[Reported], buffer: &[u8], report: &mut Report) {
    let last = calls
        .iter()
        .rposition(|call| matches!(call, Call::Begin(..)));
    let first = last.expect("a run begins");
    let (calls, reported) = (&calls[first..], &answers[first..]);
    let closed =
        |(call, reported): (&Call, &Reported)| matches!(call, Call::Close) && reported.is_ok();
    let was_closed = calls.iter().zip(reported).any(closed);
    report.same("close", &reported[0].is_ok(), &was_closed);
    if was_closed {
        shows(calls, reported, buffer, report);
    }
}

/// A run cut after some number of stores: place 0 is not `L` while a begun file is not finished, so it is refused by 3. With no store the buffer is as it
/// was.
fn check_cut(run: &Run, cut: u64, total: u64, report: &mut Report) {
    let mut desk = run.desk();
    let answers = play(&mut desk, &run.calls, cut);
    count(run, &answers, report);
    let made: u64 = run
        .calls
        .iter()
        .zip(&answers)
        .map(|(c, t)| stores(c, t))
        .sum();
    report.same("stores made", &cut.min(total), &made);
    let begun = run
        .calls
        .iter()
        .filter(|c| matches!(c, Call::Begin(..)))
        .count();
    if made == 0 {
        report.same("no store", &true, &(desk.buffer == run.buffer));
    }
    if begun == 1 && made > 0 && made < total {
        let reported = open(&desk.buffer, &form_for(&desk.buffer))
            .map(|_| ())
            .err();
        report.same("cut", &Some(Refused::from((3, 0))), &reported);
    }
}

/// One call on the model and on another desk: answer, record and memory after it. Both answers, the model's first.
pub fn call_both(
    number: usize,
    call: &Call,
    allowance: u64,
    model: &mut Writer,
    other: &mut dyn Desk,
    report: &mut Report,
) -> [Reported; 2] {
    let reported = model.call(call, allowance);
    let theirs = other.call(call, allowance);
    report.same(&format!("call {number}"), &reported, &theirs);
    report.same("record", &model.numbers(), &other.numbers());
    report.same("memory", &true, &(model.memory() == other.memory()));
    [reported, theirs]
}

/// The same calls on the model and on another desk, with one total allowance.
fn beside(run: &Run, model: &mut Writer, other: &mut dyn Desk, total: u64, report: &mut Report) {
    let mut left = total;
    let mut altered = false;
    for (number, call) in run.calls.iter().enumerate() {
        let [reported, _] = call_both(number, call, left, model, other, report);
        left -= stores(call, &reported);
        match call {
            Call::Alter(_) => altered = true,
            Call::Begin(..) => altered = false,
            _ if altered => {
                let edition = Edition::written(model.record.edition);
                report.judged(reported != Err((24, 0)), edition)
            }
            _ => (),
        }
    }
}
