//! Damaged images: each kind of damage aims at one refusal from 2 to 7, from 9 to 13 or from 25 to 27, with the sums made right again where
//! the fault lies after them. The base is a lawful image whose sections do not overlap, so that number and place are known beforehand.
//! A symbol table that lost its last zero may still be lawful (request C-13); then the image is aimed at being accepted.

use crate::format::{big, Edition, Kind, DATA, MOST, SIGNATURE, SYMBOLS, TEXT, TREE};
use crate::images::{apart, draft, image, insert_string, malformed, new_name, plain, sum_again};
use crate::images::{sum_header, tables, tables_of, with_data, Aim, Draft, Image, Node};
use crate::md5::md5;
use crate::open::{Refused, Span};
use crate::random::Random;
use std::collections::HashSet;

type Damage = fn(&Random) -> Image;

const DAMAGES: [(&str, Damage); 22] = [
    ("short", short),
    ("text", text),
    ("form", form),
    ("header byte", header_byte),
    ("header sum", header_sum),
    ("header order", header_order),
    ("section outside", outside),
    ("section sum", section_sum),
    ("last zero", last_zero),
    ("name not ended", name_not_ended),
    ("too many strings", many_strings),
    ("symbol count", symbol_count),
    ("repeated string", repeated_string),
    ("tree table", tree_table),
    ("numbers", numbers),
    ("ring", ring),
    ("twins", twins),
    ("data outside", data_outside),
    ("flips", flips),
    ("flips, summed again", flips_summed),
    ("loose", loose),
    ("loose tables", loose_tables),
];

/// A damaged image.
pub fn damaged(random: &Random) -> Image {
    let (name, damage) = random.pick(&DAMAGES);
    let mut image = damage(random);
    image.what = format!("{name}: {}", image.what);
    image
}

fn aimed(bytes: Vec<u8>, number: u32, place: u64, what: &str) -> Image {
    Image {
        bytes,
        aim: Aim::Refused((number, place).into()),
        what: what.to_string(),
    }
}

/// 10 with its second number (C-18). A node's number counts from 0 here.
fn aimed_at_node(bytes: Vec<u8>, node: usize, second: u64, what: &str) -> Image {
    Image {
        bytes,
        aim: Aim::Refused(Refused {
            number: 10,
            place: node as u64 + 1,
            second,
        }),
        what: what.to_string(),
    }
}

fn unknown(bytes: Vec<u8>, what: &str) -> Image {
    Image {
        bytes,
        aim: Aim::Unknown,
        what: what.to_string(),
    }
}

/// A plain draft with at least so many nodes.
fn base(random: &Random, nodes: usize) -> Draft {
    loop {
        let draft = plain(random);
        if draft.nodes.len() >= nodes {
            return draft;
        }
    }
}

/// Gives the byte at a place another value.
fn change(random: &Random, bytes: &mut [u8], place: usize) {
    bytes[place] ^= 1 + random.below(255) as u8;
}

/// 2: "shorter than 144, or than 168 in edition 2", and in edition 3; with the first byte zero, 3 from 144 on.
fn short(random: &Random) -> Image {
    let draft = plain(random);
    let edition = draft.edition;
    let mut bytes = draft.finish();
    let lengths = [
        0, 1, 19, 20, 32, 128, 142, 143, 143, 144, 144, 145, 152, 166, 167, 167, 168,
    ];
    let mut length = random.pick(&lengths);
    if random.one_in(4) {
        length = random.below(170);
    }
    bytes.truncate(length);
    let zero = random.one_in(3) && length > 0;
    if zero {
        bytes[0] = 0;
    }
    let number = if zero && length >= 144 { 3 } else { 2 };
    if length < 144 || length < edition.header() || zero {
        return aimed(bytes, number, 0, &format!("{length} bytes"));
    }
    unknown(bytes, &format!("{length} bytes"))
}

/// 3: "unknown signature text". Another edition's text is known; some of those images have its header sum.
fn text(random: &Random) -> Image {
    let mut bytes = plain(random).finish();
    let place = random.pick(&[17, 17, 19, random.below(TEXT), random.below(TEXT)]);
    match random.one_in(2) {
        true => bytes[place] = random.pick(b"01234 L\0"),
        false => change(random, &mut bytes, place),
    }
    let what = format!("byte {place} is {}", bytes[place]);
    match Edition::from_text(&bytes) {
        None => aimed(bytes, 3, 0, &what),
        Some(edition) => {
            if bytes.len() >= edition.header() && random.one_in(2) {
                sum_header(&mut bytes, edition);
            }
            unknown(bytes, &what)
        }
    }
}

/// 4: "the other 12 signature bytes differ from those lent", with the header sum right or wrong. The first of them is the zero that ends the text.
fn form(random: &Random) -> Image {
    let draft = plain(random);
    let edition = draft.edition;
    let mut bytes = draft.finish();
    let any = random.between(TEXT, SIGNATURE - 1);
    let place = random.pick(&[TEXT, any, any, any]);
    match place == TEXT && random.one_in(2) {
        true => bytes[place] = b'.',
        false => change(random, &mut bytes, place),
    }
    if random.one_in(2) {
        sum_header(&mut bytes, edition);
    }
    aimed(bytes, 4, 0, &format!("byte {place}"))
}

/// 5: a byte after the signature, or of the sum itself, is another.
fn header_byte(random: &Random) -> Image {
    let draft = plain(random);
    let edges = [
        SIGNATURE,
        draft.edition.summed() - 1,
        draft.edition.summed(),
        draft.edition.header() - 1,
    ];
    let mut place = random.between(SIGNATURE, draft.edition.header() - 1);
    if random.one_in(2) {
        place = random.pick(&edges);
    }
    let mut bytes = draft.finish();
    change(random, &mut bytes, place);
    aimed(bytes, 5, 0, &format!("byte {place}"))
}

/// 5: a sum over other bytes: with a zero at place 0, one byte fewer, one more, or the whole header.
fn header_sum(random: &Random) -> Image {
    let draft = plain(random);
    let edition = draft.edition;
    let mut bytes = draft.finish();
    let mut head = bytes[..edition.header()].to_vec();
    let way = random.below(4);
    match way {
        0 => head[0] = 0,
        1 => head.truncate(edition.summed() - 1),
        2 => head.truncate(edition.summed() + 1),
        _ => (),
    }
    if way == 0 {
        head.truncate(edition.summed());
    }
    bytes[edition.summed()..edition.header()].copy_from_slice(&md5(&head));
    aimed(bytes, 5, 0, &format!("way {way}"))
}

/// The section headers in another order than the edition's, mostly that of edition 3 in the others and theirs in edition 3, with right sums. Then edition
/// 3 takes the tree table for the symbol table. Each entry has six zeros or more in its parent's number, so there are more strings than entries: 25 or 26.
fn header_order(random: &Random) -> Image {
    let draft = plain(random);
    let (edition, nodes) = (draft.edition, draft.nodes.len());
    let tree = draft.tree();
    let mut bytes = draft.finish();
    let (exchanged, turned) = match edition {
        Edition::Three => ([1, 2, 0], [2, 0, 1]),
        Edition::One | Edition::Two => ([2, 0, 1], [1, 2, 0]),
    };
    let any = random.pick(&[turned, [0, 2, 1], [1, 0, 2], [2, 1, 0]]);
    let order = random.pick(&[exchanged, exchanged, any]);
    let size = edition.section_header();
    let headers = bytes[SIGNATURE..edition.summed()].to_vec();
    for (rank, from) in order.into_iter().enumerate() {
        let header = &headers[from * size..][..size];
        bytes[SIGNATURE + rank * size..][..size].copy_from_slice(header);
    }
    sum_header(&mut bytes, edition);
    let what = format!("edition {}: {order:?}, {nodes} nodes", edition.number());
    if edition != Edition::Three || order != exchanged || nodes == 0 {
        return unknown(bytes, &what);
    }
    let zeros = tree.iter().filter(|byte| **byte == 0).count();
    let strings = zeros + usize::from(!tree.ends_with(&[0]));
    match strings > MOST {
        true => aimed(bytes, 25, MOST as u64, &what),
        false => aimed(bytes, 26, 0, &what),
    }
}

/// A section that ends past an image of the given length. The sum of some of them wraps at 2^64 or at 2^32.
fn far(random: &Random, length: u64, old: Span) -> Span {
    let small = random.below(length as usize) as u64;
    let before = random.below(old.offset as usize) as u64;
    let spans = [
        (old.offset, length - old.offset + 1),
        (length, 1),
        (length + 1, 0),
        (0, length + 1),
        (u64::MAX, 0),
        (u64::MAX, 1),
        (u64::MAX, u64::MAX),
        (u64::MAX - 7, 16),
        (small + 1, u64::MAX - small),
        (old.offset, before.wrapping_sub(old.offset)),
        (1 << 63, 1 << 63),
        ((1 << 32) + old.offset, old.size),
        (old.offset, (1 << 32) + old.size),
    ];
    let (offset, size) = random.pick(&spans);
    Span { offset, size }
}

/// 6: "a section ends past the image", reported the first of them in the order symbol, tree, data.
fn outside(random: &Random) -> Image {
    let mut draft = plain(random);
    let sections = random.some_of(3);
    let (symbols, tree) = (draft.symbols(), draft.tree());
    for (section, bytes) in [(SYMBOLS, symbols), (TREE, tree)] {
        let place = draft.spans[section].offset as usize;
        draft.bytes[place..place + bytes.len()].copy_from_slice(&bytes);
    }
    let length = draft.bytes.len() as u64;
    for section in &sections {
        draft.spans[*section] = far(random, length, draft.spans[*section]);
    }
    draft.seal();
    let what = format!("{:?} of {length}", draft.spans);
    aimed(draft.bytes, 6, sections[0] as u64 + 1, &what)
}

/// 7: "a section's sum wrong", reported the first of them in that order: a byte of the sum or of the section is another. Faults of the tables are
/// checked later.
fn section_sum(random: &Random) -> Image {
    let mut draft = tables(random);
    if random.one_in(4) {
        repeat_string(random, &mut draft);
        later_fault(random, &mut draft);
    }
    let draft = placed(random, draft);
    let (edition, spans) = (draft.edition, draft.spans);
    let sections = random.some_of(3);
    let mut bytes = draft.finish();
    for section in &sections {
        let span = spans[*section];
        let mut place = edition.place_of_sum(*section) + random.below(16);
        if span.size > 0 && random.one_in(2) {
            place = span.offset as usize + random.below(span.size as usize);
        }
        change(random, &mut bytes, place);
    }
    sum_header(&mut bytes, edition);
    aimed(bytes, 7, sections[0] as u64 + 1, &format!("{sections:?}"))
}

/// Places a draft whose tables were changed, and gives its nodes data.
fn placed(random: &Random, mut draft: Draft) -> Draft {
    apart(random, &mut draft);
    with_data(random, &mut draft);
    draft
}

/// The editions that have counts.
const COUNTED: [Edition; 2] = [Edition::Two, Edition::Three];

/// A count that differs from the right one.
fn other_count(random: &Random, right: u64) -> u64 {
    let counts = [
        right + 1,
        right.wrapping_sub(1),
        right + (1 << 32),
        right + 256,
        u64::MAX,
    ];
    random.pick(&counts)
}

/// The right count, or one that differs.
fn any_count(random: &Random, right: u64) -> u64 {
    match random.one_in(2) {
        true => right,
        false => other_count(random, right),
    }
}

/// Gives some drafts a fault that is checked after the symbol table: 9 by a type or the count, or 10.
fn later_fault(random: &Random, draft: &mut Draft) {
    match random.below(8) {
        0 => draft.tail = vec![0],
        1 => draft.records[TREE] = other_count(random, draft.nodes.len() as u64),
        2..=3 => no_numbers(random, draft),
        _ => (),
    }
}

/// Gives every node a string or a parent that does not exist: 10, which is checked after both tables.
fn no_numbers(random: &Random, draft: &mut Draft) {
    let strings = random.one_in(2);
    for node in &mut draft.nodes {
        match strings {
            true => node.string = u32::MAX,
            false => node.parent = u64::MAX,
        }
    }
}

/// The last zero of a whole table is taken away. The section is one byte shorter: then the last string has no zero or, where it was the
/// empty one, it is gone, and the count differs: 26. Or the zero is another byte, which the last string then has at its end: it may be an
/// earlier string, 27, or no subkey, 10 if a node has it, which then had a subkey: the new byte is the first that breaks the rule. The counts are
/// those of the table before.
fn last_zero(random: &Random) -> Image {
    let mut draft = tables(random);
    draft.unterminated = false;
    if draft.strings.is_empty() || (random.one_in(4) && draft.strings.len() < MOST) {
        let empty = !draft.strings.contains(&Vec::new()) && random.one_in(2);
        let string = if empty {
            Vec::new()
        } else {
            new_name(random, draft.edition, &draft.strings)
        };
        draft.strings.push(string);
        draft.records[SYMBOLS] = draft.strings.len() as u64;
    }
    let mut draft = placed(random, draft);
    let (edition, last) = (draft.edition, draft.strings.len() - 1);
    if random.one_in(2) {
        draft.spans[SYMBOLS].size -= 1;
        if draft.strings[last].is_empty() && edition.has_counts() {
            return aimed(draft.finish(), 26, 0, "shorter by the last, empty string");
        }
        return accepted(draft, "shorter by one");
    }
    let byte = random.pick(&[
        b'a',
        b'9',
        b'.',
        b'Z',
        b'/',
        b' ',
        0xff,
        1 + random.below(255) as u8,
    ]);
    let mut string = draft.strings[last].clone();
    string.push(byte);
    let of_last = |node: &Node| node.string as usize == last;
    let user = draft.nodes.iter().position(of_last);
    let earlier = draft.strings.contains(&string);
    let spans = draft.spans;
    let mut bytes = draft.finish();
    let end = (spans[SYMBOLS].offset + spans[SYMBOLS].size) as usize;
    bytes[end - 1] = byte;
    sum_again(&mut bytes, edition, &spans);
    let what = format!("{byte} in its place");
    match user {
        _ if earlier => aimed(bytes, 27, last as u64, &what),
        Some(node) if !edition.is_subkey(&string) => {
            aimed_at_node(bytes, node, string.len() as u64 - 1, &what)
        }
        _ => Image {
            bytes,
            aim: Aim::Accepted,
            what,
        },
    }
}

/// An image that is lawful after all.
fn accepted(draft: Draft, what: &str) -> Image {
    Image {
        bytes: draft.finish(),
        aim: Aim::Accepted,
        what: what.to_string(),
    }
}

/// A last string with no zero, and how nodes use it: the name of a node, accepted; no subkey, 10 if a node has it, whether its parent exists or not; the
/// name of two siblings, 12; one number beyond, 10.
fn name_not_ended(random: &Random) -> Image {
    let mut draft = base(random, 2);
    draft.unterminated = true;
    if draft.strings.len() == MOST {
        return accepted(placed(random, draft), "2,048 strings");
    }
    let edition = draft.edition;
    let (no_subkey, place) = malformed(random, edition);
    let way = random.below(5);
    let string = match way {
        1..=2 if !draft.strings.contains(&no_subkey) => no_subkey,
        _ => new_name(random, edition, &draft.strings),
    };
    let lawful = edition.is_subkey(&string);
    let last = draft.strings.len() as u32;
    draft.strings.push(string);
    draft.records[SYMBOLS] = u64::from(last) + 1;
    let one = random.below(draft.nodes.len());
    let two = random.below(draft.nodes.len());
    let (one, two) = (one.min(two), one.max(two));
    match way {
        // The new string is no other node's, so a node that takes it has no twin.
        0..=1 => draft.nodes[one].string = last,
        2 => (),
        3 => {
            if one == two || is_below(&draft.nodes, one as u64 + 1, two as u64 + 1) {
                return accepted(placed(random, draft), "unused");
            }
            draft.nodes[one].string = last;
            draft.nodes[two].string = last;
            draft.nodes[two].parent = draft.nodes[one].parent;
        }
        _ => draft.nodes[one].string = last + 1,
    }
    if way == 1 && !lawful && random.one_in(3) {
        draft.nodes[one].parent = no_parent(random, &draft, one);
    }
    let draft = placed(random, draft);
    match way {
        1 if !lawful => aimed_at_node(draft.finish(), one, place, "no subkey"),
        3 => aimed(draft.finish(), 12, two as u64 + 1, "two siblings"),
        4 => aimed_at_node(draft.finish(), one, 0, "one number beyond"),
        2 => accepted(draft, "unused"),
        _ => accepted(draft, "used"),
    }
}

/// 25: "above 2,048", reported string 2,048. A wrong count and repeated strings are checked later.
fn many_strings(random: &Random) -> Image {
    let mut draft = tables(random);
    draft.unterminated = !random.one_in(3);
    grow(random, &mut draft);
    let strings = draft.strings.len();
    draft.records[SYMBOLS] = any_count(random, strings as u64);
    later_fault(random, &mut draft);
    let bytes = placed(random, draft).finish();
    aimed(bytes, 25, MOST as u64, &format!("{strings} strings"))
}

/// Adds strings until there are more than 2,048: empty ones, or different ones with or without a repeat. The last may lack its zero.
fn grow(random: &Random, draft: &mut Draft) {
    let sizes = [MOST + 1, MOST + 1, MOST + 1, MOST + 2, 2 * MOST, 9000];
    let size = random.pick(&sizes);
    match random.below(5) {
        0 => draft.strings.resize(size, Vec::new()),
        1 => {
            draft.strings.resize(size - 1, Vec::new());
            draft.strings.push(new_name(random, draft.edition, &[]));
        }
        2..=3 => fill(draft, size),
        _ => {
            fill(draft, size - 1);
            repeat_string(random, draft);
        }
    }
}

/// Adds strings that differ from all others until there are so many.
fn fill(draft: &mut Draft, size: usize) {
    let known: HashSet<Vec<u8>> = draft.strings.iter().cloned().collect();
    let decimals = (0..).map(|number: usize| number.to_string().into_bytes());
    let new = decimals.filter(|string| !known.contains(string));
    let more = size.saturating_sub(draft.strings.len());
    draft.strings.extend(new.take(more));
}

/// 26: "count differs", reported 0; edition 1 has no count. A repeated string is checked later.
fn symbol_count(random: &Random) -> Image {
    let mut draft = tables_of(random, random.pick(&COUNTED));
    draft.unterminated = !random.one_in(3);
    let repeated = random.one_in(3);
    if repeated {
        shorten(&mut draft);
        repeat_string(random, &mut draft);
    }
    let strings = draft.strings.len();
    let count = other_count(random, strings as u64);
    draft.records[SYMBOLS] = count;
    later_fault(random, &mut draft);
    let bytes = placed(random, draft).finish();
    let what = format!("{count} for {strings} strings, repeated {repeated}");
    aimed(bytes, 26, 0, &what)
}

/// 27: "repeated string", reported "the lowest string that equals an earlier one". The count is right.
fn repeated_string(random: &Random) -> Image {
    let mut draft = tables(random);
    draft.unterminated = !random.one_in(3);
    shorten(&mut draft);
    let place = match random.below(8) {
        0 => last_as_first(&mut draft),
        1 => all_equal(random, &mut draft),
        2..=3 => repeat_empty(random, &mut draft),
        _ => repeat_string(random, &mut draft),
    };
    let strings = draft.strings.len();
    draft.records[SYMBOLS] = strings as u64;
    later_fault(random, &mut draft);
    let bytes = placed(random, draft).finish();
    let what = format!("{place} of {strings} strings");
    aimed(bytes, 27, place as u64, &what)
}

/// Shortens a full table, so that up to four more strings do not make it 25. A node may lose its name: 10, which is checked later.
fn shorten(draft: &mut Draft) {
    draft.strings.truncate(MOST - 4);
}

/// Repeats a string of a table whose strings all differ; returns the number of the repeat.
fn repeat_string(random: &Random, draft: &mut Draft) -> usize {
    if draft.strings.is_empty() {
        draft.strings.push(Vec::new());
    }
    let first = random.below(draft.strings.len());
    repeat_after(random, draft, first)
}

/// Repeats the empty string, which is added where the table lacks it; returns the number of the repeat.
fn repeat_empty(random: &Random, draft: &mut Draft) -> usize {
    let there = draft.strings.iter().position(|string| string.is_empty());
    let first = there.unwrap_or_else(|| {
        let number = random.between(0, draft.strings.len());
        insert_string(draft, number, Vec::new());
        number
    });
    repeat_after(random, draft, first)
}

/// Repeats string `first` next to it, at the end, or between. All strings differed, so those before the repeat still do: the repeat is
/// the lowest string that equals an earlier one. Some drafts get one or two more repeats after it, of the same string or of another.
fn repeat_after(random: &Random, draft: &mut Draft, first: usize) -> usize {
    let end = draft.strings.len();
    let place = random.pick(&[first + 1, end, random.between(first + 1, end)]);
    let string = draft.strings[first].clone();
    insert_string(draft, place, string.clone());
    for _ in 0..random.pick(&[0, 0, 1, 2]) {
        let number = random.between(place + 1, draft.strings.len());
        let other = random.pick(&draft.strings[..number]);
        let again = random.pick(&[string.clone(), other]);
        insert_string(draft, number, again);
    }
    place
}

/// Makes it 2,048 strings, of which only the last equals an earlier one: the first.
fn last_as_first(draft: &mut Draft) -> usize {
    fill(draft, MOST - 1);
    draft.strings.push(draft.strings[0].clone());
    MOST - 1
}

/// Makes all strings equal: string 1 equals string 0.
fn all_equal(random: &Random, draft: &mut Draft) -> usize {
    let string = random.pick(&[Vec::new(), new_name(random, draft.edition, &[])]);
    draft.strings = vec![string; random.pick(&[2, 3, MOST])];
    1
}

/// 9: "entry cut short, type not 1 to 5, a 2,049th entry (before its type is read), or count differs".
fn tree_table(random: &Random) -> Image {
    let mut draft = tables(random);
    let nodes = draft.nodes.len();
    match random.below(5) {
        0 if nodes > 0 => {
            let size = draft.nodes[nodes - 1].bytes().len();
            draft.cut = random.pick(&[1, 1, size - 1, 1 + random.below(size - 1)]);
            tree_fault(random, draft, nodes as u64, "cut")
        }
        1 if nodes < MOST => {
            let code = random.pick(&[0, 1, 1, 2, 3, 4, 5, 6, 255]);
            let most = if code == 1 { 12 } else { 24 };
            let size = random.pick(&[1, most, 1 + random.below(most)]);
            draft.tail = random.bytes(size);
            draft.tail[0] = code;
            tree_fault(random, draft, nodes as u64 + 1, "tail")
        }
        2 if nodes > 0 => {
            let bad = random.some_of(nodes);
            for node in &bad {
                draft.nodes[*node].code = random.pick(&[0, 6, 7, 8, 128, 255]);
            }
            tree_fault(random, draft, bad[0] as u64 + 1, "type")
        }
        3 => too_many(random),
        _ => {
            let mut draft = tables_of(random, random.pick(&COUNTED));
            draft.records[TREE] = other_count(random, draft.nodes.len() as u64);
            let bytes = placed(random, draft).finish();
            aimed(bytes, 9, 0, "count")
        }
    }
}

/// An entry's fault is reported whatever the count says, and before the nodes' numbers are checked.
fn tree_fault(random: &Random, mut draft: Draft, place: u64, what: &str) -> Image {
    if random.one_in(4) {
        no_numbers(random, &mut draft);
    }
    if random.one_in(2) {
        draft.records[TREE] = random.pick(&[place, place - 1, 0, u64::MAX]);
    }
    let mut draft = placed(random, draft);
    if random.one_in(2) {
        draft.records[DATA] = random.next();
    }
    aimed(draft.finish(), 9, place, what)
}

/// A 2,049th entry, whole or cut short, of a known type or not.
fn too_many(random: &Random) -> Image {
    let node = |i: usize| Node {
        code: 1,
        parent: i as u64,
        string: 0,
        count: 0,
        offset: 0,
    };
    let nodes = (0..MOST).map(node).collect();
    let edition = random.pick(&Edition::ALL);
    let mut draft = draft(random, edition, vec![b"n".to_vec()], nodes);
    let size = random.pick(&[1, 12, 13, 25, 26]);
    draft.tail = random.bytes(size);
    draft.tail[0] = random.pick(&[0, 1, 2, 6]);
    draft.records[TREE] = random.pick(&[2048, 2049]);
    let bytes = placed(random, draft).finish();
    aimed(bytes, 9, 2049, "2,049th entry")
}

/// What is wrong with the name of a node that 10 is about.
enum Flaw {
    None,
    NoString,
    /// The string is no subkey; the place is that of the first byte that breaks the rule.
    Malformed(Vec<u8>, u64),
}

/// A flaw; adds the string where it is not in the table. None where the table is full.
fn flaw(random: &Random, draft: &mut Draft) -> Flaw {
    let (string, place) = match random.below(8) {
        0..=1 => return Flaw::None,
        2 => return Flaw::NoString,
        3 => (Vec::new(), 0),
        _ => malformed(random, draft.edition),
    };
    if !draft.strings.contains(&string) {
        if draft.strings.len() == MOST {
            return Flaw::None;
        }
        let end = draft.strings.len();
        let number = random.pick(&[end, random.between(0, end)]);
        insert_string(draft, number, string.clone());
    }
    Flaw::Malformed(string, place)
}

/// A number of no node.
fn no_parent(random: &Random, draft: &Draft, node: usize) -> u64 {
    let nodes = draft.nodes.len() as u64;
    let far = [
        nodes + 1,
        nodes + 1,
        1 << 32,
        (1 << 32) + draft.nodes[node].parent,
        1 << 63,
        u64::MAX,
    ];
    random.pick(&far)
}

/// The number of the string that a flaw gives a node, where it gives one.
fn bad_string(random: &Random, draft: &Draft, flaw: &Flaw) -> Option<u32> {
    let strings = draft.strings.len() as u32;
    match flaw {
        Flaw::None => None,
        Flaw::NoString => Some(random.pick(&[strings, strings, strings + 1, 1 << 31, u32::MAX])),
        Flaw::Malformed(string, _) => {
            let number = draft.strings.iter().position(|other| other == string);
            number.map(|number| number as u32)
        }
    }
}

/// 10: "parent or string number does not exist, or the string is no subkey", reported the lowest node and the place in its name.
pub fn numbers(random: &Random) -> Image {
    let mut draft = base(random, 1);
    let bad = random.some_of(draft.nodes.len());
    let flaws: Vec<Flaw> = bad.iter().map(|_| flaw(random, &mut draft)).collect();
    for (node, flaw) in bad.iter().zip(&flaws) {
        let string = bad_string(random, &draft, flaw);
        if string.is_none() || random.one_in(3) {
            draft.nodes[*node].parent = no_parent(random, &draft, *node);
        }
        if let Some(string) = string {
            draft.nodes[*node].string = string;
        }
    }
    draft.records[SYMBOLS] = draft.strings.len() as u64;
    let bytes = placed(random, draft).finish();
    let second = match flaws[0] {
        Flaw::Malformed(_, place) => place,
        _ => 0,
    };
    aimed_at_node(bytes, bad[0], second, &format!("{} nodes", bad.len()))
}

/// Whether a node, counted from 1, is another or below it.
fn is_below(nodes: &[Node], mut node: u64, above: u64) -> bool {
    while node != 0 && node != above {
        node = nodes[node as usize - 1].parent;
    }
    node == above
}

/// 11: a node's parent is itself or one below it; reported the lowest node of its subtree.
fn ring(random: &Random) -> Image {
    let mut draft = base(random, 1);
    let nodes = draft.nodes.len() as u64;
    let top = random.between(1, nodes as usize) as u64;
    let below: Vec<u64> = (1..=nodes)
        .filter(|n| is_below(&draft.nodes, *n, top))
        .collect();
    let parent = random.pick(&[top, random.pick(&below), random.pick(&below)]);
    draft.nodes[top as usize - 1].parent = parent;
    let what = format!("{top} under {parent}");
    aimed(draft.finish(), 11, below[0], &what)
}

/// 12: a node is moved beside another and takes its name; reported the higher of the two.
fn twins(random: &Random) -> Image {
    loop {
        let mut draft = base(random, 2);
        let nodes = draft.nodes.len();
        let (one, two) = (random.below(nodes), random.below(nodes));
        if !is_below(&draft.nodes, one as u64 + 1, two as u64 + 1) {
            draft.nodes[two].parent = draft.nodes[one].parent;
            draft.nodes[two].string = draft.nodes[one].string;
            let what = format!("{} and {}", one + 1, two + 1);
            return aimed(draft.finish(), 12, one.max(two) as u64 + 1, &what);
        }
    }
}

/// Count and offset of data that are not inside a section, which does not begin at 0.
fn wrong_data(random: &Random, data: Span, width: u64) -> (u64, u64) {
    let (start, end) = (data.offset, data.offset + data.size);
    let most = data.size / width;
    let product = ((1 << 32) / width).min(u64::from(u32::MAX) - most);
    let ways = [
        (most + 1, start),
        (most, end - most * width + 1),
        (1, end),
        (1, start - 1),
        (0, start - 1),
        (0, end + 1),
        (0, 0),
        (0, u64::MAX),
        (1, u64::MAX - width + 1),
        (most + 1, (end - width - most * width).min(start - 1)),
        (product, start),
        (product + most, start),
        (product + random.below(most as usize + 1) as u64, start),
        (u64::from(u32::MAX), start),
        (
            u64::from(u32::MAX),
            end.wrapping_sub(width * u64::from(u32::MAX)),
        ),
        (1, (1 << 32) + start),
    ];
    random.pick(&ways)
}

/// 13: "data not inside the data section", reported the lowest node.
fn data_outside(random: &Random) -> Image {
    let mut draft = base(random, 1);
    let nodes = draft.nodes.len();
    let sure = random.below(nodes);
    draft.nodes[sure].code = 2 + random.below(4) as u8;
    let mut draft = placed(random, draft);
    let mut lowest = None;
    for number in 0..nodes {
        let node = &mut draft.nodes[number];
        if number == sure || (!node.is_void() && random.one_in(6)) {
            let (count, offset) = wrong_data(random, draft.spans[DATA], node.width() as u64);
            (node.count, node.offset) = (count as u32, offset);
            lowest = lowest.or(Some((number, count, offset)));
        }
    }
    let (number, count, offset) = lowest.expect("one is sure");
    let what = format!("count {count} at {offset}, section {:?}", draft.spans[DATA]);
    aimed(draft.finish(), 13, number as u64 + 1, &what)
}

/// Any image with some bytes changed.
fn flips(random: &Random) -> Image {
    let other = image(random.next(), 0);
    let mut bytes = other.bytes;
    for _ in 0..random.between(1, 4) {
        let place = random.below(bytes.len());
        if place < bytes.len() {
            change(random, &mut bytes, place);
        }
    }
    unknown(bytes, &other.what)
}

/// The three sections that a header names.
fn spans_of(bytes: &[u8], edition: Edition) -> [Span; 3] {
    [SYMBOLS, TREE, DATA].map(|section| Span {
        offset: big(bytes, edition.place_of(section), 8),
        size: big(bytes, edition.place_of(section) + 8, 8),
    })
}

/// A lawful image with some bytes changed, most of them in tables or header, and all sums right again.
fn flips_summed(random: &Random) -> Image {
    let draft = plain(random);
    let (edition, spans) = (draft.edition, draft.spans);
    let mut bytes = draft.finish();
    for _ in 0..random.between(1, 3) {
        let span = match random.below(8) {
            0 => Span {
                offset: SIGNATURE as u64,
                size: (edition.summed() - SIGNATURE) as u64,
            },
            1..=2 => spans[SYMBOLS],
            _ => spans[TREE],
        };
        let place = span.offset as usize + random.below(span.size as usize);
        if place < bytes.len() {
            match random.one_in(2) {
                true => change(random, &mut bytes, place),
                false => bytes[place] = random.below(7) as u8,
            }
        }
    }
    let spans = spans_of(&bytes, edition);
    sum_again(&mut bytes, edition, &spans);
    unknown(bytes, "")
}

/// Small changes of several nodes at once: parents, names, kinds, data near the bounds.
fn loose(random: &Random) -> Image {
    let mut draft = base(random, 1);
    let nodes = draft.nodes.len();
    let strings = draft.strings.len();
    let data = draft.spans[DATA];
    for _ in 0..random.between(1, 6) {
        let other = draft.nodes[random.below(nodes)];
        let node = &mut draft.nodes[random.below(nodes)];
        match random.below(5) {
            0 => node.parent = random.below(nodes + 1 + random.below(2)) as u64,
            1 => node.string = random.below(strings + random.below(2)) as u32,
            2 => (node.parent, node.string) = (other.parent, other.string),
            3 => {
                node.offset =
                    data.offset + data.size - random.below(12).min(data.size as usize) as u64
            }
            _ => node.count = random.below(12) as u32,
        }
    }
    if random.one_in(8) {
        let section = random.below(2);
        draft.records[section] = other_count(random, draft.records[section]);
    }
    unknown(draft.finish(), "")
}

/// Few names and few parents drawn freely: rings, twins and missing numbers beside each other.
fn loose_tables(random: &Random) -> Image {
    let edition = random.pick(&Edition::ALL);
    let mut strings: Vec<Vec<u8>> = Vec::new();
    for _ in 0..random.between(1, 5) {
        strings.push(new_name(random, edition, &strings));
    }
    let nodes = random.between(1, 9);
    let wild = random.pick(&[1, 12, 40]);
    let mut entries = Vec::new();
    for _ in 0..nodes {
        let mut node = Node {
            code: random.between(1, 5) as u8,
            parent: random.below(nodes) as u64,
            string: random.below(strings.len()) as u32,
            count: 0,
            offset: 0,
        };
        if random.one_in(wild * nodes) {
            node.string = strings.len() as u32;
        }
        if random.one_in(2) {
            node.parent = 0;
        }
        if random.one_in(wild * nodes) {
            node.code = random.pick(&[0, 6, Kind::Void.code()]);
        }
        entries.push(node);
    }
    let draft = draft(random, edition, strings, entries);
    let bytes = placed(random, draft).finish();
    unknown(bytes, "")
}
