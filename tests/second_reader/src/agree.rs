//! Compares the library with this reader, call by call, over images and over altered memory.

use crate::answers::{decoded, judged, Choice, Element, Passed, Reader};
use crate::format::{form_for, Edition, Kind, MOST};
use crate::images::{image, Image};
use crate::kinds;
use crate::library;
use crate::open::{open_lent, Record, Span};
use crate::paths::{self, PATHS};
use crate::random::Random;
use crate::report::Report;

/// One image: opening as it should be and with wrong lengths, then the answers, then the answers over altered memory.
pub fn compare(seed: u64, number: u64, report: &mut Report) {
    let image = image(seed, number);
    let random = Random::of(seed ^ 0x00a9_4ee5, number);
    report.begin(seed, number, &image);
    let form = form_for(&image.bytes);
    report.same("form", &form, &library::form_for(&image.bytes));
    form_of(&random, report);
    decode(&random, report);
    if random.one_in(4) {
        wrongly_lent(&random, &image, report);
    }
    let (strings, entries) = opened(&image.bytes, &form, MOST, MOST, report);
    let reported = open_lent(&image.bytes, &form, MOST, MOST);
    report.opened(&image, &reported);
    if let Ok(opened) = reported {
        let passed = Passed {
            image: &image.bytes,
            record: opened.record,
            strings: &strings,
            entries: &entries,
        };
        answers(&random, &passed, report);
        for _ in 0..6 {
            altered(&random, &passed, report);
        }
    }
    report.end(&image.bytes);
}

/// Opens with areas that held other numbers before, in both; compares verdict, record and areas, and hands back the areas.
fn opened(
    image: &[u8],
    form: &[u8],
    strings: usize,
    entries: usize,
    report: &mut Report,
) -> (Vec<u32>, Vec<u32>) {
    let (mut first, mut second) = (vec![77; strings], vec![78; entries]);
    let (reported, record) = library::open(image, form, &mut first, &mut second);
    let ours = open_lent(image, form, strings, entries);
    report.same(
        "opening",
        &ours.as_ref().map(|_| ()).map_err(|r| *r),
        &reported,
    );
    match ours {
        Ok(opened) => {
            report.same("record", &opened.record, &record);
            report.same("strings", &opened.strings, &first);
            report.same("entries", &opened.entries, &second);
        }
        Err(refused) => {
            // "A refused opening from 2 to 13 leaves both work areas all zero"; 25 to 27 clear them too (C-11); 1 changes nothing.
            let left = |before: u32| if refused.number == 1 { before } else { 0 };
            report.same("record", &Record::default(), &record);
            report.same("strings", &vec![left(77); strings], &first);
            report.same("entries", &vec![left(78); entries], &second);
        }
    }
    (first, second)
}

/// 1, and 4 by another form.
fn wrongly_lent(random: &Random, image: &Image, report: &mut Report) {
    let mut form = form_for(&image.bytes).to_vec();
    let (mut strings, mut entries) = (MOST, MOST);
    match random.below(4) {
        0 => form.truncate(random.below(12)),
        1 => form.push(0),
        2 => form[random.below(12)] ^= 1 << random.below(8),
        _ => (),
    }
    let lengths = [0, 1, 2047, 2049, 4096];
    match random.below(4) {
        0 => strings = random.pick(&lengths),
        1 => entries = random.pick(&lengths),
        _ => (),
    }
    opened(&image.bytes, &form, strings, entries, report);
}

/// What a call answers here: 24, or what the reader says.
fn here<T>(
    reader: &Result<Reader, u32>,
    call: impl FnOnce(&Reader) -> Result<T, u32>,
) -> Result<T, u32> {
    match reader {
        Ok(reader) => call(reader),
        Err(number) => Err(*number),
    }
}

/// Every call over what is passed, refused by 24 or not.
fn answers(random: &Random, passed: &Passed, report: &mut Report) {
    let reader = judged(passed);
    let edition = Edition::from_number(passed.record.edition);
    report.judged(reader.is_ok(), edition);
    let nodes = reader.as_ref().map_or(passed.record.nodes, Reader::nodes);
    for node in asked(random, nodes) {
        node_answers(random, passed, &reader, node, report);
    }
    for choice in [Choice::All, Choice::NotVoid] {
        listing(random, passed, &reader, choice, report);
    }
    for path in PATHS {
        lookup(passed, &reader, path, report);
    }
}

/// Node numbers to ask for: all of a small tree, some of a large one, and some that do not exist.
fn asked(random: &Random, nodes: u64) -> Vec<u64> {
    let mut numbers: Vec<u64> = match nodes {
        0..=100 => (0..=nodes).collect(),
        _ => (0..24)
            .map(|_| random.below(nodes as usize) as u64)
            .collect(),
    };
    numbers.extend([0, nodes, nodes.wrapping_add(1)]);
    numbers.push(random.pick(&[u64::MAX, 1 << 32, nodes.wrapping_add(1 << 32), 2049]));
    numbers
}

fn node_answers(
    random: &Random,
    passed: &Passed,
    reader: &Result<Reader, u32>,
    node: u64,
    report: &mut Report,
) {
    let kind = here(reader, |r| r.kind(node).map(|kind| u64::from(kind.code())));
    report.same("kind", &kind, &library::kind(passed, node));
    let count = here(reader, |r| r.count(node));
    report.same("count", &count, &library::count(passed, node));
    let name = here(reader, |r| r.name_part(node));
    part("name", name, library::name(passed, node), report);
    let view = here(reader, |r| r.view(node));
    part("view", view, library::view(passed, node), report);
    path(random, passed, reader, node, report);
    for index in indices(random, count.unwrap_or(1)) {
        element(passed, reader, node, index, report);
    }
}

/// A part of the image; where the documents leave the place of an empty part free, only its size is compared.
fn part(
    what: &str,
    ours: Result<Option<Span>, u32>,
    theirs: Result<Span, u32>,
    report: &mut Report,
) {
    match ours {
        Ok(Some(span)) => report.same(what, &Ok(span), &theirs),
        Ok(None) => report.same(what, &Ok(0), &theirs.map(|span| span.size)),
        Err(number) => report.same(what, &Err(number), &theirs),
    }
}

/// Path into an output that is long enough, just long enough, or one byte too short; then lookup of it, of one near it, and of a malformed one.
fn path(
    random: &Random,
    passed: &Passed,
    reader: &Result<Reader, u32>,
    node: u64,
    report: &mut Report,
) {
    let length = reader
        .as_ref()
        .map_or(3, |r| r.path_length(node).unwrap_or(2)) as usize;
    let buffer = random.pick(&[length, length + 5, length, length - 1, 0]);
    let (mut first, mut second) = (vec![0xaa; buffer], vec![0xaa; buffer]);
    let ours = here(reader, |r| r.path_into(node, &mut first));
    report.same(
        "path",
        &ours,
        &library::path_into(passed, node, &mut second),
    );
    report.same("path bytes", &first, &second);
    let Ok(path) = here(reader, |r| r.path(node)) else {
        return;
    };
    lookup(passed, reader, &path, report);
    lookup(passed, reader, &paths::near(random, &path), report);
    let edition = reader.as_ref().map_or(Edition::Two, Reader::edition);
    for edition in [edition, random.pick(&Edition::ALL)] {
        let malformed = paths::malformed(random, edition, &path);
        lookup(passed, reader, &malformed, report);
    }
}

/// The node, or number and place of the refusal; 24 reports 0.
fn lookup(passed: &Passed, reader: &Result<Reader, u32>, path: &[u8], report: &mut Report) {
    let ours = match reader {
        Ok(reader) => reader.lookup(path),
        Err(number) => Err((*number, 0)),
    };
    report.same("lookup", &ours, &library::lookup(passed, path));
    if let Err((14, place)) = ours {
        let edition = reader.as_ref().map(Reader::edition).ok();
        report.met(14, kinds::of_path(path, place), edition);
    }
}

/// Indices to ask for: all of a few elements, some of many, and the first that does not exist.
fn indices(random: &Random, count: u64) -> Vec<u64> {
    let mut indices: Vec<u64> = match count {
        0..=64 => (0..count).collect(),
        _ => vec![0, random.below(count as usize) as u64, count - 1],
    };
    indices.extend([count, random.pick(&[u64::MAX, 1 << 32, 1 << 60, count + 1])]);
    indices
}

fn element(
    passed: &Passed,
    reader: &Result<Reader, u32>,
    node: u64,
    index: u64,
    report: &mut Report,
) {
    let ours = here(reader, |r| r.element(node, index));
    let theirs = library::element(passed, node, index);
    same_element(&ours, &theirs, report);
    if let (Ok(reader), Ok(_)) = (reader, &ours) {
        let span = reader.view(node).ok().flatten().expect("it has an element");
        let bytes = &passed.image[span.offset as usize..][..span.size as usize];
        let code = reader.kind(node).map_or(0, Kind::code);
        let decoded = library::decode(u64::from(code), bytes, index);
        same_element(&ours, &decoded, report);
    }
}

/// Bit for bit; of a NaN the sign and the payload are free, as the language has one NaN.
fn same_element(
    ours: &Result<Element, u32>,
    theirs: &Result<(f64, f64), u32>,
    report: &mut Report,
) {
    let bits = |value: f64| if value.is_nan() { NAN } else { value.to_bits() };
    let free = |bits: u64| {
        if f64::from_bits(bits).is_nan() {
            NAN
        } else {
            bits
        }
    };
    let ours = ours.map(|element| match element {
        Element::Byte(byte) => (f64::from(byte).to_bits(), 0),
        Element::Int(int) => (f64::from(int).to_bits(), 0),
        Element::Real(real) => (free(real), 0),
        Element::Pair(real, imaginary) => (free(real), free(imaginary)),
    });
    let theirs = theirs.map(|(real, imaginary)| (bits(real), bits(imaginary)));
    report.same("element", &ours, &theirs);
}

/// The 12 bytes of an edition by its number, into an output of some length: none where there is no such edition, or fewer than 12 bytes. The rest of the
/// output stays.
fn form_of(random: &Random, report: &mut Report) {
    let number = random.pick(&[0, 1, 2, 3, 4, 256 + 1, u32::MAX, random.next() as u32]);
    let length = random.pick(&[0, 11, 12, 12, 12, 13, 40]);
    let (mut first, mut second) = (vec![0xaa; length], vec![0xaa; length]);
    let edition = Edition::from_number(number.into()).filter(|_| length >= 12);
    if let Some(edition) = edition {
        first[..12].copy_from_slice(&edition.form());
    }
    let done = library::form(number, &mut second);
    report.same("form of an edition", &edition.is_some(), &done);
    report.same("form of an edition: bytes", &first, &second);
}

/// An element of bytes that the caller holds: 16 past the last, 255 for a code of no kind.
fn decode(random: &Random, report: &mut Report) {
    let code = random.below(8) as u64;
    let kind = Kind::from_code(code);
    let width = kind.map_or(0, Kind::width);
    let count = random.below(6);
    let index = random.pick(&[random.below(6), count, usize::MAX, 1 << 60]);
    let bytes = random.bytes(count * width);
    let ours = match kind {
        None => Err(255),
        Some(Kind::Void) => Err(16),
        Some(_) if index >= count => Err(16),
        Some(kind) => Ok(decoded(kind, &bytes[index * width..][..width])),
    };
    same_element(&ours, &library::decode(code, &bytes, index as u64), report);
}

const NAN: u64 = 0x7ff8_0000_0000_0000;

/// Listing order into areas of exactly the length needed, one place less, and more; where 24 is due, into areas of some lengths.
fn listing(
    random: &Random,
    passed: &Passed,
    reader: &Result<Reader, u32>,
    choice: Choice,
    report: &mut Report,
) {
    let some = random.below(passed.record.nodes.min(4096) as usize + 2);
    let needed = reader.as_ref().map_or(some, |r| r.listed(choice).len());
    let longer = needed + random.between(1, 5);
    for places in [Some(needed), needed.checked_sub(1), Some(longer)] {
        let Some(places) = places else { continue };
        let (mut first, mut second) = (vec![0xaaaa; places], vec![0xaaaa; places]);
        let ours = here(reader, |r| r.order_into(choice, &mut first));
        let theirs = library::order_into(passed, choice, &mut second);
        report.same("listing", &ours, &theirs);
        report.same("listing numbers", &first, &second);
    }
}

/// The same calls after one to three things passed have been altered since opening.
fn altered(random: &Random, passed: &Passed, report: &mut Report) {
    let mut image = passed.image.to_vec();
    let mut record = passed.record;
    let mut strings = passed.strings.to_vec();
    let mut entries = passed.entries.to_vec();
    for _ in 0..random.between(1, 3) {
        match random.below(12) {
            0 => alter_record(random, &mut record),
            1 => alter_area(random, &mut strings, record.strings, image.len()),
            2 => alter_area(random, &mut entries, record.nodes, image.len()),
            3 => alter_length(random, &mut image, &mut strings, &mut entries),
            4..=5 => alter_part(random, &mut image, record.symbols),
            6..=7 => alter_entry(random, &mut image, &entries, record.nodes),
            8 => alter_part(random, &mut image, record.data),
            9 => alter_string(random, &image, &record, &mut strings),
            10 => alter_symbols(random, &mut record, &strings),
            _ => alter_end(random, &mut image, record.symbols),
        }
    }
    let passed = Passed {
        image: &image,
        record,
        strings: &strings,
        entries: &entries,
    };
    answers(random, &passed, report);
}

fn alter_number(random: &Random, number: u64) -> u64 {
    let any = random.next();
    random.pick(&[
        number.wrapping_add(1),
        number.wrapping_sub(1),
        number.wrapping_add(13),
        0,
        1,
        number | 1 << 32,
        u64::MAX,
        any,
    ])
}

fn alter_record(random: &Random, record: &mut Record) {
    if random.one_in(4) {
        // One that exists, mostly: another rule for names in lookup.
        let none = random.pick(&[0, 4, 256 + 2, 1 << 32 | 2, 1 << 32 | 3, u64::MAX]);
        record.edition = random.pick(&[1, 2, 3, 3, none]);
        return;
    }
    let field = match random.below(11) {
        0 => &mut record.length,
        1 => &mut record.edition,
        2 => &mut record.symbols.offset,
        3 => &mut record.symbols.size,
        4 => &mut record.tree.offset,
        5 => &mut record.tree.size,
        6 => &mut record.data.offset,
        7 => &mut record.data.size,
        8 => &mut record.strings,
        9 => &mut record.nodes,
        _ => &mut record.records,
    };
    *field = alter_number(random, *field);
}

/// Another place for one string or entry, in use or after those in use.
fn alter_area(random: &Random, area: &mut [u32], used: u64, length: usize) {
    let most = area.len().min(used as usize + 1);
    if most == 0 {
        return;
    }
    let (from, to) = (random.below(most), random.below(most));
    let value = area[from];
    area[to] = match random.below(6) {
        0 => value,
        1 => area[to].wrapping_add(1),
        2 => area[to].wrapping_sub(1),
        3 => random.below(length) as u32,
        4 => length as u32 - random.below(26).min(length) as u32,
        _ => random.next() as u32,
    };
}

/// The start and end of a recorded section, if it lies inside the image.
fn bounds(image: &[u8], part: Span) -> Option<(usize, usize)> {
    let end = part.offset.checked_add(part.size)?;
    (end <= image.len() as u64).then_some((part.offset as usize, end as usize))
}

/// Another place for a string in use: at the section's start, last zero or end, just beside one of them, or anywhere in the section.
fn alter_string(random: &Random, image: &[u8], record: &Record, strings: &mut [u32]) {
    let used = strings.len().min(record.strings as usize);
    let Some((start, end)) = bounds(image, record.symbols) else {
        return;
    };
    if used == 0 {
        return;
    }
    let zero = image[start..end].iter().rposition(|byte| *byte == 0);
    let zero = zero.map_or(start, |place| start + place);
    let any = random.between(start, end);
    let place = random.pick(&[start, zero, zero + 1, end, end, end, any]) as u32;
    strings[random.below(used)] = random.pick(&[place, place, place.wrapping_sub(1), place + 1]);
}

/// The recorded symbol section is empty, ends at or inside a string, or goes on after its end. Some records lose the strings that are then outside,
/// or their nodes, too.
fn alter_symbols(random: &Random, record: &mut Record, strings: &[u32]) {
    let used = strings.len().min(record.strings as usize);
    let string = random.pick(&[used.saturating_sub(1), random.below(used)]);
    let place = strings.get(string).map_or(0, |place| u64::from(*place));
    let begin = place.wrapping_sub(record.symbols.offset);
    let size = record.symbols.size;
    let cut = begin.wrapping_add(random.below(6) as u64);
    record.symbols.size = random.pick(&[
        0,
        begin,
        begin.wrapping_add(1),
        cut,
        cut,
        size.wrapping_sub(1),
        size.wrapping_add(1),
        size.wrapping_add(random.below(30) as u64),
    ]);
    match random.below(6) {
        0 => record.strings = string as u64,
        1 => record.strings = string as u64 + 1,
        2 => (record.strings, record.nodes) = (random.below(2) as u64, 0),
        _ => (),
    }
}

/// Other last bytes of the symbol section: the last string has no zero, or ends before; and other bytes directly after it.
fn alter_end(random: &Random, image: &mut [u8], symbols: Span) {
    let Some((start, end)) = bounds(image, symbols) else {
        return;
    };
    let last = random.between(1, 3);
    for place in image[start..end].iter_mut().rev().take(last) {
        *place = random.pick(b"ab9.-:/ \0\n\\\xff");
    }
    for place in image[end..].iter_mut().take(random.below(4)) {
        *place = random.pick(b"ab/\0");
    }
}

/// An area or the image is one longer or shorter.
fn alter_length(
    random: &Random,
    image: &mut Vec<u8>,
    strings: &mut Vec<u32>,
    entries: &mut Vec<u32>,
) {
    match random.below(6) {
        0 => strings.push(0),
        1 => entries.push(0),
        2 => strings.truncate(2047),
        3 => entries.truncate(2047),
        4 => image.push(0),
        _ => image.truncate(image.len() - 1),
    }
}

fn alter_part(random: &Random, image: &mut [u8], part: Span) {
    let inside = part.offset.checked_add(part.size);
    if part.size == 0 || inside.is_none_or(|end| end > image.len() as u64) {
        return;
    }
    for _ in 0..random.between(1, 2) {
        let place = part.offset as usize + random.below(part.size as usize);
        image[place] = random.pick(&[0, b'/', b'a', b'b', random.byte()]);
    }
}

/// Another byte in a node's entry: its type, the end of its parent, string, count or offset.
fn alter_entry(random: &Random, image: &mut [u8], entries: &[u32], nodes: u64) {
    let most = entries.len().min(nodes as usize);
    if most == 0 {
        return;
    }
    let field = random.pick(&[0, 7, 8, 8, 8, 12, 12, 16, 16, 24, 23, 17]);
    let place = entries[random.below(most)] as usize + field;
    if place < image.len() {
        image[place] = match random.below(3) {
            0 => image[place] ^ (1 << random.below(8)),
            _ => random.below(most + 2) as u8,
        };
    }
}

/// Images at the greatest length, of zeros: 1 past it, and 24 for a record past it.
pub fn limits(report: &mut Report) {
    for length in [2_147_483_647usize, 2_147_483_648] {
        let image = vec![0u8; length];
        let areas = vec![0u32; MOST];
        report.begin_limit(length);
        opened(&image, &[0; 12], MOST, MOST, report);
        for edition in 0..=4 {
            let record = Record {
                length: length as u64,
                edition,
                ..Record::default()
            };
            let passed = Passed {
                image: &image,
                record,
                strings: &areas,
                entries: &areas,
            };
            let reader = judged(&passed);
            for path in [b"/".as_slice(), b"/a", b"/ "] {
                lookup(&passed, &reader, path, report);
            }
        }
        report.end(&[]);
    }
}
