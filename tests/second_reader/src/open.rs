//! Opening: every refusal from 1 to 7, from 9 to 13 and from 25 to 27 with its place, in document 01's order: "opening 1 (nothing changed),
//! then 2, text 3, edition 2's length 2, then 4 to 13, each check over all nodes before the next; sections in the order symbol, tree, data".
//! Request C-15: "01's second length check takes each edition's header"; the order of the section headers in edition 3 changes no order of checks.
//! Request C-11 puts 25, 26 and 27 "before 9, in this order". By request C-13 no file gets 8, as the last string need not have its zero;
//! request C-14 withdraws the number. Request C-18 gives 10 a second number.

use crate::format::{big, Edition, Entry, Kind, Refusal, LONGEST_IMAGE, MOST};
use crate::format::{DATA, SIGNATURE, SYMBOLS, TEXT, TREE};
use crate::md5::md5;
use std::collections::HashSet;

/// A section of the image.
#[derive(Clone, Copy, PartialEq, Eq, Debug, Default)]
pub struct Span {
    pub offset: u64,
    pub size: u64,
}

impl Span {
    /// Whether some bytes lie inside this part, in exact arithmetic: no sum here wraps.
    pub fn holds(&self, offset: u64, size: u64) -> bool {
        let end = u128::from(self.offset) + u128::from(self.size);
        self.offset <= offset && u128::from(offset) + u128::from(size) <= end
    }
}

/// What an accepted opening records; all zero otherwise.
#[derive(Clone, Copy, PartialEq, Eq, Debug, Default)]
pub struct Record {
    pub length: u64,
    pub edition: u64,
    pub symbols: Span,
    pub tree: Span,
    pub data: Span,
    pub strings: u64,
    pub nodes: u64,
    /// The data header's count, "reported and not checked"; 0 in edition 1, which has none.
    pub records: u64,
}

/// An accepted opening: "The work areas after an accepted opening hold the image place of each string and of each entry,
/// and zero after them."
pub struct Opened {
    pub record: Record,
    pub strings: Vec<u32>,
    pub entries: Vec<u32>,
}

/// A refused opening.
#[derive(Clone, Copy, PartialEq, Eq, Debug)]
pub struct Refused {
    pub number: u32,
    pub place: u64,
    /// C-18: "10 tells a second number"; 0 with every other number.
    pub second: u64,
}

impl From<Refusal> for Refused {
    fn from((number, place): Refusal) -> Refused {
        Refused {
            number,
            place,
            second: 0,
        }
    }
}

/// One section header as it stands in the image.
#[derive(Clone, Copy)]
struct Header {
    span: Span,
    records: Option<u64>,
    sum: [u8; 16],
}

/// Opens an image with areas of the right length.
pub fn open(image: &[u8], form: &[u8]) -> Result<Opened, Refused> {
    open_lent(image, form, MOST, MOST)
}

/// Opens an image with areas of the given lengths.
pub fn open_lent(
    image: &[u8],
    form: &[u8],
    strings_length: usize,
    entries_length: usize,
) -> Result<Opened, Refused> {
    passed(image, form, strings_length, entries_length)?;
    let edition = signature(image, form)?;
    header_sum(image, edition)?;
    let headers = [SYMBOLS, TREE, DATA].map(|section| section_header(image, edition, section));
    sections_inside(image, &headers)?;
    section_sums(image, &headers)?;
    let strings = symbol_table(image, &headers[SYMBOLS])?;
    let entries = tree_table(image, &headers[TREE])?;
    let nodes = read_nodes(image, &entries);
    let names = names(image, headers[SYMBOLS].span, &strings);
    numbers_exist(edition, &nodes, &names)?;
    climbs_end(&nodes)?;
    siblings_differ(&nodes, &names)?;
    data_inside(&nodes, headers[DATA].span)?;
    Ok(Opened {
        record: Record {
            length: image.len() as u64,
            edition: edition.number(),
            symbols: headers[SYMBOLS].span,
            tree: headers[TREE].span,
            data: headers[DATA].span,
            strings: strings.len() as u64,
            nodes: nodes.len() as u64,
            records: headers[DATA].records.unwrap_or(0),
        },
        strings: area(&strings),
        entries: area(&entries),
    })
}

/// A work area: the places, and zero after them.
fn area(places: &[usize]) -> Vec<u32> {
    let mut area = vec![0; MOST];
    for (number, place) in area.iter_mut().zip(places) {
        *number = *place as u32;
    }
    area
}

/// 1: "a lent area or the 12 bytes has another length, or the image is too long".
fn passed(image: &[u8], form: &[u8], strings: usize, entries: usize) -> Result<(), Refusal> {
    let long = image.len() as u64 > LONGEST_IMAGE;
    if long || form.len() != 12 || strings != MOST || entries != MOST {
        return Err((1, 0));
    }
    Ok(())
}

/// 2, the text's 3, the edition's 2, and 4. The first length check is 01's: "shorter than 144", the shortest header.
fn signature(image: &[u8], form: &[u8]) -> Result<Edition, Refusal> {
    if image.len() < Edition::One.header() {
        return Err((2, 0));
    }
    let edition = Edition::from_text(image).ok_or((3, 0))?;
    if image.len() < edition.header() {
        return Err((2, 0));
    }
    if image[TEXT..SIGNATURE] != *form {
        return Err((4, 0));
    }
    Ok(edition)
}

/// 5: "header sum wrong"; it is the MD5 of all header bytes before it.
fn header_sum(image: &[u8], edition: Edition) -> Result<(), Refusal> {
    let summed = edition.summed();
    if md5(&image[..summed]) != image[summed..edition.header()] {
        return Err((5, 0));
    }
    Ok(())
}

fn section_header(image: &[u8], edition: Edition, section: usize) -> Header {
    let place = edition.place_of(section);
    let sum = edition.place_of_sum(section);
    Header {
        span: Span {
            offset: big(image, place, 8),
            size: big(image, place + 8, 8),
        },
        records: edition.has_counts().then(|| big(image, place + 16, 8)),
        sum: image[sum..sum + 16].try_into().expect("16 bytes"),
    }
}

/// 6: "a section ends past the image", reported 1 symbol, 2 tree, 3 data.
fn sections_inside(image: &[u8], headers: &[Header; 3]) -> Result<(), Refusal> {
    let whole = Span {
        offset: 0,
        size: image.len() as u64,
    };
    for (number, header) in (1..).zip(headers) {
        if !whole.holds(header.span.offset, header.span.size) {
            return Err((6, number));
        }
    }
    Ok(())
}

/// The bytes of a section that lies inside the image.
fn section(image: &[u8], span: Span) -> &[u8] {
    &image[span.offset as usize..][..span.size as usize]
}

/// 7: "a section's sum wrong", reported as 6.
fn section_sums(image: &[u8], headers: &[Header; 3]) -> Result<(), Refusal> {
    for (number, header) in (1..).zip(headers) {
        if md5(section(image, header.span)) != header.sum {
            return Err((7, number));
        }
    }
    Ok(())
}

/// Where the strings of a symbol section begin and end, counted from its start; at most so many. C-13: "if the last byte of the table is not
/// zero, the bytes after the last zero are one more string. A final zero opens no further string; a table of no bytes has none."
fn strings_in(section: &[u8], most: usize) -> Vec<(usize, usize)> {
    let mut strings = Vec::new();
    let mut begin = 0;
    while begin < section.len() && strings.len() < most {
        let size = until_zero(&section[begin..]).len();
        strings.push((begin, begin + size));
        begin += size + 1;
    }
    strings
}

/// The symbol table, with the image places of its strings. Three refusals (C-11), each asked of the whole table, in this order; the strings are
/// those of C-13:
///
/// - 25: "above 2,048", reported "the first string beyond 2,048". Strings count from 0, so this is string 2,048.
/// - 26: "count differs", reported 0. Edition 1 has no count.
/// - 27: "repeated string", reported "the lowest string that equals an earlier one".
fn symbol_table(image: &[u8], header: &Header) -> Result<Vec<usize>, Refusal> {
    let bytes = section(image, header.span);
    // Up to one string too many.
    let strings = strings_in(bytes, MOST + 1);
    if strings.len() > MOST {
        return Err((25, MOST as u64));
    }
    if header.records.is_some_and(|n| n != strings.len() as u64) {
        return Err((26, 0));
    }
    let mut seen = HashSet::new();
    let is_new = |(begin, end): &(usize, usize)| seen.insert(&bytes[*begin..*end]);
    let repeated = strings.iter().map(is_new).position(|new| !new);
    if let Some(number) = repeated {
        return Err((27, number as u64));
    }
    let first = header.span.offset as usize;
    Ok(strings.iter().map(|(begin, _)| first + begin).collect())
}

/// The bytes before the first zero; all where there is none.
pub fn until_zero(bytes: &[u8]) -> &[u8] {
    let end = bytes.iter().position(|byte| *byte == 0);
    &bytes[..end.unwrap_or(bytes.len())]
}

/// 9: "tree table: entry cut short, type not 1 to 5, a 2,049th entry (before its type is read), or count differs", reported the
/// entry, or 0 for the count. The image places.
fn tree_table(image: &[u8], header: &Header) -> Result<Vec<usize>, Refusal> {
    let mut at = header.span.offset as usize;
    let end = at + header.span.size as usize;
    let mut places = Vec::new();
    while at < end {
        let number = places.len() as u64 + 1;
        if places.len() == MOST {
            return Err((9, number));
        }
        let entry = Entry::at(image, at, end).ok_or((9, number))?;
        places.push(at);
        at += entry.kind.entry();
    }
    if header.records.is_some_and(|n| n != places.len() as u64) {
        return Err((9, 0));
    }
    Ok(places)
}

/// The entries at places that the walk found whole.
fn read_nodes(image: &[u8], places: &[usize]) -> Vec<Entry> {
    let read = |place: &usize| Entry::at(image, *place, image.len()).expect("walked");
    places.iter().map(read).collect()
}

/// The strings that begin at these places of the image, without their zeros. A string ends at its zero or at the section's end, and never after.
fn names<'a>(image: &'a [u8], symbols: Span, places: &[usize]) -> Vec<&'a [u8]> {
    let end = (symbols.offset + symbols.size) as usize;
    let string = |place: &usize| until_zero(&image[*place..end]);
    places.iter().map(string).collect()
}

/// A node as 10 sees it: whether its parent exists, and its string where that exists.
pub struct Node<'a> {
    edition: Edition,
    pub number: u64,
    pub parent: bool,
    pub name: Option<&'a [u8]>,
}

impl Node<'_> {
    /// "parent or string number does not exist, or the string is no subkey".
    fn is_bad(&self) -> bool {
        !self.parent || self.name.is_none() || self.fault().is_some()
    }

    /// Where the string breaks the edition's rule, if it exists and is no subkey.
    pub fn fault(&self) -> Option<u64> {
        self.name.and_then(|name| self.edition.subkey_fault(name))
    }
}

/// The nodes that 10 is about, ascending.
fn bad<'a: 'b, 'b>(
    edition: Edition,
    nodes: &'b [Entry],
    names: &'b [&'a [u8]],
) -> impl Iterator<Item = Node<'a>> + 'b {
    let seen = move |(number, node): (u64, &Entry)| Node {
        edition,
        number,
        parent: node.parent <= nodes.len() as u64,
        name: names.get(node.string as usize).copied(),
    };
    (1..).zip(nodes).map(seen).filter(Node::is_bad)
}

/// 10, reported the lowest node. The second number (C-18): "the place wherever the node's string exists and is no subkey, its parent sound or not, else
/// zero".
fn numbers_exist(edition: Edition, nodes: &[Entry], names: &[&[u8]]) -> Result<(), Refused> {
    match bad(edition, nodes, names).next() {
        None => Ok(()),
        Some(node) => Err(Refused {
            number: 10,
            place: node.number,
            second: node.fault().unwrap_or(0),
        }),
    }
}

/// The nodes that 10 is about in an image that was refused by it, for the counts of what was met.
pub fn bad_nodes(image: &[u8]) -> Vec<Node<'_>> {
    let edition = Edition::from_text(image).expect("10 comes after 3");
    let header = |section| section_header(image, edition, section);
    let strings = symbol_table(image, &header(SYMBOLS)).expect("10 comes after 27");
    let entries = tree_table(image, &header(TREE)).expect("10 comes after 9");
    let nodes = read_nodes(image, &entries);
    let names = names(image, header(SYMBOLS).span, &strings);
    bad(edition, &nodes, &names).collect()
}

/// Whether the climb by parents from a node reaches the root. In as many steps as there are nodes it must.
pub fn reaches_root(nodes: &[Entry], number: u64) -> bool {
    let mut at = number;
    for _ in 0..nodes.len() {
        if at == 0 {
            return true;
        }
        at = nodes[at as usize - 1].parent;
    }
    at == 0
}

/// 11: "the climb does not reach the root", reported the lowest node.
fn climbs_end(nodes: &[Entry]) -> Result<(), Refusal> {
    let lost = (1..=nodes.len() as u64).find(|number| !reaches_root(nodes, *number));
    lost.map_or(Ok(()), |number| Err((11, number)))
}

/// 12: "a lower-numbered sibling has its name", reported the lowest node. Names are compared, not string numbers.
fn siblings_differ(nodes: &[Entry], names: &[&[u8]]) -> Result<(), Refusal> {
    let mut seen = HashSet::new();
    for (number, node) in (1..).zip(nodes) {
        if !seen.insert((node.parent, names[node.string as usize])) {
            return Err((12, number));
        }
    }
    Ok(())
}

/// 13: "data not inside the data section", reported the lowest node. Offsets count from the start of the file.
fn data_inside(nodes: &[Entry], data: Span) -> Result<(), Refusal> {
    for (number, node) in (1..).zip(nodes) {
        if node.kind != Kind::Void && !data.holds(node.offset, node.bytes()) {
            return Err((13, number));
        }
    }
    Ok(())
}
