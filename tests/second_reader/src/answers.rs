//! The answers of an opened image, from document 01, "Reading keys", "Numbers handed back" and "The lister", and requests C-12, C-13, C-15
//! and C-18.

use crate::format::{big, form_for, Edition, Entry, Kind, Refusal, LONGEST_IMAGE, MOST};
use crate::open::{open, reaches_root, until_zero, Record, Span};

/// What a caller passes to a reading call.
#[derive(Clone, Copy)]
pub struct Passed<'a> {
    pub image: &'a [u8],
    pub record: Record,
    pub strings: &'a [u32],
    pub entries: &'a [u32],
}

/// "An element is exactly one of: a byte 0 to 255, a signed 32-bit integer, a double, or a complex pair." Doubles as their bits.
#[derive(Clone, Copy, PartialEq, Eq, Debug)]
pub enum Element {
    Byte(u8),
    Int(i32),
    Real(u64),
    Pair(u64, u64),
}

/// Which nodes a listing has (C-12): `listall` "prints all nodes", `list` "leaves out Void nodes".
#[derive(Clone, Copy, PartialEq, Eq, Debug)]
pub enum Choice {
    All,
    NotVoid,
}

/// What is passed, after 24 has been judged.
pub struct Reader<'a> {
    image: &'a [u8],
    edition: Edition,
    names: Vec<Span>,
    nodes: Vec<Entry>,
}

/// "24 is judged over all that is recorded, whether or not the call comes to it." The calls stand on what passes. "the recorded edition does not exist":
/// editions 1 to 3 do.
pub fn judged<'a>(passed: &Passed<'a>) -> Result<Reader<'a>, u32> {
    belonging(passed).ok_or(24)
}

fn belonging<'a>(passed: &Passed<'a>) -> Option<Reader<'a>> {
    let edition = Edition::from_number(passed.record.edition)?;
    if !sizes_fit(passed) || !sections_fit(passed) {
        return None;
    }
    let names = names_of(passed)?;
    let nodes = nodes_of(passed)?;
    climbs_fit(&nodes).then_some(Reader {
        image: passed.image,
        edition,
        names,
        nodes,
    })
}

/// "the image's length is not the recorded one, an area's not its size, or a count passes its size"; an image has at most
/// 2,147,483,647 bytes.
fn sizes_fit(passed: &Passed) -> bool {
    let record = &passed.record;
    passed.image.len() as u64 == record.length
        && record.length <= LONGEST_IMAGE
        && passed.strings.len() == MOST
        && passed.entries.len() == MOST
        && record.strings <= MOST as u64
        && record.nodes <= MOST as u64
}

/// "a section ... falls outside the image".
fn sections_fit(passed: &Passed) -> bool {
    let record = &passed.record;
    let sections = [record.symbols, record.tree, record.data];
    sections
        .iter()
        .all(|part| whole(passed.image).holds(part.offset, part.size))
}

fn whole(image: &[u8]) -> Span {
    Span {
        offset: 0,
        size: image.len() as u64,
    }
}

/// "a string does not begin ... inside the symbol section": otherwise the strings, without zeros. C-13: "24 takes the section's end as the end of
/// its last string", so a string ends at the first zero from its place on, or at the section's end. A place at the section's end begins none.
fn names_of(passed: &Passed) -> Option<Vec<Span>> {
    let symbols = passed.record.symbols;
    let end = (symbols.offset + symbols.size) as usize;
    let places = &passed.strings[..passed.record.strings as usize];
    let name = |place: &u32| {
        let offset = u64::from(*place);
        if !symbols.holds(offset, 1) {
            return None;
        }
        let size = until_zero(&passed.image[*place as usize..end]).len() as u64;
        Some(Span { offset, size })
    };
    places.iter().map(name).collect()
}

/// "an entry or a node's data falls outside the image; ... a type, parent or string number does not exist".
fn nodes_of(passed: &Passed) -> Option<Vec<Entry>> {
    let record = &passed.record;
    let places = &passed.entries[..record.nodes as usize];
    let node = |place: &u32| {
        let entry = Entry::at(passed.image, *place as usize, passed.image.len())?;
        let numbers = entry.parent <= record.nodes && entry.string < record.strings;
        let void = entry.kind == Kind::Void;
        let data = void || whole(passed.image).holds(entry.offset, entry.bytes());
        (numbers && data).then_some(entry)
    };
    places.iter().map(node).collect()
}

/// "a climb takes more steps than there are nodes".
fn climbs_fit(nodes: &[Entry]) -> bool {
    (1..=nodes.len() as u64).all(|number| reaches_root(nodes, number))
}

/// 15: "no such key or node number". The root has no entry.
enum Node<'a> {
    Root,
    Other(&'a Entry),
}

impl<'a> Reader<'a> {
    pub fn nodes(&self) -> u64 {
        self.nodes.len() as u64
    }

    /// The recorded edition, whose rule for names lookup goes by.
    #[cfg(feature = "library")]
    pub fn edition(&self) -> Edition {
        self.edition
    }

    fn node(&self, number: u64) -> Result<Node<'_>, u32> {
        match number {
            0 => Ok(Node::Root),
            n if n <= self.nodes() => Ok(Node::Other(&self.nodes[n as usize - 1])),
            _ => Err(15),
        }
    }

    fn bytes(&self, part: Span) -> &'a [u8] {
        &self.image[part.offset as usize..][..part.size as usize]
    }

    /// "name (a part of the image without its zero, empty for the root)"; the place of the root's is free (none here).
    pub fn name_part(&self, number: u64) -> Result<Option<Span>, u32> {
        Ok(match self.node(number)? {
            Node::Root => None,
            Node::Other(entry) => Some(self.names[entry.string as usize]),
        })
    }

    pub fn name(&self, number: u64) -> Result<&'a [u8], u32> {
        let part = self.name_part(number)?;
        Ok(part.map_or(&[], |part| self.bytes(part)))
    }

    /// "the root is 0, has no entry, no name, type Void."
    pub fn kind(&self, number: u64) -> Result<Kind, u32> {
        Ok(match self.node(number)? {
            Node::Root => Kind::Void,
            Node::Other(entry) => entry.kind,
        })
    }

    /// "Void has no bytes and count 0".
    pub fn count(&self, number: u64) -> Result<u64, u32> {
        Ok(match self.node(number)? {
            Node::Root => 0,
            Node::Other(entry) => entry.count,
        })
    }

    /// "its data shown as a part of the image"; a Void node's part is empty, and its place is free (none here).
    pub fn view(&self, number: u64) -> Result<Option<Span>, u32> {
        Ok(match self.node(number)? {
            Node::Other(entry) if entry.kind != Kind::Void => Some(Span {
                offset: entry.offset,
                size: entry.bytes(),
            }),
            _ => None,
        })
    }

    /// 16: "element index not below the count".
    pub fn element(&self, number: u64, index: u64) -> Result<Element, u32> {
        let Node::Other(entry) = self.node(number)? else {
            return Err(16);
        };
        if index >= entry.count {
            return Err(16);
        }
        let width = entry.kind.width();
        let place = entry.offset as usize + index as usize * width;
        Ok(decoded(entry.kind, &self.image[place..place + width]))
    }

    fn parent(&self, number: u64) -> u64 {
        self.nodes[number as usize - 1].parent
    }

    /// Bytes of a node's path: 1 for the root; a node adds a bar and its name to its parent's, where the root's is nothing.
    pub fn path_length(&self, number: u64) -> Result<u64, u32> {
        let mut length = 0;
        let mut at = number;
        self.node(number)?;
        while at != 0 {
            length += 1 + self.name(at)?.len() as u64;
            at = self.parent(at);
        }
        Ok(if number == 0 { 1 } else { length })
    }

    /// "A node's path is written root first, though the climb finds the last subkey first."
    pub fn path(&self, number: u64) -> Result<Vec<u8>, u32> {
        let mut subkeys = Vec::new();
        let mut at = number;
        self.node(number)?;
        while at != 0 {
            subkeys.push(self.name(at)?);
            at = self.parent(at);
        }
        if number == 0 {
            return Ok(b"/".to_vec());
        }
        let mut path = Vec::new();
        for subkey in subkeys.iter().rev() {
            path.push(b'/');
            path.extend_from_slice(subkey);
        }
        Ok(path)
    }

    /// Path into a passed output: 21 where it is too short; "Bytes of the output behind the path stay." The length written.
    pub fn path_into(&self, number: u64, output: &mut [u8]) -> Result<u64, u32> {
        let length = self.path_length(number)?;
        if length > output.len() as u64 {
            return Err(21);
        }
        output[..length as usize].copy_from_slice(&self.path(number)?);
        Ok(length)
    }

    /// "A lookup names the lowest node there"; 14 for a path malformed in the recorded edition, reported the place in the path (C-18), 15 where there is
    /// none.
    pub fn lookup(&self, path: &[u8]) -> Result<u64, Refusal> {
        if let Some(place) = self.edition.path_fault(path) {
            return Err((14, place));
        }
        let there = |number: &u64| {
            self.path_length(*number) == Ok(path.len() as u64)
                && self.path(*number).as_deref() == Ok(path)
        };
        (0..=self.nodes()).find(there).ok_or((15, 0))
    }

    /// "a node, then its children in number order, each followed by its whole subtree".
    pub fn order(&self) -> Vec<u64> {
        let mut children = vec![Vec::new(); self.nodes.len() + 1];
        for number in 1..=self.nodes() {
            children[self.parent(number) as usize].push(number);
        }
        let mut order = Vec::new();
        let mut waiting = vec![0];
        while let Some(number) = waiting.pop() {
            order.push(number);
            waiting.extend(children[number as usize].iter().rev());
        }
        order
    }

    /// The nodes of a choice: "the short order is exactly the full one without its Void nodes".
    pub fn listed(&self, choice: Choice) -> Vec<u64> {
        let mut order = self.order();
        order.retain(|number| choice == Choice::All || self.kind(*number) != Ok(Kind::Void));
        order
    }

    /// The order into a passed area: 21 where it has too few places; "whose rest stays". It "answers how many numbers it wrote".
    pub fn order_into(&self, choice: Choice, area: &mut [u32]) -> Result<u64, u32> {
        let order = self.listed(choice);
        if order.len() > area.len() {
            return Err(21);
        }
        for (place, number) in area.iter_mut().zip(&order) {
            *place = *number as u32;
        }
        Ok(order.len() as u64)
    }
}

/// "this house reads two's complement"; "Doubles are IEEE 754 binary64 with the stored bits."
pub fn decoded(kind: Kind, bytes: &[u8]) -> Element {
    match kind {
        Kind::Void => unreachable!("a Void node has no element"),
        Kind::Char => Element::Byte(bytes[0]),
        Kind::Int => Element::Int(big(bytes, 0, 4) as u32 as i32),
        Kind::Double => Element::Real(big(bytes, 0, 8)),
        Kind::Complex => Element::Pair(big(bytes, 0, 8), big(bytes, 8, 8)),
    }
}

/// "Program `list` reads an image of at most 65,536 bytes"; a path is at most as long.
pub const LISTED: usize = 65_536;

/// What `list` or `listall` prints of an input.
pub fn listing(input: &[u8], choice: Choice) -> Vec<u8> {
    if input.len() > LISTED {
        return b"too long\n".to_vec();
    }
    match open(input, &form_for(input)) {
        // C-18: "the lister's refusal line stays as it is".
        Err(refusal) => refused(refusal.number, refusal.place),
        Ok(opened) => {
            let passed = Passed {
                image: input,
                record: opened.record,
                strings: &opened.strings,
                entries: &opened.entries,
            };
            lines(&passed, choice).unwrap_or_else(|number| refused(number, 0))
        }
    }
}

fn refused(number: u32, place: u64) -> Vec<u8> {
    format!("refused {number} {place}\n").into_bytes()
}

/// How the listers print a path (C-15): "a name's byte below 33, above 126 or equal to 92 as `\x` with two small hex digits", any other as it is. The slash
/// between two names is none of these bytes.
pub fn shown(path: &[u8]) -> Vec<u8> {
    let mut shown = Vec::new();
    for byte in path {
        match byte {
            33..=91 | 93..=126 => shown.push(*byte),
            _ => shown.extend(format!("\\x{byte:02x}").into_bytes()),
        }
    }
    shown
}

/// "path, a space, type word, a space, count", without the line feed.
pub fn line(reader: &Reader, number: u64) -> Result<Vec<u8>, u32> {
    let mut line = shown(&reader.path(number)?);
    let word = reader.kind(number)?.word();
    line.extend(format!(" {word} {}", reader.count(number)?).into_bytes());
    Ok(line)
}

/// The lines of the nodes listed; 21 for a path above 65,536 bytes, which "looks only at the nodes listed" and counts the path itself, not what is
/// printed of it.
fn lines(passed: &Passed, choice: Choice) -> Result<Vec<u8>, u32> {
    let reader = judged(passed)?;
    let listed = reader.listed(choice);
    let mut output = Vec::new();
    for number in &listed {
        if reader.path_length(*number)? > LISTED as u64 {
            return Err(21);
        }
    }
    for number in listed {
        output.extend(line(&reader, number)?);
        output.push(b'\n');
    }
    Ok(output)
}
