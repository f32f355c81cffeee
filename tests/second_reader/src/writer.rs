//! A model of the writer, from document 01, "Writing keys", and requests C-15 and C-22: begin, make, put, close, their refusals, and their byte stores in
//! order.

use crate::format::{Edition, Entry, Kind, Refusal, DATA, LONGEST_IMAGE, MOST, SYMBOLS, TREE};
use crate::md5::md5;
use crate::open::Span;

/// "The writer has a text area of 32,768 bytes (zeros counted) and a tree area of 51,200 bytes."
pub const TEXT_AREA: usize = 32_768;
pub const TREE_AREA: usize = 51_200;
/// "the tree area holds node n's entry at place 25(n − 1), 25 bytes".
const SLOT: usize = 25;
/// "Each put begins at the next multiple of 8" (C-22), counted from the start of the file.
pub const ALIGNMENT: u64 = 8;

/// What the writer records.
#[derive(Clone, Copy, PartialEq, Eq, Debug, Default)]
pub struct Record {
    /// 1 while the file is neither closed nor stopped; every other number is "writer closed or stopped".
    pub flag: u64,
    pub length: u64,
    /// The number of the edition passed to begin. Header size, stores and the rule for names go by it (C-15).
    pub edition: u64,
    pub strings: u64,
    pub text: u64,
    pub nodes: u64,
    /// "The writer's record carries the end of data under this rule" (C-22): a place in the file, which is the header's size after begin.
    pub end: u64,
    pub form: [u8; 12],
}

/// A writer with all that it is passed.
#[derive(Clone, PartialEq, Eq)]
pub struct Writer {
    /// What the last call returned: its value, or the place of its refusal.
    pub last: u64,
    pub record: Record,
    pub buffer: Vec<u8>,
    pub text: Vec<u8>,
    pub tree: Vec<u8>,
}

/// The 8 numbers of the record in C: what the last call returned, length, edition, strings, bytes of text, nodes, end of data, flag; and the form.
pub type Numbers = ([u64; 8], [u8; 12]);

/// One store of a byte at a place.
pub type Store = (usize, u8);

/// What an accepted call reports: stores made, or for make the new node's number.
pub type Reported = Result<u64, Refusal>;

impl Writer {
    /// A writer that has not begun, with areas and buffer as they are passed.
    pub fn passed(buffer: Vec<u8>, text: Vec<u8>, tree: Vec<u8>) -> Writer {
        Writer {
            last: 0,
            record: Record::default(),
            buffer,
            text,
            tree,
        }
    }

    /// Makes the first so many stores, and reports how many; 23 where the allowance is smaller than the stores needed.
    fn store(&mut self, stores: &[Store], allowance: u64) -> Reported {
        let made = allowance.min(stores.len() as u64);
        for (place, byte) in &stores[..made as usize] {
            self.buffer[*place] = *byte;
        }
        if made < stores.len() as u64 {
            self.record.flag = 0;
            return Err((23, made));
        }
        Ok(made)
    }

    /// "Begin: 1, 21, 23." C-15: "3 also for a begin that names no written edition, checked after 1". "begin puts 0 at place 0"; "An accepted begin clears
    /// both areas." The least buffer of 21 is the edition's header.
    pub fn begin(&mut self, edition: u32, form: &[u8], allowance: u64) -> Reported {
        self.record = Record::default();
        let length = self.buffer.len() as u64;
        let areas = self.text.len() == TEXT_AREA && self.tree.len() == TREE_AREA;
        if !areas || form.len() != 12 || length > LONGEST_IMAGE {
            return Err((1, 0));
        }
        let edition = Edition::written(edition.into()).ok_or((3, 0))?;
        if length < edition.header() as u64 {
            return Err((21, 0));
        }
        self.record = Record {
            flag: 1,
            length,
            edition: edition.number(),
            end: edition.header() as u64,
            form: form.try_into().expect("12 bytes"),
            ..Record::default()
        };
        let reported = self.store(&[(0, 0)], allowance)?;
        self.text.fill(0);
        self.tree.fill(0);
        Ok(reported)
    }

    /// "Make: 24, 22, 15, 14, 17, 20, 21." "Making a child stores nothing." 14 goes by the edition's rule for names and reports the place in the name (C-18).
    pub fn make(&mut self, parent: u64, name: &[u8]) -> Reported {
        self.judge()?;
        if parent > self.record.nodes {
            return Err((15, 0));
        }
        if let Some(place) = self.edition().subkey_fault(name) {
            return Err((14, place));
        }
        if self.has_child(parent, name) {
            return Err((17, 0));
        }
        let string = self.string_of(name);
        let more = if string.is_some() {
            0
        } else {
            name.len() as u64 + 1
        };
        if self.is_full(more) {
            return Err((20, 0));
        }
        if self.finished() + 13 + more > self.record.length {
            return Err((21, 0));
        }
        let number = string.unwrap_or(self.record.strings);
        if string.is_none() {
            self.add_string(name);
        }
        self.record.nodes += 1;
        let entry = Entry {
            kind: Kind::Void,
            parent,
            string: number,
            count: 0,
            offset: 0,
        };
        self.set_slot(self.record.nodes, &entry);
        Ok(self.record.nodes)
    }

    /// 20: "a 2,049th node or string, or text past 32,768"; a name that is a string already needs no text.
    fn is_full(&self, more: u64) -> bool {
        let new_string = more > 0;
        self.record.nodes == MOST as u64
            || (new_string && self.record.strings == MOST as u64)
            || self.record.text + more > TEXT_AREA as u64
    }

    /// "Put: 24, 22, 15, 18, 19, 21, 23." C-22: "Each put begins at the next multiple of 8, with zero bytes stored first up to there. ... Finished size
    /// counts the padding, so 01's 21 moves with it. Padding bytes are stores like the rest". A put that is cut gives its node nothing and moves no end.
    pub fn put(&mut self, node: u64, code: u64, bytes: &[u8], allowance: u64) -> Reported {
        self.judge()?;
        if node > self.record.nodes {
            return Err((15, 0));
        }
        if node == 0 || self.node(node).kind != Kind::Void {
            return Err((18, 0));
        }
        let kind = Kind::from_code(code).filter(|kind| *kind != Kind::Void);
        let kind = kind.ok_or((19, 0))?;
        if !bytes.chunks_exact(kind.width()).remainder().is_empty() {
            return Err((19, 0));
        }
        let size = bytes.len() as u64;
        if self.finished() + 12 + self.padding() + size > self.record.length {
            return Err((21, 0));
        }
        let offset = self.record.end + self.padding();
        let made = self.store(&self.putting(bytes), allowance)?;
        let entry = Entry {
            kind,
            count: size / kind.width() as u64,
            offset,
            ..self.node(node)
        };
        self.set_slot(node, &entry);
        self.record.end = offset + size;
        Ok(made)
    }

    /// How many zeros a put stores first: what the end of data lacks of a multiple of 8.
    pub fn padding(&self) -> u64 {
        self.record.end.next_multiple_of(ALIGNMENT) - self.record.end
    }

    /// The stores of put: zeros, then its bytes, ascending from the end of data on.
    pub fn putting(&self, bytes: &[u8]) -> Vec<Store> {
        let zeros = std::iter::repeat_n(0, self.padding() as usize);
        let first = self.record.end as usize;
        (first..).zip(zeros.chain(bytes.iter().copied())).collect()
    }

    /// "Close: 24, 22, 23." "Close stores strings, entries, header bytes 1 to 167 ascending, and last the `L` at place 0." C-15: the header is the edition's.
    /// C-22: "Strings are not aligned": they begin at the end of data.
    pub fn close(&mut self, allowance: u64) -> Reported {
        self.judge()?;
        let made = self.store(&self.closing(), allowance)?;
        self.record.flag = 0;
        Ok(made)
    }

    /// The stores of close.
    pub fn closing(&self) -> Vec<Store> {
        let symbols = &self.text[..self.record.text as usize];
        let tree = self.entries();
        let header = self.header(symbols, &tree);
        let start = self.record.end as usize;
        let tables = symbols.iter().chain(&tree).copied();
        let mut stores: Vec<Store> = (start..).zip(tables).collect();
        stores.extend((0..).zip(header.iter().copied()).skip(1));
        stores.push((0, header[0]));
        stores
    }

    /// "at close the strings ... follow, then the entries in order of making". The section headers stand in the edition's order.
    fn header(&self, symbols: &[u8], tree: &[u8]) -> Vec<u8> {
        let edition = self.edition();
        let first = edition.header() as u64;
        let end = self.record.end;
        let data = &self.buffer[first as usize..end as usize];
        let full = (1..=self.record.nodes)
            .filter(|number| self.node(*number).kind != Kind::Void)
            .count();
        let mut header = [edition.text().as_slice(), &self.record.form].concat();
        for section in edition.header_order() {
            let (bytes, offset, records) = match section {
                SYMBOLS => (symbols, end, self.record.strings),
                TREE => (tree, end + symbols.len() as u64, self.record.nodes),
                DATA => (data, first, full as u64),
                _ => unreachable!("there are three sections"),
            };
            header.extend(offset.to_be_bytes());
            header.extend((bytes.len() as u64).to_be_bytes());
            header.extend(records.to_be_bytes());
            header.extend(md5(bytes));
        }
        let sum = md5(&header);
        header.extend(sum);
        header
    }

    /// The tree table: 13 bytes of a Void node's slot, 25 of another's.
    fn entries(&self) -> Vec<u8> {
        let mut tree = Vec::new();
        for number in 1..=self.record.nodes {
            let slot = (number as usize - 1) * SLOT;
            let size = self.node(number).kind.entry();
            tree.extend_from_slice(&self.tree[slot..slot + size]);
        }
        tree
    }

    /// The entry of a node above 0 in the tree area.
    fn slot(&self, number: u64) -> Option<Entry> {
        let place = (number as usize - 1) * SLOT;
        Entry::at(&self.tree, place, place + SLOT)
    }

    fn node(&self, number: u64) -> Entry {
        self.slot(number).expect("24 has been judged")
    }

    fn set_slot(&mut self, number: u64, entry: &Entry) {
        let mut slot = vec![entry.kind.code()];
        slot.extend(entry.parent.to_be_bytes());
        slot.extend((entry.string as u32).to_be_bytes());
        slot.extend((entry.count as u32).to_be_bytes());
        slot.extend(entry.offset.to_be_bytes());
        let place = (number as usize - 1) * SLOT;
        self.tree[place..place + SLOT].copy_from_slice(&slot);
    }

    fn strings(&self) -> Vec<&[u8]> {
        let text = &self.text[..self.record.text as usize];
        let strings = text.split_inclusive(|byte| *byte == 0);
        strings.map(|string| &string[..string.len() - 1]).collect()
    }

    /// The lowest string that is the name: "each once, reused by name".
    fn string_of(&self, name: &[u8]) -> Option<u64> {
        let strings = self.strings();
        let found = strings.iter().position(|string| *string == name);
        found.map(|number| number as u64)
    }

    fn add_string(&mut self, name: &[u8]) {
        let place = self.record.text as usize;
        self.text[place..place + name.len()].copy_from_slice(name);
        self.text[place + name.len()] = 0;
        self.record.text += name.len() as u64 + 1;
        self.record.strings += 1;
    }

    /// 17: "the child exists already": a node of that parent with that name.
    fn has_child(&self, parent: u64, name: &[u8]) -> bool {
        let strings = self.strings();
        (1..=self.record.nodes).any(|number| {
            let node = self.node(number);
            node.parent == parent && strings[node.string as usize] == name
        })
    }

    /// "Finished size = 168 + data bytes + string bytes with their zeros + 13 for each Void node + 25 for each other." C-22: it "counts the padding", so the
    /// first two are the end of data.
    pub fn finished(&self) -> u64 {
        let entries: u64 = (1..=self.record.nodes)
            .map(|number| self.node(number).kind.entry() as u64)
            .sum();
        self.record.end + self.record.text + entries
    }

    /// The recorded edition, where 24 has been judged.
    fn edition(&self) -> Edition {
        Edition::written(self.record.edition).expect("24 has been judged")
    }

    /// 24, then 22: "writer closed or stopped".
    fn judge(&self) -> Result<(), Refusal> {
        if !self.belongs() {
            return Err((24, 0));
        }
        match self.record.flag {
            1 => Ok(()),
            _ => Err((22, 0)),
        }
    }

    /// 24 of the writer, over all that is recorded. C-15: "24 also for a writer's record whose edition is not a written one". C-22: what was put begins after
    /// the header, so the end of data is not inside it; and before anything is added to the end, it is compared with the length.
    fn belongs(&self) -> bool {
        let record = &self.record;
        let sizes = Edition::written(record.edition).is_some()
            && self.buffer.len() as u64 == record.length
            && record.length <= LONGEST_IMAGE
            && self.text.len() == TEXT_AREA
            && self.tree.len() == TREE_AREA
            && record.text <= TEXT_AREA as u64
            && record.strings <= MOST as u64
            && record.nodes <= MOST as u64;
        sizes
            && (self.edition().header() as u64..=record.length).contains(&record.end)
            && self.text_belongs()
            && (1..=record.nodes).all(|number| self.slot_belongs(number))
            && self.finished() <= record.length
    }

    /// "the text area does not hold the recorded number of strings in the recorded length".
    fn text_belongs(&self) -> bool {
        let text = &self.text[..self.record.text as usize];
        let zeros = text.iter().filter(|byte| **byte == 0).count() as u64;
        zeros == self.record.strings && text.last().is_none_or(|byte| *byte == 0)
    }

    /// "a type or string number does not exist; a parent is not lower than its child; data fall outside what was put".
    fn slot_belongs(&self, number: u64) -> bool {
        let Some(entry) = self.slot(number) else {
            return false;
        };
        let first = self.edition().header() as u64;
        let put = Span {
            offset: first,
            size: self.record.end - first,
        };
        let data = entry.kind == Kind::Void || put.holds(entry.offset, entry.bytes());
        entry.string < self.record.strings && entry.parent < number && data
    }
}
