//! The layout of a file: editions, kinds, numbers, subkeys, the 12 signature bytes. Editions 1 and 2 from document 01, "Layout of a file"; edition 3 from
//! request C-15 and sections 5 and 6 of source document 000.

/// Document 01, "Sizes".
pub const LONGEST_IMAGE: u64 = 2_147_483_647;
/// "2,048 strings; 2,048 nodes besides the root; the reader's two work areas hold exactly 2,048 32-bit numbers each."
pub const MOST: usize = 2048;

/// Number and place of a refused call, from the table "Numbers handed back" and request C-18. Opening has its own: see `open.rs`.
pub type Refusal = (u32, u64);

/// The sections, by their numbers here. 6 and 7 report one more (1 symbol, 2 tree, 3 data), and the checks go in this order, in every edition.
pub const SYMBOLS: usize = 0;
pub const TREE: usize = 1;
pub const DATA: usize = 2;

/// An edition of the format: the table at the head of 01's "Layout of a file"; 000's tables 2, 4 and 5 for edition 3.
#[derive(Clone, Copy, PartialEq, Eq, PartialOrd, Ord, Debug)]
pub enum Edition {
    One,
    Two,
    Three,
}

/// Bytes of the signature's text and of the whole signature.
pub const TEXT: usize = 20;
pub const SIGNATURE: usize = 32;

impl Edition {
    pub const ALL: [Edition; 3] = [Edition::One, Edition::Two, Edition::Three];
    /// Those that the writer writes (C-15).
    pub const WRITTEN: [Edition; 2] = [Edition::Two, Edition::Three];

    pub fn number(self) -> u64 {
        match self {
            Edition::One => 1,
            Edition::Two => 2,
            Edition::Three => 3,
        }
    }

    pub fn from_number(number: u64) -> Option<Edition> {
        Edition::ALL.into_iter().find(|e| e.number() == number)
    }

    /// The edition of a number, where it is a written one.
    pub fn written(number: u64) -> Option<Edition> {
        Edition::WRITTEN.into_iter().find(|e| e.number() == number)
    }

    /// 000's table 4.
    pub fn text(self) -> &'static [u8; TEXT] {
        match self {
            Edition::One => b"LHPC AFF version 1.0",
            Edition::Two => b"LHPC AFF version 2.0",
            Edition::Three => b"LHPC AFF version 3.0",
        }
    }

    /// The edition whose text the first 20 bytes are.
    pub fn from_text(image: &[u8]) -> Option<Edition> {
        let mut all = Edition::ALL.into_iter();
        all.find(|e| image.starts_with(e.text()))
    }

    /// Whether a section header has a record count: "8, in edition 2 only"; 000's table 5 has it for "V2, V3".
    pub fn has_counts(self) -> bool {
        self != Edition::One
    }

    /// A section header is offset (8), size (8), record count (8, where there is one), MD5 (16).
    pub fn section_header(self) -> usize {
        match self.has_counts() {
            false => 32,
            true => 40,
        }
    }

    /// The sections in the order of their headers: 01 has symbol, tree, data; 000's table 2 has data, symbol table, tree.
    pub fn header_order(self) -> [usize; 3] {
        match self {
            Edition::One | Edition::Two => [SYMBOLS, TREE, DATA],
            Edition::Three => [DATA, SYMBOLS, TREE],
        }
    }

    /// Place of the header of a section.
    pub fn place_of(self, section: usize) -> usize {
        let before = self
            .header_order()
            .into_iter()
            .take_while(|s| *s != section);
        SIGNATURE + before.count() * self.section_header()
    }

    /// Place of the sum of a section.
    pub fn place_of_sum(self, section: usize) -> usize {
        self.place_of(section) + self.section_header() - 16
    }

    /// "The header sum is the MD5 of all header bytes before it: 128 or 152."
    pub fn summed(self) -> usize {
        SIGNATURE + 3 * self.section_header()
    }

    /// The whole header: 144 or 168.
    pub fn header(self) -> usize {
        self.summed() + 16
    }

    /// The other 12 signature bytes (table 3): the text's zero, bits, radix, mantissa, exponents, header size.
    pub fn form(self) -> [u8; 12] {
        let mut form = [0, 64, 2, 53, 4, 0, 3, 253, 0, 0, 0, 0];
        form[11] = self.header() as u8;
        form
    }

    /// Whether a byte may be the first of a subkey. 01: "a letter A-Z or a-z, `_` or `:`". C-15: "any byte but `/` and the zero that ends strings".
    fn may_begin(self, byte: u8) -> bool {
        match self {
            Edition::One | Edition::Two => {
                byte.is_ascii_alphabetic() || byte == b'_' || byte == b':'
            }
            Edition::Three => byte != b'/' && byte != 0,
        }
    }

    /// Whether a byte may be a later one. 01: "any of letters, digits, `.`, `-`, `_`, `:`". C-15 has one rule for all bytes.
    fn may_follow(self, byte: u8) -> bool {
        match self {
            Edition::One | Edition::Two => {
                self.may_begin(byte) || byte.is_ascii_digit() || byte == b'.' || byte == b'-'
            }
            Edition::Three => self.may_begin(byte),
        }
    }

    /// Where a name is no subkey of this edition, C-18: "the place of the first byte that breaks it, or, where the subkey is empty, the place at which
    /// it would begin", which is 0 in the name.
    pub fn subkey_fault(self, name: &[u8]) -> Option<u64> {
        match name.split_first() {
            None => Some(0),
            Some((head, _)) if !self.may_begin(*head) => Some(0),
            Some((_, tail)) => {
                let breaks = tail.iter().position(|byte| !self.may_follow(*byte));
                breaks.map(|place| place as u64 + 1)
            }
        }
    }

    pub fn is_subkey(self, name: &[u8]) -> bool {
        self.subkey_fault(name).is_none()
    }

    /// "A path is `/` alone, or one or more times `/` and a subkey." Where it is none, the place in the path of the first subkey's fault; C-18: "A path
    /// that lacks its first slash tells 0."
    pub fn path_fault(self, path: &[u8]) -> Option<u64> {
        if path == b"/" {
            return None;
        }
        let Some((b'/', rest)) = path.split_first() else {
            return Some(0);
        };
        let mut begin = 1;
        for subkey in rest.split(|byte| *byte == b'/') {
            if let Some(place) = self.subkey_fault(subkey) {
                return Some(begin + place);
            }
            begin += subkey.len() as u64 + 1;
        }
        None
    }
}

/// The form that the programs pass: edition 1's where the text is edition 1's, else edition 2's, which is edition 3's as well.
pub fn form_for(image: &[u8]) -> [u8; 12] {
    Edition::from_text(image).unwrap_or(Edition::Two).form()
}

/// "Types and bytes per element: 1 Void 0, 2 Char 1, 3 Int 4, 4 Double 8, 5 Complex 16".
#[derive(Clone, Copy, PartialEq, Eq, Debug)]
pub enum Kind {
    Void,
    Char,
    Int,
    Double,
    Complex,
}

impl Kind {
    pub fn from_code(code: u64) -> Option<Kind> {
        match code {
            1 => Some(Kind::Void),
            2 => Some(Kind::Char),
            3 => Some(Kind::Int),
            4 => Some(Kind::Double),
            5 => Some(Kind::Complex),
            _ => None,
        }
    }

    pub fn code(self) -> u8 {
        self as u8 + 1
    }

    /// Bytes of one element.
    pub fn width(self) -> usize {
        match self {
            Kind::Void => 0,
            Kind::Char => 1,
            Kind::Int => 4,
            Kind::Double => 8,
            Kind::Complex => 16,
        }
    }

    /// Bytes of a tree entry: "So 13 or 25 bytes."
    pub fn entry(self) -> usize {
        match self {
            Kind::Void => 13,
            _ => 25,
        }
    }

    /// The type words of the lister.
    pub fn word(self) -> &'static str {
        match self {
            Kind::Void => "void",
            Kind::Char => "char",
            Kind::Int => "int",
            Kind::Double => "double",
            Kind::Complex => "complex",
        }
    }
}

/// The fields of a tree entry: type (1), parent (8), string (4); where not Void, count (4) and data offset (8).
#[derive(Clone, Copy, PartialEq, Eq, Debug)]
pub struct Entry {
    pub kind: Kind,
    pub parent: u64,
    pub string: u64,
    pub count: u64,
    pub offset: u64,
}

impl Entry {
    /// The entry at a place of some bytes that end at `end`; none if the type is not 1 to 5 or the entry is cut short.
    pub fn at(bytes: &[u8], place: usize, end: usize) -> Option<Entry> {
        let left = end.min(bytes.len()).checked_sub(place)?;
        if left == 0 {
            return None;
        }
        let kind = Kind::from_code(u64::from(bytes[place]))?;
        if left < kind.entry() {
            return None;
        }
        let void = kind == Kind::Void;
        Some(Entry {
            kind,
            parent: big(bytes, place + 1, 8),
            string: big(bytes, place + 9, 4),
            count: if void { 0 } else { big(bytes, place + 13, 4) },
            offset: if void { 0 } else { big(bytes, place + 17, 8) },
        })
    }

    /// The bytes of the data, exact: a count of 32 bits times at most 16.
    pub fn bytes(&self) -> u64 {
        self.count * self.kind.width() as u64
    }
}

/// "All numbers are big-endian and unsigned": the number of so many bytes at a place.
pub fn big(bytes: &[u8], place: usize, width: usize) -> u64 {
    bytes[place..place + width]
        .iter()
        .fold(0, |number, byte| number << 8 | u64::from(*byte))
}
