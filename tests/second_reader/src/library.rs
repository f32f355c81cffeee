//! The library through its C side: the functions of the crate aff_c, as the heads of its sources give them. A slice is a pointer
//! and a length.

use crate::answers::{Choice, Passed};
use crate::format::Refusal;
use crate::open::{Record, Refused, Span};
use crate::runs::{Alteration, Call, Desk, Run};
use crate::writer::{Numbers, Reported};

extern "C" {
    fn aff_open_image(
        image: *const u8,
        image_length: usize,
        form: *const u8,
        form_length: usize,
        strings: *mut u32,
        strings_length: usize,
        entries: *mut u32,
        entries_length: usize,
        record: *mut u64,
        record_length: usize,
    ) -> u32;

    fn aff_form_for(
        image: *const u8,
        image_length: usize,
        output: *mut u8,
        output_length: usize,
    ) -> bool;

    fn aff_form(edition: u32, output: *mut u8, output_length: usize) -> bool;

    fn aff_decode(
        kind: u64,
        bytes: *const u8,
        bytes_length: usize,
        index: u64,
        value: *mut f64,
        imaginary: *mut f64,
    ) -> u32;
}

// The writer: its record is 8 numbers (what the last call reported, the buffer's length, the edition, strings, bytes of text, nodes, the end of
// data, 1 while open) and the 12 bytes of form that it keeps.
extern "C" {
    fn aff_begin(
        edition: u32,
        buffer: *mut u8,
        buffer_length: usize,
        form: *const u8,
        form_length: usize,
        text: *mut u8,
        text_length: usize,
        tree: *mut u8,
        tree_length: usize,
        allowance: u64,
        numbers: *mut u64,
        kept: *mut u8,
    ) -> u32;

    fn aff_make(
        buffer: *const u8,
        buffer_length: usize,
        numbers: *mut u64,
        kept: *const u8,
        text: *mut u8,
        text_length: usize,
        tree: *mut u8,
        tree_length: usize,
        parent: u64,
        name: *const u8,
        name_length: usize,
    ) -> u32;

    fn aff_put(
        buffer: *mut u8,
        buffer_length: usize,
        numbers: *mut u64,
        kept: *const u8,
        text: *const u8,
        text_length: usize,
        tree: *mut u8,
        tree_length: usize,
        node: u64,
        kind: u64,
        bytes: *const u8,
        bytes_length: usize,
        allowance: u64,
    ) -> u32;

    fn aff_close(
        buffer: *mut u8,
        buffer_length: usize,
        numbers: *mut u64,
        kept: *const u8,
        text: *const u8,
        text_length: usize,
        tree: *const u8,
        tree_length: usize,
        allowance: u64,
    ) -> u32;
}

/// Declares a reading call: image, record, strings and entries come first, then its own arguments.
macro_rules! reading {
    ($($name:ident($($argument:ident: $kind:ty),*);)*) => {
        extern "C" {
            $(fn $name(
                image: *const u8,
                image_length: usize,
                record: *const u64,
                strings: *const u32,
                strings_length: usize,
                entries: *const u32,
                entries_length: usize,
                $($argument: $kind),*
            ) -> u32;)*
        }
    };
}

reading! {
    aff_lookup(path: *const u8, path_length: usize, node: *mut u64, place: *mut u64);
    aff_listing(all: bool, output: *mut u32, output_length: usize, count: *mut u64);
    aff_name(node: u64, offset: *mut u64, size: *mut u64);
    aff_kind(node: u64, kind: *mut u64);
    aff_count(node: u64, count: *mut u64);
    aff_path(node: u64, output: *mut u8, output_length: usize, size: *mut u64);
    aff_view(node: u64, offset: *mut u64, size: *mut u64);
    aff_element(node: u64, index: u64, value: *mut f64, imaginary: *mut f64);
}

/// The 12 bytes that the library's programs pass.
pub fn form_for(image: &[u8]) -> [u8; 12] {
    let mut form = [0; 12];
    // SAFETY: pointers and lengths are of live slices that do not overlap.
    let done = unsafe { aff_form_for(image.as_ptr(), image.len(), form.as_mut_ptr(), form.len()) };
    assert!(done, "12 bytes are enough");
    form
}

/// The 12 bytes of an edition, at the front of the output; whether they were stored.
pub fn form(edition: u32, output: &mut [u8]) -> bool {
    // SAFETY: as above.
    unsafe { aff_form(edition, output.as_mut_ptr(), output.len()) }
}

/// Opens an image; the record is handed back whether or not it is accepted. Of the 13 numbers the first is the place and the last is the second number.
pub fn open(
    image: &[u8],
    form: &[u8],
    strings: &mut [u32],
    entries: &mut [u32],
) -> (Result<(), Refused>, Record) {
    let mut numbers = [u64::MAX; 13];
    // SAFETY: as above.
    let number = unsafe {
        aff_open_image(
            image.as_ptr(),
            image.len(),
            form.as_ptr(),
            form.len(),
            strings.as_mut_ptr(),
            strings.len(),
            entries.as_mut_ptr(),
            entries.len(),
            numbers.as_mut_ptr(),
            numbers.len(),
        )
    };
    let reported = match (number, numbers[0], numbers[12]) {
        (0, 0, 0) => Ok(()),
        (number, place, second) => Err(Refused {
            number,
            place,
            second,
        }),
    };
    (reported, record_of(&numbers))
}

/// Element `index` of some bytes; 255 where no kind has the code.
pub fn decode(kind: u64, bytes: &[u8], index: u64) -> Result<(f64, f64), u32> {
    let (mut value, mut imaginary) = (UNSET, UNSET);
    // SAFETY: as above.
    let number = unsafe {
        aff_decode(
            kind,
            bytes.as_ptr(),
            bytes.len(),
            index,
            &mut value,
            &mut imaginary,
        )
    };
    reported(number, (value, imaginary), (UNSET, UNSET))
}

/// A value that a refused call must leave.
const UNSET: f64 = 12345.5;
const NONE: u64 = 0x5555_5555_5555_5555;

/// An accepted call's value; a refused one must have left what it was passed.
fn reported<T: PartialEq>(number: u32, value: T, before: T) -> Result<T, u32> {
    match number {
        0 => Ok(value),
        _ if value == before => Err(number),
        _ => Err(1000 + number),
    }
}

fn record_of(numbers: &[u64; 13]) -> Record {
    let span = |place: usize| Span {
        offset: numbers[place],
        size: numbers[place + 1],
    };
    Record {
        length: numbers[1],
        edition: numbers[2],
        symbols: span(3),
        tree: span(5),
        data: span(7),
        strings: numbers[9],
        nodes: numbers[10],
        records: numbers[11],
    }
}

/// The numbers that the reading calls take: the first 12.
fn numbers_of(record: &Record) -> [u64; 12] {
    [
        0,
        record.length,
        record.edition,
        record.symbols.offset,
        record.symbols.size,
        record.tree.offset,
        record.tree.size,
        record.data.offset,
        record.data.size,
        record.strings,
        record.nodes,
        record.records,
    ]
}

/// Calls a reading function with what is passed and with its own arguments.
macro_rules! ask {
    ($name:ident, $passed:expr, $($argument:expr),*) => {{
        let passed = $passed;
        let numbers = numbers_of(&passed.record);
        // SAFETY: pointers and lengths are of live slices and variables that do not overlap.
        unsafe {
            $name(
                passed.image.as_ptr(),
                passed.image.len(),
                numbers.as_ptr(),
                passed.strings.as_ptr(),
                passed.strings.len(),
                passed.entries.as_ptr(),
                passed.entries.len(),
                $($argument),*
            )
        }
    }};
}

/// The place is written in every case: 0 where the path is found.
pub fn lookup(passed: &Passed, path: &[u8]) -> Result<u64, Refusal> {
    let (mut node, mut place) = (NONE, NONE);
    let number = ask!(
        aff_lookup,
        passed,
        path.as_ptr(),
        path.len(),
        &mut node,
        &mut place
    );
    match reported(number, node, NONE) {
        Ok(node) if place == 0 => Ok(node),
        Ok(_) => Err((0, place)),
        Err(number) => Err((number, place)),
    }
}

pub fn name(passed: &Passed, node: u64) -> Result<Span, u32> {
    let (mut offset, mut size) = (NONE, NONE);
    let number = ask!(aff_name, passed, node, &mut offset, &mut size);
    reported(number, Span { offset, size }, span_unset())
}

pub fn view(passed: &Passed, node: u64) -> Result<Span, u32> {
    let (mut offset, mut size) = (NONE, NONE);
    let number = ask!(aff_view, passed, node, &mut offset, &mut size);
    reported(number, Span { offset, size }, span_unset())
}

fn span_unset() -> Span {
    Span {
        offset: NONE,
        size: NONE,
    }
}

pub fn kind(passed: &Passed, node: u64) -> Result<u64, u32> {
    let mut kind = NONE;
    let number = ask!(aff_kind, passed, node, &mut kind);
    reported(number, kind, NONE)
}

pub fn count(passed: &Passed, node: u64) -> Result<u64, u32> {
    let mut count = NONE;
    let number = ask!(aff_count, passed, node, &mut count);
    reported(number, count, NONE)
}

pub fn path_into(passed: &Passed, node: u64, output: &mut [u8]) -> Result<u64, u32> {
    let mut size = NONE;
    let number = ask!(
        aff_path,
        passed,
        node,
        output.as_mut_ptr(),
        output.len(),
        &mut size
    );
    reported(number, size, NONE)
}

pub fn order_into(passed: &Passed, choice: Choice, output: &mut [u32]) -> Result<u64, u32> {
    let mut count = NONE;
    let number = ask!(
        aff_listing,
        passed,
        choice == Choice::All,
        output.as_mut_ptr(),
        output.len(),
        &mut count
    );
    reported(number, count, NONE)
}

pub fn element(passed: &Passed, node: u64, index: u64) -> Result<(f64, f64), u32> {
    let (mut value, mut imaginary) = (UNSET, UNSET);
    let number = ask!(aff_element, passed, node, index, &mut value, &mut imaginary);
    reported(number, (value, imaginary), (UNSET, UNSET))
}

/// The library's writer with all that it is passed; the buffer is in memory or a mapped file.
struct Writer<Buffer> {
    buffer: Buffer,
    text: Vec<u8>,
    tree: Vec<u8>,
    numbers: [u64; 8],
    kept: [u8; 12],
}

/// The library's writer for a run, not yet begun.
pub fn desk(run: &Run) -> Box<dyn Desk> {
    Box::new(desk_in(run.buffer.clone(), run))
}

/// The library's writer for a run in a buffer of the caller's.
pub fn desk_in<Buffer: AsRef<[u8]> + AsMut<[u8]>>(buffer: Buffer, run: &Run) -> impl Desk {
    Writer {
        buffer,
        text: run.text.clone(),
        tree: run.tree.clone(),
        numbers: [0; 8],
        kept: [0; 12],
    }
}

impl<Buffer: AsRef<[u8]> + AsMut<[u8]>> Writer<Buffer> {
    fn begin(&mut self, edition: u32, form: &[u8], allowance: u64) -> u32 {
        let buffer = self.buffer.as_mut();
        // SAFETY: pointers and lengths are of live slices that do not overlap, here and below.
        unsafe {
            aff_begin(
                edition,
                buffer.as_mut_ptr(),
                buffer.len(),
                form.as_ptr(),
                form.len(),
                self.text.as_mut_ptr(),
                self.text.len(),
                self.tree.as_mut_ptr(),
                self.tree.len(),
                allowance,
                self.numbers.as_mut_ptr(),
                self.kept.as_mut_ptr(),
            )
        }
    }

    fn make(&mut self, parent: u64, name: &[u8]) -> u32 {
        let buffer = self.buffer.as_ref();
        unsafe {
            aff_make(
                buffer.as_ptr(),
                buffer.len(),
                self.numbers.as_mut_ptr(),
                self.kept.as_ptr(),
                self.text.as_mut_ptr(),
                self.text.len(),
                self.tree.as_mut_ptr(),
                self.tree.len(),
                parent,
                name.as_ptr(),
                name.len(),
            )
        }
    }

    fn put(&mut self, node: u64, kind: u64, bytes: &[u8], allowance: u64) -> u32 {
        let buffer = self.buffer.as_mut();
        unsafe {
            aff_put(
                buffer.as_mut_ptr(),
                buffer.len(),
                self.numbers.as_mut_ptr(),
                self.kept.as_ptr(),
                self.text.as_ptr(),
                self.text.len(),
                self.tree.as_mut_ptr(),
                self.tree.len(),
                node,
                kind,
                bytes.as_ptr(),
                bytes.len(),
                allowance,
            )
        }
    }

    fn close(&mut self, allowance: u64) -> u32 {
        let buffer = self.buffer.as_mut();
        unsafe {
            aff_close(
                buffer.as_mut_ptr(),
                buffer.len(),
                self.numbers.as_mut_ptr(),
                self.kept.as_ptr(),
                self.text.as_ptr(),
                self.text.len(),
                self.tree.as_ptr(),
                self.tree.len(),
                allowance,
            )
        }
    }

    fn alter(&mut self, alteration: &Alteration) {
        match *alteration {
            Alteration::Length(number) => self.numbers[1] = number,
            Alteration::Edition(number) => self.numbers[2] = number,
            Alteration::Strings(number) => self.numbers[3] = number,
            Alteration::Text(number) => self.numbers[4] = number,
            Alteration::Nodes(number) => self.numbers[5] = number,
            Alteration::End(number) => self.numbers[6] = number,
            Alteration::Flag(number) => self.numbers[7] = number,
            Alteration::Byte(area, place, byte) => {
                let areas = [self.buffer.as_mut(), &mut self.text, &mut self.tree];
                if let Some(old) = areas
                    .into_iter()
                    .nth(area % 3)
                    .and_then(|a| a.get_mut(place))
                {
                    *old = byte;
                }
            }
        }
    }
}

impl<Buffer: AsRef<[u8]> + AsMut<[u8]>> Desk for Writer<Buffer> {
    fn call(&mut self, call: &Call, allowance: u64) -> Reported {
        let number = match call {
            Call::Begin(edition, form) => self.begin(*edition, form, allowance),
            Call::Make(parent, name) => self.make(*parent, name),
            Call::Put(node, code, bytes) => self.put(*node, *code, bytes, allowance),
            Call::Close => self.close(allowance),
            Call::Alter(alteration) => {
                self.alter(alteration);
                return Ok(0);
            }
        };
        match number {
            0 => Ok(self.numbers[0]),
            _ => Err((number, self.numbers[0])),
        }
    }

    fn memory(&self) -> [&[u8]; 3] {
        [self.buffer.as_ref(), &self.text, &self.tree]
    }

    fn numbers(&self) -> Numbers {
        (self.numbers, self.kept)
    }
}
