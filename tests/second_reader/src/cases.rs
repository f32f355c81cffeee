//! The frozen sample of the gate: images and this reader's answers, in the form that the program `test_second` reads and writes.

use crate::answers::{self, Element, Passed};
use crate::format::{form_for, Refusal};
use crate::images;
use crate::open::open;

/// Larger images are left out, so that the sample stays small.
const LARGEST: usize = 3000;

/// At most so many elements of a node are written.
const ELEMENTS: u64 = 8;

/// Bytes of the area that the program writes a line to. It then looks up all of it, so a zero comes after the line.
const LINE: usize = 262_164;

/// Images one after another, each after its length in 4 bytes, and the answers.
pub struct Sample {
    pub input: Vec<u8>,
    pub output: Vec<u8>,
}

pub fn sample(seed: u64, count: usize) -> Result<Sample, u32> {
    let mut input = Vec::new();
    let mut output = Vec::new();
    let small = (0..)
        .map(|number| images::image(seed, number).bytes)
        .filter(|bytes| bytes.len() <= LARGEST);
    for (number, bytes) in small.take(count).enumerate() {
        input.extend((bytes.len() as u32).to_be_bytes());
        input.extend(&bytes);
        output.extend(format!("{number}\n").into_bytes());
        output.extend(answer(&bytes)?);
    }
    Ok(Sample { input, output })
}

/// The refusal with both its places, or a line for each node in listing order, as `listall` prints it; after it the first elements, and what lookup
/// answers to that line with a zero after it.
fn answer(image: &[u8]) -> Result<Vec<u8>, u32> {
    match open(image, &form_for(image)) {
        Err(refused) => {
            let (number, place, second) = (refused.number, refused.place, refused.second);
            Ok(format!("refused {number} {place} {second}\n").into_bytes())
        }
        Ok(opened) => nodes(&Passed {
            image,
            record: opened.record,
            strings: &opened.strings,
            entries: &opened.entries,
        }),
    }
}

fn nodes(passed: &Passed) -> Result<Vec<u8>, u32> {
    let reader = answers::judged(passed)?;
    let mut output = Vec::new();
    for number in reader.order() {
        let mut line = answers::line(&reader, number)?;
        assert!(
            line.len() < LINE,
            "the program has an area of so many bytes"
        );
        output.extend(&line);
        for index in 0..reader.count(number)?.min(ELEMENTS) {
            output.extend(element(reader.element(number, index)?).into_bytes());
        }
        line.push(0);
        output.extend(found(reader.lookup(&line)).into_bytes());
        output.push(b'\n');
    }
    Ok(output)
}

/// The line of a node and a zero are no path: 14, reported the place of the first blank, in edition 3 that of the zero.
fn found(reported: Result<u64, Refusal>) -> String {
    match reported {
        Ok(node) => format!(" {node}"),
        Err((number, place)) => format!(" refused {number} {place}"),
    }
}

fn element(element: Element) -> String {
    match element {
        Element::Byte(byte) => format!(" {byte}"),
        Element::Int(int) => format!(" {int}"),
        Element::Real(bits) => format!(" {}", real(bits)),
        Element::Pair(real_bits, imaginary_bits) => {
            format!(" {},{}", real(real_bits), real(imaginary_bits))
        }
    }
}

/// A double by its bits; which NaN it is, is free.
fn real(bits: u64) -> String {
    if f64::from_bits(bits).is_nan() {
        return "nan".into();
    }
    format!("{bits:016x}")
}
