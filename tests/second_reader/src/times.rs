//! The times of this reader's own functions, for bench/second.py: one call is made again and again, as the programs of bench/*.c make the
//! library's. A sample is the processor time of BATCH calls in a row, divided by BATCH; the median in seconds is printed. An answer
//! that is not the expected one is an error. For Linux on 64 bits.

use crate::answers::{decoded, judged, Choice, Element, Passed};
use crate::format::{form_for, Edition, Kind, MOST};
use crate::md5::md5;
use crate::open::{open, Opened, Refused};
use crate::writer::{Writer, TEXT_AREA, TREE_AREA};
use crate::Outcome;
use std::error::Error;
use std::hint::black_box;

type Fallible<T> = Result<T, Box<dyn Error>>;

/// How many samples are taken, and of how many calls.
struct Times {
    samples: usize,
    batch: usize,
}

pub fn run(words: &[&str]) -> Outcome {
    let [call, arguments @ .., samples, batch] = words else {
        return Err("time: see README.md".into());
    };
    let times = Times {
        samples: samples.parse()?,
        batch: batch.parse()?,
    };
    if times.samples == 0 || times.batch == 0 {
        return Err("SAMPLES and BATCH are numbers from 1 on".into());
    }
    match (*call, arguments) {
        ("digest", [file]) => digest(&std::fs::read(file)?, &times)?,
        ("open", [file, number]) => opening(&std::fs::read(file)?, number.parse()?, &times)?,
        ("lookup", [file, keys]) => lookup(&std::fs::read(file)?, &keys_of(keys)?, &times)?,
        ("whole", [file, keys]) => whole(&std::fs::read(file)?, &keys_of(keys)?, &times)?,
        ("order", [file, _]) => order(&std::fs::read(file)?, &times)?,
        ("short", [file, keys]) => short(&std::fs::read(file)?, &keys_of(keys)?, &times)?,
        ("build", [tree, file]) => build(Edition::Two, &tree_of(tree)?, file, &times)?,
        ("build3", [tree, file]) => build(Edition::Three, &tree_of(tree)?, file, &times)?,
        _ => return Err("time: see README.md".into()),
    }
    Ok(true)
}

/// The processor time of this process in seconds: the clock of bench/timing.h, which the standard library does not offer.
fn now() -> f64 {
    #[repr(C)]
    struct Timespec {
        seconds: i64,
        nanoseconds: i64,
    }
    extern "C" {
        fn clock_gettime(clock: i32, time: *mut Timespec) -> i32;
    }
    const CLOCK_PROCESS_CPUTIME_ID: i32 = 2;
    let mut time = Timespec {
        seconds: 0,
        nanoseconds: 0,
    };
    // SAFETY: the struct is Linux's timespec on 64 bits, and the call writes nothing else.
    let reported = unsafe { clock_gettime(CLOCK_PROCESS_CPUTIME_ID, &mut time) };
    assert_eq!(reported, 0, "the clock");
    time.seconds as f64 + time.nanoseconds as f64 * 1e-9
}

impl Times {
    /// The median time of a call, which is given numbers in turn and says whether its answer is the expected one.
    fn median(&self, mut call: impl FnMut(usize) -> bool) -> Fallible<f64> {
        let mut found = Vec::new();
        for sample in 0..self.samples {
            let begin = now();
            for number in 0..self.batch {
                if !call(sample * self.batch + number) {
                    return Err("another answer than expected".into());
                }
            }
            found.push((now() - begin) / self.batch as f64);
        }
        found.sort_by(f64::total_cmp);
        Ok(found[self.samples / 2])
    }

    fn print(&self, call: impl FnMut(usize) -> bool) -> Fallible<()> {
        println!("{:.12}", self.median(call)?);
        Ok(())
    }
}

/// The digest of a file is printed, too: the script compares.
fn digest(message: &[u8], times: &Times) -> Fallible<()> {
    let digest = md5(message);
    let median = times.median(|_| md5(black_box(message)) == digest)?;
    let hex: String = digest.iter().map(|byte| format!("{byte:02x}")).collect();
    println!("{hex} {median:.12}");
    Ok(())
}

/// Opening must hand back the number: 0 for acceptance, else the refusal's.
fn opening(image: &[u8], expected: u32, times: &Times) -> Fallible<()> {
    let form = form_for(image);
    let number =
        |reported: Result<Opened, Refused>| reported.err().map_or(0, |refused| refused.number);
    times.print(|_| number(black_box(open(black_box(image), &form))) == expected)
}

/// A line `NODE PATH`; NODE is 0 where no node has the path.
struct Key {
    node: u64,
    path: Vec<u8>,
}

fn keys_of(file: &str) -> Fallible<Vec<Key>> {
    let text = std::fs::read_to_string(file)?;
    let key = |line: &str| -> Fallible<Key> {
        let (node, path) = line.split_once(' ').ok_or("a line is no key")?;
        Ok(Key {
            node: node.parse()?,
            path: path.as_bytes().to_vec(),
        })
    };
    let keys: Vec<Key> = text.lines().map(key).collect::<Fallible<_>>()?;
    if keys.is_empty() {
        return Err("there is no key".into());
    }
    Ok(keys)
}

fn accepted(image: &[u8]) -> Fallible<Opened> {
    open(image, &form_for(image)).map_err(|refusal| format!("refused {refusal:?}").into())
}

fn passed<'a>(image: &'a [u8], opened: &'a Opened) -> Passed<'a> {
    Passed {
        image,
        record: opened.record,
        strings: &opened.strings,
        entries: &opened.entries,
    }
}

/// Lookups of the keys in turn; each judges 24 again, as a public call does.
fn lookup(image: &[u8], keys: &[Key], times: &Times) -> Fallible<()> {
    let opened = accepted(image)?;
    let passed = passed(image, &opened);
    times.print(|turn| {
        let key = &keys[turn % keys.len()];
        let reader = judged(black_box(&passed)).map_err(|number| (number, 0));
        let reported = reader.and_then(|reader| reader.lookup(&key.path));
        let expected = if key.node == 0 {
            Err((15, 0))
        } else {
            Ok(key.node)
        };
        black_box(reported) == expected
    })
}

/// Doubles in a node with data: element j of node n is n + j / 1024.
const COUNT: usize = 64;

fn value(node: u64, index: usize) -> f64 {
    node as f64 + index as f64 / 1024.0
}

/// The views of the keys' nodes in turn, each with 24 judged again, and all elements decoded from the view.
fn whole(image: &[u8], keys: &[Key], times: &Times) -> Fallible<()> {
    let opened = accepted(image)?;
    let passed = passed(image, &opened);
    times.print(|turn| {
        let node = keys[turn % keys.len()].node;
        let view = judged(black_box(&passed)).and_then(|reader| reader.view(node));
        let Ok(Some(part)) = view else {
            return false;
        };
        let bytes = &image[part.offset as usize..][..part.size as usize];
        let elements = bytes.chunks_exact(Kind::Double.width());
        let right = |(index, bytes): (usize, &[u8])| {
            decoded(Kind::Double, bytes) == Element::Real(value(node, index).to_bits())
        };
        elements.len() == COUNT && elements.enumerate().all(right)
    })
}

/// Listing order of all nodes; it must be the order of the numbers.
fn order(image: &[u8], times: &Times) -> Fallible<()> {
    let nodes = accepted(image)?.record.nodes as u32;
    let numbers: Vec<u32> = (0..=nodes).collect();
    listing(image, Choice::All, &numbers, times)
}

/// Listing order of the nodes that are not Void; they must be those of the keys, in their order.
fn short(image: &[u8], keys: &[Key], times: &Times) -> Fallible<()> {
    let numbers: Vec<u32> = keys.iter().map(|key| key.node as u32).collect();
    listing(image, Choice::NotVoid, &numbers, times)
}

/// Listing order into an area, with 24 judged again.
fn listing(image: &[u8], choice: Choice, numbers: &[u32], times: &Times) -> Fallible<()> {
    let opened = accepted(image)?;
    let passed = passed(image, &opened);
    let mut area = vec![0; MOST + 1];
    times.print(|_| {
        area.fill(u32::MAX);
        let reader = judged(black_box(&passed));
        let reported = reader.and_then(|reader| reader.order_into(choice, &mut area));
        reported == Ok(numbers.len() as u64) && area.starts_with(numbers)
    })
}

/// A line `PARENT NAME FULL`, a node in the order of making, and the data that it gets where FULL is 1.
struct Node {
    parent: u64,
    name: Vec<u8>,
    data: Option<Vec<u8>>,
}

fn tree_of(file: &str) -> Fallible<Vec<Node>> {
    let text = std::fs::read_to_string(file)?;
    let node = |(number, line): (u64, &str)| -> Fallible<Node> {
        let words: Vec<&str> = line.split(' ').collect();
        let [parent, name, full] = words[..] else {
            return Err("a line is no node".into());
        };
        let doubles = (0..COUNT).flat_map(|index| value(number, index).to_be_bytes());
        Ok(Node {
            parent: parent.parse()?,
            name: name.as_bytes().to_vec(),
            data: (full == "1").then(|| doubles.collect()),
        })
    };
    (1..).zip(text.lines()).map(node).collect()
}

/// Bytes of the buffer, as in bench/write.c.
const BUFFER_SIZE: usize = 2 << 20;

/// A whole file of an edition: begin, make and put for each node, close. It is written to a file, and the script compares.
fn build(edition: Edition, nodes: &[Node], file: &str, times: &Times) -> Fallible<()> {
    let mut writer = Writer::passed(vec![0; BUFFER_SIZE], vec![0; TEXT_AREA], vec![0; TREE_AREA]);
    if !built(edition, &mut writer, nodes) {
        return Err("another answer than expected".into());
    }
    std::fs::write(file, &writer.buffer[..writer.finished() as usize])?;
    times.print(|_| built(edition, black_box(&mut writer), nodes))
}

/// Whether every call is accepted and reports what is expected.
fn built(edition: Edition, writer: &mut Writer, nodes: &[Node]) -> bool {
    writer.begin(edition.number() as u32, &edition.form(), 1) == Ok(1)
        && (1..).zip(nodes).all(|(number, node)| {
            let made = writer.make(node.parent, &node.name) == Ok(number);
            let put = |data: &Vec<u8>| {
                let reported = writer.put(number, Kind::Double.code().into(), data, u64::MAX);
                reported == Ok(data.len() as u64)
            };
            made && node.data.as_ref().is_none_or(put)
        })
        && writer.close(u64::MAX).is_ok()
}

#[cfg(test)]
mod tests {
    use super::*;

    fn key(node: u64, path: &[u8]) -> Key {
        let path = path.to_vec();
        Key { node, path }
    }

    /// A node `a` with data, and its child `b` with none.
    fn image(edition: Edition) -> Vec<u8> {
        let doubles = (0..COUNT).flat_map(|index| value(1, index).to_be_bytes());
        let data = Some(doubles.collect());
        let node = |parent, name: &[u8], data| Node {
            parent,
            name: name.to_vec(),
            data,
        };
        let nodes = [node(0, b"a", data), node(1, b"b", None)];
        let mut writer =
            Writer::passed(vec![0; BUFFER_SIZE], vec![0; TEXT_AREA], vec![0; TREE_AREA]);
        assert!(built(edition, &mut writer, &nodes));
        writer.buffer[..writer.finished() as usize].to_vec()
    }

    /// Each command takes right answers and refuses wrong ones.
    #[test]
    fn answers_are_checked() {
        for edition in Edition::WRITTEN {
            answers_of(&image(edition));
        }
    }

    fn answers_of(image: &[u8]) {
        let times = Times {
            samples: 1,
            batch: 2,
        };
        assert!(opening(image, 0, &times).is_ok());
        assert!(opening(image, 3, &times).is_err());
        assert!(opening(&image[..214], 6, &times).is_ok());
        assert!(lookup(image, &[key(1, b"/a"), key(2, b"/a/b")], &times).is_ok());
        assert!(lookup(image, &[key(0, b"/b")], &times).is_ok());
        assert!(lookup(image, &[key(1, b"/a/b")], &times).is_err());
        assert!(whole(image, &[key(1, b"/a")], &times).is_ok());
        assert!(whole(image, &[key(2, b"/a/b")], &times).is_err());
        assert!(order(image, &times).is_ok());
        assert!(short(image, &[key(1, b"/a")], &times).is_ok());
        assert!(short(image, &[key(1, b"/a"), key(2, b"/a/b")], &times).is_err());
        assert!(short(image, &[key(2, b"/a/b")], &times).is_err());
    }
}
