//! What a file shows, as one value: by the calls of this reader, and by those of the library where it is linked.

use crate::answers::{judged, Choice, Passed, Reader};
use crate::format::Kind;
#[cfg(feature = "library")]
use crate::format::MOST;
#[cfg(feature = "library")]
use crate::library;
use crate::open::{open, Record, Span};

/// A node by its answers.
#[derive(Clone, PartialEq, Eq, Debug)]
pub struct Node {
    /// The node that lookup finds by the path without its last name; 0 for the root.
    pub parent: u64,
    pub name: Vec<u8>,
    pub path: Vec<u8>,
    pub kind: u64,
    pub count: u64,
    pub bytes: Vec<u8>,
}

/// What "shows the same tree" is about.
#[derive(Clone, PartialEq, Eq, Debug)]
pub struct Tree {
    /// Node n is at place n; the root is the first.
    pub nodes: Vec<Node>,
    /// The listing orders of all nodes, and of those that are not Void.
    pub listings: [Vec<u32>; 2],
    /// What three numbers of no node get.
    pub others: [Result<u64, u32>; 3],
}

/// A file that opens.
#[derive(Clone, PartialEq, Eq, Debug)]
pub struct File {
    pub tree: Tree,
    /// The offset of each node's data; none for a Void node.
    pub offsets: Vec<Option<u64>>,
    /// Where the entries end; they are last in a file of the writer.
    pub size: u64,
}

/// Opens a buffer with a form and reads the whole file; else the number of the refusal.
pub type Reading = fn(&[u8], &[u8]) -> Result<File, u32>;

/// The reading calls that a tree needs. A Void node has any empty part as its view.
trait Reads {
    fn name(&self, node: u64) -> Result<Vec<u8>, u32>;
    fn kind(&self, node: u64) -> Result<u64, u32>;
    fn count(&self, node: u64) -> Result<u64, u32>;
    fn view(&self, node: u64) -> Result<Span, u32>;
    fn path(&self, node: u64) -> Result<Vec<u8>, u32>;
    fn lookup(&self, path: &[u8]) -> Result<u64, u32>;
    fn listing(&self, choice: Choice) -> Result<Vec<u32>, u32>;
}

/// By this reader.
pub fn read_here(buffer: &[u8], form: &[u8]) -> Result<File, u32> {
    let opened = open(buffer, form).map_err(|refused| refused.number)?;
    let passed = Passed {
        image: buffer,
        record: opened.record,
        strings: &opened.strings,
        entries: &opened.entries,
    };
    file(&judged(&passed)?, buffer, &opened.record)
}

/// By the library.
#[cfg(feature = "library")]
pub fn read_by_library(buffer: &[u8], form: &[u8]) -> Result<File, u32> {
    let (mut strings, mut entries) = (vec![0; MOST], vec![0; MOST]);
    let (reported, record) = library::open(buffer, form, &mut strings, &mut entries);
    reported.map_err(|refused| refused.number)?;
    let passed = Passed {
        image: buffer,
        record,
        strings: &strings,
        entries: &entries,
    };
    file(&passed, buffer, &record)
}

fn file(reader: &impl Reads, buffer: &[u8], record: &Record) -> Result<File, u32> {
    let numbers = 0..=record.nodes;
    let node = |number| node(reader, buffer, number);
    let offset = |number| offset(reader, number);
    let past = record.nodes + 1;
    Ok(File {
        tree: Tree {
            nodes: numbers.clone().map(node).collect::<Result<_, _>>()?,
            listings: [
                reader.listing(Choice::All)?,
                reader.listing(Choice::NotVoid)?,
            ],
            others: [past, past | 1 << 32, u64::MAX].map(|number| reader.kind(number)),
        },
        offsets: numbers.map(offset).collect::<Result<_, _>>()?,
        size: record.tree.offset + record.tree.size,
    })
}

fn node(reader: &impl Reads, buffer: &[u8], number: u64) -> Result<Node, u32> {
    let view = reader.view(number)?;
    let path = reader.path(number)?;
    Ok(Node {
        parent: parent(reader, &path)?,
        name: reader.name(number)?,
        path,
        kind: reader.kind(number)?,
        count: reader.count(number)?,
        bytes: buffer[view.offset as usize..][..view.size as usize].to_vec(),
    })
}

fn parent(reader: &impl Reads, path: &[u8]) -> Result<u64, u32> {
    let last = path.iter().rposition(|byte| *byte == b'/');
    match last.expect("a path begins with a slash") {
        0 => Ok(0),
        end => reader.lookup(&path[..end]),
    }
}

fn offset(reader: &impl Reads, number: u64) -> Result<Option<u64>, u32> {
    let is_void = reader.kind(number)? == u64::from(Kind::Void.code());
    let view = reader.view(number)?;
    Ok((!is_void).then_some(view.offset))
}

impl Reads for Reader<'_> {
    fn name(&self, node: u64) -> Result<Vec<u8>, u32> {
        self.name(node).map(<[u8]>::to_vec)
    }

    fn kind(&self, node: u64) -> Result<u64, u32> {
        self.kind(node).map(|kind| kind.code().into())
    }

    fn count(&self, node: u64) -> Result<u64, u32> {
        self.count(node)
    }

    fn view(&self, node: u64) -> Result<Span, u32> {
        self.view(node).map(Option::unwrap_or_default)
    }

    fn path(&self, node: u64) -> Result<Vec<u8>, u32> {
        self.path(node)
    }

    fn lookup(&self, path: &[u8]) -> Result<u64, u32> {
        self.lookup(path).map_err(|(number, _)| number)
    }

    fn listing(&self, choice: Choice) -> Result<Vec<u32>, u32> {
        let mut order = vec![0; self.listed(choice).len()];
        self.order_into(choice, &mut order)?;
        Ok(order)
    }
}

#[cfg(feature = "library")]
impl Reads for Passed<'_> {
    fn name(&self, node: u64) -> Result<Vec<u8>, u32> {
        let part = library::name(self, node)?;
        Ok(self.image[part.offset as usize..][..part.size as usize].to_vec())
    }

    fn kind(&self, node: u64) -> Result<u64, u32> {
        library::kind(self, node)
    }

    fn count(&self, node: u64) -> Result<u64, u32> {
        library::count(self, node)
    }

    fn view(&self, node: u64) -> Result<Span, u32> {
        library::view(self, node)
    }

    /// Into outputs that grow until the path fits.
    fn path(&self, node: u64) -> Result<Vec<u8>, u32> {
        let mut output = vec![0; 64];
        loop {
            match library::path_into(self, node, &mut output) {
                Err(21) => output.resize(2 * output.len(), 0),
                reported => {
                    output.truncate(reported? as usize);
                    return Ok(output);
                }
            }
        }
    }

    fn lookup(&self, path: &[u8]) -> Result<u64, u32> {
        library::lookup(self, path).map_err(|(number, _)| number)
    }

    fn listing(&self, choice: Choice) -> Result<Vec<u32>, u32> {
        let mut order = vec![0; self.record.nodes as usize + 1];
        let count = library::order_into(self, choice, &mut order)?;
        order.truncate(count as usize);
        Ok(order)
    }
}
