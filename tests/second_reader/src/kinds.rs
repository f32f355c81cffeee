//! Kinds of malformed names and paths (request C-18), of puts (request C-22) and of orders of puts (request C-23), for the counts of what was met. No
//! comparison depends on them.

use crate::open::Node;
use crate::writer::Reported;

/// Two parts of a line: what was met, and more of it.
pub type Kind = (&'static str, &'static str);

/// Where a name breaks the rule for a subkey.
fn where_in(name: &[u8], place: u64) -> &'static str {
    match place as usize {
        _ if name.is_empty() => "empty name",
        0 => "name bad at its first byte",
        place if place + 1 == name.len() => "name bad at its last byte",
        _ => "name bad in its middle",
    }
}

/// What is wrong with a node of 10: its name, and its parent.
pub fn of_node(node: &Node) -> Kind {
    let name = match (node.name, node.fault()) {
        (None, _) => "no such string",
        (Some(_), None) => "name sound",
        (Some(name), Some(place)) => where_in(name, place),
    };
    let parent = match node.parent {
        true => "parent sound",
        false => "no such parent",
    };
    (name, parent)
}

/// The lowest of several bad nodes, where a higher one has another place in its name, which is not the one to report.
pub fn of_several(nodes: &[Node]) -> Option<Kind> {
    let (lowest, others) = nodes.split_first()?;
    let place = lowest.fault().unwrap_or(0);
    let differs = |node: &Node| node.fault().is_some_and(|other| other != place);
    let lowest = match lowest.fault() {
        None => "the lowest has no place",
        Some(_) => "the lowest has a place, too",
    };
    let found = others.iter().any(differs);
    found.then_some(("a higher node has another place", lowest))
}

/// A name that make refuses: the byte, and where it is.
pub fn of_name(name: &[u8], place: u64) -> Kind {
    let byte = match name.get(place as usize) {
        None => "no byte",
        Some(b'/') => "a slash",
        Some(b' ') => "a blank",
        Some(b'0'..=b'9') => "a digit",
        Some(0) => "the byte 0",
        Some(255) => "the byte 255",
        Some(_) => "another byte",
    };
    (where_in(name, place), byte)
}

/// A put that was accepted, with the zeros that it stored first.
pub fn of_put(bytes: &[u8], padding: u64) -> Kind {
    let what = match bytes.is_empty() {
        true => "a put of no bytes",
        false => "a put of bytes",
    };
    match padding {
        0 => (what, "not padded"),
        _ => (what, "padded"),
    }
}

/// A put that was refused by 23 after so many stores, of which so many are padding.
pub fn of_cut_put(made: u64, padding: u64) -> Kind {
    let place = match padding {
        0 => "without padding",
        _ if made < padding => "inside its padding",
        _ => "after its padding",
    };
    ("a put that is cut", place)
}

/// A recorded end of data, altered: below the header's size, not above the buffer's length, or above it.
pub fn of_end(end: u64, header: u64, length: u64) -> Kind {
    let place = match end {
        _ if end < header => "inside the header",
        _ if end <= length => "in the rest of the buffer",
        _ => "past the buffer",
    };
    ("an altered end of data", place)
}

/// An offset in the tree area, altered.
pub const UNALIGNED: Kind = ("an altered offset", "no multiple of 8");

/// A call that is refused in one order of a pair only: why request C-23's claim does not apply.
pub fn of_one_order(of_pair: bool) -> Kind {
    let call = match of_pair {
        true => "one of the two puts",
        false => "a later call",
    };
    ("the claim does not apply: refused in one order only", call)
}

/// One of the two puts is refused in both orders; or the same calls are accepted in both, but no close is among them.
pub const PUT_REFUSED: Kind = (
    "the claim does not apply: refused in both orders",
    "one of the two puts",
);
pub const NOT_CLOSED: Kind = ("the claim does not apply", "no close is accepted");

const APPLIES: &str = "the claim applies";
pub const ALL: Kind = (APPLIES, "all such pairs");

/// Whether the lengths of the two puts agree modulo 8.
pub fn of_lengths(agree: bool) -> Kind {
    match agree {
        true => (APPLIES, "lengths equal modulo 8"),
        false => (APPLIES, "lengths different modulo 8"),
    }
}

/// Whether a put after the two is accepted.
pub fn of_later_put(accepted: bool) -> Kind {
    match accepted {
        true => (APPLIES, "a later put is accepted"),
        false => (APPLIES, "no later put is accepted"),
    }
}

/// Calls after the accepted close.
pub fn of_calls_after_close(calls: usize) -> Kind {
    match calls {
        0 => (APPLIES, "no call after the close"),
        _ => (APPLIES, "calls after the close"),
    }
}

/// How the files of the two orders differ.
pub fn of_files(files: [&[u8]; 2]) -> Kind {
    let [one, other] = files;
    match one.len() == other.len() {
        _ if one == other => (APPLIES, "files the same"),
        true => (APPLIES, "files differ in bytes, not in size"),
        false => (APPLIES, "files differ in size"),
    }
}

/// What the calls of the two orders were allowed; the two puts are the calls from `first` on.
pub fn of_allowances(one: &[u64], other: &[u64], first: usize) -> Kind {
    let later = one[first + 2..] == other[first + 2..];
    let puts = one[first] == other[first + 1] && one[first + 1] == other[first];
    match (puts, later) {
        (true, true) => (APPLIES, "allowances the same"),
        (false, true) => (APPLIES, "allowances differ for the two puts"),
        (_, false) => (APPLIES, "allowances differ for later calls"),
    }
}

/// How many puts a block has.
pub fn of_block(puts: usize) -> Kind {
    match puts {
        2 => (APPLIES, "a block of 2 puts"),
        3..=6 => (APPLIES, "a block of 3 to 6 puts"),
        _ => (APPLIES, "a block of 7 to 12 puts"),
    }
}

/// Whether the lengths of the last puts of the two orders of a block agree modulo 8.
pub fn of_last_lengths(agree: bool) -> Kind {
    match agree {
        true => (APPLIES, "last lengths equal modulo 8"),
        false => (APPLIES, "last lengths different modulo 8"),
    }
}

/// How many bytes of the buffer come after the longer of two files. As the first put of a file needs no padding, at least 7 do where the length is
/// counted so that it is never too small.
pub fn of_bytes_left(bytes: usize) -> Kind {
    match bytes {
        0..=7 => (APPLIES, "at most 7 bytes of the buffer left"),
        _ => (APPLIES, "more than 7 bytes of the buffer left"),
    }
}

/// Whether two runs are of one edition.
pub fn of_editions(same: bool) -> Kind {
    match same {
        true => (APPLIES, "runs of one edition"),
        false => (APPLIES, "runs of two editions"),
    }
}

/// Whether the accepted puts of two runs come in the same order.
pub fn of_put_order(same: bool) -> Kind {
    match same {
        true => (APPLIES, "puts in the same order"),
        false => (APPLIES, "puts in another order"),
    }
}

/// In which of two runs an accepted put comes before an accepted make.
pub fn of_puts_among_makes(runs: [bool; 2]) -> Kind {
    match runs {
        [true, true] => (APPLIES, "puts before makes in both runs"),
        [false, false] => (APPLIES, "puts before makes in neither run"),
        _ => (APPLIES, "puts before makes in one run"),
    }
}

/// The answers of later calls of which nothing is assumed.
pub fn of_later(answers: &[Reported]) -> Kind {
    let is_refused = |number: u32| {
        let refusals = answers.iter().filter_map(|reported| reported.err());
        refusals.map(|refusal| refusal.0).any(|it| it == number)
    };
    let calls = match answers {
        [] => "no later call",
        _ if answers.iter().all(Result::is_ok) => "all later calls accepted",
        _ if is_refused(23) => "a later call refused by 23",
        _ if is_refused(21) => "a later call refused by 21",
        _ => "a later call refused by another number",
    };
    ("nothing assumed", calls)
}

/// A path that lookup refuses: the fault, and in which subkey it is.
#[cfg(any(test, feature = "library"))]
pub fn of_path(path: &[u8], place: u64) -> Kind {
    let place = place as usize;
    let fault = match path.get(place) {
        _ if path.is_empty() => return ("path empty", "no first slash"),
        _ if place == 0 => return ("path not empty", "no first slash"),
        None => "subkey empty at the path's end",
        Some(b'/') => "subkey empty before a slash",
        Some(_) if path[place - 1] == b'/' => "subkey bad at its first byte",
        Some(_) => "subkey bad at a later byte",
    };
    let slashes = path[..place].iter().filter(|byte| **byte == b'/').count();
    let depth = match slashes {
        _ if place >= 65_535 => "at 65,535 or later",
        1 => "in the first subkey",
        2..=9 => "in the second to ninth subkey",
        _ => "in the tenth subkey or later",
    };
    (fault, depth)
}
