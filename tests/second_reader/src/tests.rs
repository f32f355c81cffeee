//! Document 01's worked file and cases, the symbol tables of requests C-11 and C-13, request C-12's listings, request C-18's places, request C-15's
//! edition 3, request C-22's padding, request C-23's orders of puts, and the generator's images beside what their maker knows.

use crate::answers::{decoded, judged, listing, shown, Choice, Element, Passed, LISTED};
use crate::any_order;
use crate::blocks::{never_too_small, random_block, Block};
use crate::cases;
use crate::damage::numbers;
use crate::format::{big, form_for, Edition, Kind, Refusal, DATA, SIGNATURE, SYMBOLS, TREE};
use crate::images::{image, sum_header, Draft, Image, Node, WIDE_NAMES};
use crate::md5::md5;
use crate::moved::{random_runs, Planned};
use crate::open::{bad_nodes, open, Opened, Refused, Span};
use crate::orders::{self, compare_plays, played, Claim, Played};
use crate::pairs::{random_pair, Allowances, Pair, ORDERS};
use crate::random::Random;
use crate::report::Report;
use crate::runs::{
    bad_name, met, padded_calls, play, random_run, stores, worked_calls, Alteration, Call, Desk,
    Run,
};
use crate::tree_by_calls;
use crate::trees::{read_here, File};
use crate::writer::{Record, Writer, TEXT_AREA, TREE_AREA};
use crate::{kinds, paths, DESK, READERS};
use std::collections::{BTreeMap, BTreeSet};

/// The editions with 01's narrow names, and those with record counts.
const NARROW: [Edition; 2] = [Edition::One, Edition::Two];
const COUNTED: [Edition; 2] = [Edition::Two, Edition::Three];

fn desk(buffer: usize) -> Writer {
    Writer::passed(vec![0; buffer], vec![0; TEXT_AREA], vec![0; TREE_AREA])
}

fn passed<'a>(image: &'a [u8], opened: &'a Opened) -> Passed<'a> {
    Passed {
        image,
        record: opened.record,
        strings: &opened.strings,
        entries: &opened.entries,
    }
}

/// Document 01's worked file in a written edition.
fn worked(edition: Edition) -> Vec<u8> {
    let mut desk = desk(214);
    let answers = play(&mut desk, &worked_calls(edition), u64::MAX);
    assert_eq!(answers, [Ok(1), Ok(1), Ok(2), Ok(4), Ok(210)]);
    desk.buffer
}

const WORKED_LINES: &[u8] = b"/ void 0\n/a void 0\n/a/n int 1\n";

#[test]
fn worked_file() {
    for edition in Edition::WRITTEN {
        let file = worked(edition);
        assert_eq!(&file[168..176], b"\xff\xff\xff\xbaa\0n\0");
        assert_eq!(listing(&file, Choice::All), WORKED_LINES);
        assert_eq!(listing(&file, Choice::NotVoid), b"/a/n int 1\n");
    }
}

/// The same calls in edition 3, byte for byte: signature; data, symbol and tree header; header sum; data, strings, entries. The digests were made elsewhere.
#[test]
fn worked_file_of_edition_3() {
    let lines = [
        "4c485043204146462076657273696f6e20332e30 00400235040003fd000000a8",
        "00000000000000a8 0000000000000004 0000000000000001 c799d2af2ba111b3d88bd07b7790b6ce",
        "00000000000000ac 0000000000000004 0000000000000002 dac61008e1e8c808463249bd6671aab3",
        "00000000000000b0 0000000000000026 0000000000000002 a46efcf7f7855e953720f0ef6734db43",
        "922ea0eb0af0c84d078aa9cadd8b8827",
        "ffffffba 61006e00",
        "01 0000000000000000 00000000",
        "03 0000000000000001 00000001 00000001 00000000000000a8",
    ];
    let file = worked(Edition::Three);
    assert_eq!(hex(&file), lines.concat().replace(' ', ""));
    assert_eq!(file.len(), 214);
    assert_eq!(hex(&md5(&file)), "b3ea9a372cc7394dbc2470f7b30eee3c");
}

fn hex(bytes: &[u8]) -> String {
    bytes.iter().map(|byte| format!("{byte:02x}")).collect()
}

/// "`K refused 3 0` for 0 to 214, then `215 opened`."
#[test]
fn cut_drill() {
    for edition in Edition::WRITTEN {
        for total in 0..=215 {
            let mut desk = desk(214);
            play(&mut desk, &worked_calls(edition), total);
            let reported = open(&desk.buffer, &edition.form()).map(|_| ()).err();
            let refused = (total < 215).then_some(Refused::from((3, 0)));
            assert_eq!(reported, refused, "{total}");
        }
    }
}

/// "room 167 is 21, room 168 takes an empty tree; room 213 refuses the put above, 214 takes it".
#[test]
fn buffers() {
    for edition in Edition::WRITTEN {
        let (empty, calls) = ([Call::begin(edition), Call::Close], worked_calls(edition));
        assert_eq!(
            play(&mut desk(167), &empty, 999),
            [Err((21, 0)), Err((24, 0))]
        );
        assert_eq!(play(&mut desk(168), &empty, 999), [Ok(1), Ok(168)]);
        assert_eq!(play(&mut desk(213), &calls, 999)[3], Err((21, 0)));
        assert_eq!(play(&mut desk(214), &calls, 999)[3], Ok(4));
    }
}

/// Begin's refusals: 1, 3, 21, 23, with everything that is passed. Refused by 3 it stores nothing, clears no area and leaves the record all zero.
#[test]
fn begins() {
    let form = Edition::Two.form();
    for edition in [0, 1, 4, 5, 256 + 2, 256 + 3, 1 << 31, u32::MAX] {
        for (buffer, allowance) in [(214, u64::MAX), (168, 0), (167, 9), (0, 0)] {
            let mut desk = dirty(buffer);
            play(&mut desk, &[Call::begin(Edition::Three)], u64::MAX);
            let (text, tree, bytes) = (desk.text.clone(), desk.tree.clone(), desk.buffer.clone());
            let begin = |form: &[u8]| Call::Begin(edition, form.to_vec());
            assert_eq!(desk.call(&begin(&form[..11]), allowance), Err((1, 0)));
            assert_eq!(desk.call(&begin(&form), allowance), Err((3, 0)));
            assert_eq!(desk.numbers(), ([0; 8], [0; 12]));
            assert!(
                (text, tree, bytes) == (desk.text.clone(), desk.tree.clone(), desk.buffer.clone())
            );
            let later = [
                Call::Make(0, b"a".to_vec()),
                Call::Put(0, 2, Vec::new()),
                Call::Close,
            ];
            assert_eq!(play(&mut desk, &later, u64::MAX), [Err((24, 0)); 3]);
        }
    }
    for edition in Edition::WRITTEN {
        let begin = |form: &[u8]| Call::Begin(edition.number() as u32, form.to_vec());
        assert_eq!(dirty(167).call(&begin(&form[..11]), 0), Err((1, 0)));
        assert_eq!(dirty(167).call(&begin(&form), 0), Err((21, 0)));
        assert_eq!(dirty(168).call(&begin(&form), 0), Err((23, 0)));
        let mut desk = dirty(168);
        assert_eq!(desk.call(&begin(&form), 1), Ok(1));
        let numbers = [1, 168, edition.number(), 0, 0, 0, 168, 1];
        assert_eq!(desk.numbers(), (numbers, form));
        assert!(desk.text.iter().chain(&desk.tree).all(|byte| *byte == 0));
    }
}

/// A writer whose buffer and areas hold other bytes than zero.
fn dirty(buffer: usize) -> Writer {
    Writer::passed(vec![7; buffer], vec![8; TEXT_AREA], vec![9; TREE_AREA])
}

/// 24 by the recorded edition: only 2 and 3 pass. What passes is a record of that edition, in the name rule and in what close stores.
#[test]
fn recorded_editions() {
    for begun in Edition::WRITTEN {
        for number in [
            0,
            1,
            4,
            256 + 2,
            1 << 32,
            1 << 32 | 2,
            1 << 32 | 3,
            u64::MAX,
        ] {
            let mut desk = desk(300);
            play(&mut desk, &worked_calls(begun)[..2], u64::MAX);
            desk.call(&Call::Alter(Alteration::Edition(number)), 0)
                .unwrap();
            let before = desk.record;
            let calls = [
                Call::Make(9, Vec::new()),
                Call::Put(9, 0, Vec::new()),
                Call::Close,
            ];
            assert_eq!(play(&mut desk, &calls, u64::MAX), [Err((24, 0)); 3]);
            assert_eq!(desk.record, before);
        }
        for then in Edition::WRITTEN {
            let mut desk = desk(214);
            let calls = worked_calls(begun);
            play(&mut desk, &calls[..2], u64::MAX);
            desk.call(&Call::Alter(Alteration::Edition(then.number())), 0)
                .unwrap();
            let wide = desk.clone().call(&Call::Make(0, b"9".to_vec()), 0);
            let expected = match then {
                Edition::Three => Ok(2),
                _ => Err((14, 0)),
            };
            assert_eq!(wide, expected);
            play(&mut desk, &calls[2..], u64::MAX);
            assert!(desk.buffer == worked(then));
            // Closed: 22 where the edition is a written one, else 24.
            assert_eq!(desk.call(&Call::Close, 0), Err((22, 0)));
            desk.call(&Call::Alter(Alteration::Edition(1)), 0).unwrap();
            assert_eq!(desk.call(&Call::Close, 0), Err((24, 0)));
        }
    }
    assert_eq!(desk(0).record, Record::default());
    assert_eq!(desk(0).call(&Call::Close, 0), Err((24, 0)));
}

/// The calls of request C-22's first example, with the two puts in the other order.
fn double_first(edition: Edition) -> Vec<Call> {
    let mut calls = padded_calls(edition);
    calls.swap(3, 4);
    calls
}

/// The same with a put of no Doubles.
fn no_doubles(edition: Edition) -> Vec<Call> {
    let mut calls = padded_calls(edition);
    calls[4] = Call::Put(2, 4, Vec::new());
    calls
}

/// The first so many calls, all accepted, in a buffer of some length that holds other bytes than zero.
fn begun(buffer: usize, calls: &[Call]) -> Writer {
    let mut desk = dirty(buffer);
    let answers = play(&mut desk, calls, u64::MAX);
    assert!(answers.iter().all(Result::is_ok), "{answers:?}");
    desk
}

/// Kind, count and offset of a node in the tree area.
fn slot(desk: &Writer, node: usize) -> (u8, u64, u64) {
    let place = 25 * (node - 1);
    let slot = &desk.tree[place..place + 25];
    (slot[0], big(slot, 13, 4), big(slot, 17, 8))
}

/// Request C-22's examples: stores, places, size and digest of the whole file. The digests were made elsewhere.
#[test]
fn padded_files() {
    for (edition, padded, first) in [
        (
            Edition::Two,
            "83af5aeaec7934f518ddfbcd2759d236",
            "715e7c4b9b41de6028ce3180af33d8dc",
        ),
        (
            Edition::Three,
            "1005f6ce7bb4470d076dcb00e77eb581",
            "f157ff7b0ec0ee3346739cbbfa4e9e5b",
        ),
    ] {
        let mut desk = dirty(238);
        let answers = play(&mut desk, &padded_calls(edition), 239);
        assert_eq!(answers, [Ok(1), Ok(1), Ok(2), Ok(3), Ok(13), Ok(222)]);
        assert_eq!((slot(&desk, 1), slot(&desk, 2)), ((2, 3, 168), (4, 1, 176)));
        let data = "6162630000000000 3ff0000000000000 61006200";
        assert_eq!(hex(&desk.buffer[168..188]), data.replace(' ', ""));
        assert_eq!((desk.record.end, desk.finished()), (184, 238));
        assert_eq!(hex(&md5(&desk.buffer)), padded);
        let mut desk = dirty(233);
        let answers = play(&mut desk, &double_first(edition), 234);
        assert_eq!(answers, [Ok(1), Ok(1), Ok(2), Ok(8), Ok(3), Ok(222)]);
        assert_eq!((slot(&desk, 1), slot(&desk, 2)), ((2, 3, 176), (4, 1, 168)));
        assert_eq!((desk.record.end, desk.finished()), (179, 233));
        assert_eq!(hex(&md5(&desk.buffer)), first);
        let mut desk = dirty(230);
        let answers = play(&mut desk, &no_doubles(edition), 231);
        assert_eq!(answers, [Ok(1), Ok(1), Ok(2), Ok(3), Ok(5), Ok(222)]);
        assert_eq!((slot(&desk, 2), desk.record.end), ((4, 0, 176), 176));
        assert_eq!(desk.finished(), 230);
        if edition == Edition::Two {
            assert_eq!(hex(&md5(&desk.buffer)), "3f1de327357ae517ffe35c357e6c5f46");
        }
    }
}

/// 21 and 23 of a put count its padding: buffers on both sides, and every allowance that is too small. A cut put has stored its zeros and bytes as far as the
/// allowance goes; its node stays Void, and the record is as before, but stopped.
#[test]
fn padding_in_refusals() {
    for edition in Edition::WRITTEN {
        for (calls, put, size) in [
            (padded_calls(edition), 4, 238),
            (double_first(edition), 4, 233),
            (no_doubles(edition), 4, 230),
        ] {
            let answers = play(&mut dirty(size - 1), &calls, u64::MAX);
            assert_eq!(answers[put], Err((21, 0)));
            assert!(play(&mut dirty(size), &calls, u64::MAX)[put].is_ok());
        }
        for (calls, stored) in [
            (
                padded_calls(edition),
                b"\0\0\0\0\0\x3f\xf0\0\0\0\0\0\0".as_slice(),
            ),
            (no_doubles(edition), &[0; 5]),
        ] {
            for allowance in 0..stored.len() {
                let mut desk = begun(300, &calls[..4]);
                let before = desk.clone();
                let reported = desk.call(&calls[4], allowance as u64);
                assert_eq!(reported, Err((23, allowance as u64)));
                assert_eq!(desk.buffer[..171], before.buffer[..171]);
                assert_eq!(desk.buffer[171..][..allowance], stored[..allowance]);
                assert_eq!(
                    desk.buffer[171 + allowance..],
                    before.buffer[171 + allowance..]
                );
                let stopped = Record {
                    flag: 0,
                    ..before.record
                };
                assert_eq!((desk.record, desk.record.end), (stopped, 171));
                assert!(desk.tree == before.tree && desk.text == before.text);
                assert_eq!(desk.call(&Call::Close, u64::MAX), Err((22, 0)));
            }
            let mut desk = begun(300, &calls[..4]);
            let needed = stored.len() as u64;
            assert_eq!(desk.call(&calls[4], needed), Ok(needed));
        }
    }
}

/// The cut drill of the first example: 239 stores, and every cut before the last is refused by 3.
#[test]
fn padded_cuts() {
    for edition in Edition::WRITTEN {
        for total in 0..=239 {
            let mut desk = dirty(238);
            play(&mut desk, &padded_calls(edition), total);
            let reported = open(&desk.buffer, &edition.form()).map(|_| ()).err();
            let refused = (total < 239).then_some(Refused::from((3, 0)));
            assert_eq!(reported, refused, "{total}");
        }
    }
}

/// Where a Double begins after a put of some bytes, and how many stores it takes. A put of no bytes as the first stores nothing.
#[test]
fn lengths_before_a_double() {
    for edition in Edition::WRITTEN {
        for (first, stores, offset) in [
            (0, 8, 168),
            (1, 15, 176),
            (7, 9, 176),
            (8, 8, 176),
            (9, 15, 184),
            (15, 9, 184),
            (16, 8, 184),
            (17, 15, 192),
        ] {
            let calls = padded_calls(edition);
            let mut desk = begun(300, &calls[..3]);
            let put = Call::Put(1, 2, vec![b'x'; first as usize]);
            assert_eq!(desk.call(&put, first), Ok(first));
            assert_eq!(
                (slot(&desk, 1), desk.record.end),
                ((2, first, 168), 168 + first)
            );
            assert_eq!(desk.call(&calls[4], stores), Ok(stores));
            assert_eq!(
                (slot(&desk, 2), desk.record.end),
                ((4, 1, offset), offset + 8)
            );
        }
    }
}

/// Whether the record passes 24 with another end of data: the same calls on a copy.
fn passes(desk: &Writer, alteration: Alteration) -> bool {
    let mut desk = desk.clone();
    desk.call(&Call::Alter(alteration), 0).unwrap();
    let calls = [
        Call::Make(9, Vec::new()),
        Call::Put(9, 0, Vec::new()),
        Call::Close,
    ];
    let reported = calls.map(|call| desk.clone().call(&call, 0));
    match reported {
        [Err((24, 0)), Err((24, 0)), Err((24, 0))] => false,
        [Err((15, 0)), Err((15, 0)), Err((23, 0))] => true,
        other => panic!("{other:?}"),
    }
}

/// 24 by the recorded end of data and by offsets. What was put begins after the header; an offset need not be a multiple of 8.
#[test]
fn recorded_ends() {
    for edition in Edition::WRITTEN {
        let calls = padded_calls(edition);
        let desk = begun(300, &calls[..2]);
        assert_eq!(desk.record.end, 168);
        // A node and a string of 2 bytes: 300 - 13 - 2 is the highest end.
        for end in [168, 169, 175, 285] {
            assert!(passes(&desk, Alteration::End(end)), "{end}");
        }
        for end in [
            0,
            1,
            160,
            167,
            286,
            300,
            301,
            1 << 32 | 168,
            1 << 63,
            u64::MAX,
        ] {
            assert!(!passes(&desk, Alteration::End(end)), "{end}");
        }
        let desk = begun(300, &calls[..5]);
        // 300 - 50 - 4 is the highest end, 184 the end of the Double.
        for end in [184, 185, 246] {
            assert!(passes(&desk, Alteration::End(end)), "{end}");
        }
        for end in [0, 167, 168, 176, 183, 247, 300, u64::MAX] {
            assert!(!passes(&desk, Alteration::End(end)), "{end}");
        }
        for (node, inside, outside) in [(1, 168..=181, [167, 182]), (2, 168..=176, [167, 177])] {
            let offset = |low: u8| Alteration::Byte(2, 25 * node - 1, low);
            for low in inside {
                assert!(passes(&desk, offset(low)), "{node} {low}");
            }
            for low in outside {
                assert!(!passes(&desk, offset(low)), "{node} {low}");
            }
        }
        // A put of no bytes stands at its offset: an end below it is 24.
        let desk = begun(300, &no_doubles(edition)[..5]);
        assert!(passes(&desk, Alteration::End(176)));
        assert!(!passes(&desk, Alteration::End(175)));
        // An end that no puts leave: the next put begins at the multiple of 8 after it.
        let mut desk = begun(300, &calls[..2]);
        desk.call(&Call::Alter(Alteration::End(177)), 0).unwrap();
        assert_eq!(desk.call(&Call::Put(1, 2, b"x".to_vec()), 8), Ok(8));
        assert_eq!((slot(&desk, 1), desk.record.end), ((2, 1, 184), 185));
    }
}

/// Header, all bytes put, 7 for each put, strings with their zeros and entries: a buffer of that length takes the puts in every order.
#[test]
fn puts_in_every_order() {
    let lengths = [1, 8, 9, 3];
    for edition in Edition::WRITTEN {
        let names = [b"a", b"b", b"c", b"d"];
        let makes = names.map(|name| Call::Make(0, name.to_vec()));
        let size = edition.header() + lengths.iter().map(|n| n + 7 + 2 + 25).sum::<usize>();
        let random = Random::of(34, edition.number());
        let mut ends = Vec::new();
        for _ in 0..60 {
            let mut calls = vec![Call::begin(edition)];
            calls.extend(makes.clone());
            let put = |k: usize| Call::Put(k as u64 + 1, 2, vec![7; lengths[k]]);
            calls.extend(random.permutation(4).into_iter().map(put));
            calls.push(Call::Close);
            let desk = begun(size, &calls);
            assert!(desk.finished() <= size as u64);
            ends.push(desk.record.end);
        }
        // The order decides where the data end.
        let (least, most) = (ends.iter().min().unwrap(), ends.iter().max().unwrap());
        assert_eq!((*least, *most), (201, 208));
    }
}

/// Random runs meet puts with and without padding, of bytes and of none, cut in each way; ends of data altered to every part of the file; offsets that are no
/// multiple of 8, with 24 and without.
#[test]
fn kinds_of_puts() {
    let made = |number: u64| {
        let random = Random::of(33, number);
        let run = random_run(&random);
        let cuts = if run.calls.len() > 100 { 0 } else { 6 };
        let cuts = (0..cuts).map(|_| random.below(60) as u64);
        let totals = cuts.chain([u64::MAX]);
        let met = |total| met(&run, &play(&mut run.desk(), &run.calls, total));
        totals.flat_map(met).collect::<Vec<_>>()
    };
    let counts = counted((0..250).flat_map(made));
    assert_eq!(counts.len(), 4 + 3 + 4 + 2, "{counts:?}");
}

/// A buffer that is filled, with areas of zeros, and calls.
fn run_in(buffer: usize, calls: Vec<Call>) -> Run {
    Run {
        buffer: vec![0x55; buffer],
        text: vec![0; TEXT_AREA],
        tree: vec![0; TREE_AREA],
        calls,
    }
}

/// Request C-23's example in a buffer of some length: `abc` in `a`, then the Double in `b`, and the other order. Allowances are not short.
fn two_orders(edition: Edition, buffer: usize) -> Pair {
    let calls = padded_calls(edition);
    let ample = Allowances::Each(vec![u64::MAX; calls.len()]);
    Pair {
        run: run_in(buffer, calls),
        first: 3,
        allowances: [ample.clone(), ample],
    }
}

/// Both orders, on the model and on the library where it is linked, which must agree.
fn both_played(pair: &Pair) -> [Played; 2] {
    let mut report = Report::default();
    let plays = ORDERS.map(|order| played(pair, order, DESK, &mut report));
    report.end(&[]);
    assert!(report.finish());
    plays
}

/// What C-23 is for two orders, and whether nothing differs.
fn compared(pair: &Pair, plays: &[Played; 2]) -> (Claim, bool) {
    let mut report = Report::default();
    let claim = compare_plays(pair, plays, READERS, &mut report);
    report.end(&[]);
    (claim, report.finish())
}

/// All stores of a run.
fn all_stores(played: &Played) -> u64 {
    let calls = played.calls.iter().zip(&played.answers);
    calls.map(|(call, reported)| stores(call, reported)).sum()
}

/// In 238 bytes both orders are accepted: other stores, offsets and sizes, and the same tree by every reader.
#[test]
fn example_of_two_orders() {
    for edition in Edition::WRITTEN {
        let pair = two_orders(edition, 238);
        let plays = both_played(&pair);
        assert_eq!(compared(&pair, &plays), (Claim::Applies, true));
        let [one, other] = &plays;
        assert_eq!([one, other].map(all_stores), [239, 234]);
        assert_eq!([one.end(4), other.end(4)], [184, 179]);
        let sizes = [one, other].map(Played::size);
        assert_eq!(sizes, [Some(238), Some(233)]);
        assert_ne!(one.buffer, other.buffer);
        for read in READERS {
            let file = |played: &Played| read(&played.buffer, &edition.form()).unwrap();
            let (one, other) = (file(one), file(other));
            assert_eq!(one.offsets, [None, Some(168), Some(176)]);
            assert_eq!(other.offsets, [None, Some(176), Some(168)]);
            assert_eq!(one.tree, other.tree);
            let data = |n: usize| {
                (
                    one.tree.nodes[n].path.clone(),
                    one.tree.nodes[n].bytes.clone(),
                )
            };
            assert_eq!(data(1), (b"/a".to_vec(), b"abc".to_vec()));
            assert_eq!(data(2), (b"/b".to_vec(), 1_f64.to_be_bytes().to_vec()));
        }
        let lines = b"/ void 0\n/a char 3\n/b double 1\n";
        for played in &plays {
            assert_eq!(listing(&played.buffer, Choice::All), lines);
        }
    }
}

/// In 237 bytes the Double is refused by 21 after the Chars, and not before them: why acceptance in both orders is asked.
#[test]
fn example_refused_in_one_order() {
    for edition in Edition::WRITTEN {
        let pair = two_orders(edition, 237);
        let plays = both_played(&pair);
        let reason = Claim::DoesNotApply(21, kinds::of_one_order(true));
        assert_eq!(compared(&pair, &plays), (reason, true));
        let [one, other] = &plays;
        assert_eq!((one.answers[4], one.answers[5]), (Err((21, 0)), Ok(210)));
        assert!(other.answers.iter().all(Result::is_ok));
        let trees = plays.map(|played| read_here(&played.buffer, &edition.form()).unwrap().tree);
        assert_ne!(trees[0], trees[1]);
    }
}

/// Each of these differences between two orders is seen: a node number, the stores of close, an end of data after the two puts, the size, a byte of data, a
/// file that does not open.
#[test]
fn differences_between_orders() {
    let changes: [fn(&mut Played); 7] = [
        |played| played.answers[2] = Ok(3),
        |played| played.answers[5] = Ok(223),
        |played| played.numbers[4][6] = 184,
        |played| played.numbers[4][6] = 176,
        |played| played.numbers[5][6] += 1,
        |played| played.buffer[168] ^= 1,
        |played| played.buffer[0] = 0,
    ];
    for edition in Edition::WRITTEN {
        let pair = two_orders(edition, 238);
        for (number, change) in changes.iter().enumerate() {
            let mut plays = both_played(&pair);
            change(&mut plays[1]);
            let differs = (Claim::Applies, false);
            assert_eq!(compared(&pair, &plays), differs, "change {number}");
        }
    }
}

/// The file that the calls leave in a buffer of some length, by the library's writer where it is linked; all calls are accepted.
fn file_of(edition: Edition, calls: Vec<Call>, buffer: usize) -> (Vec<u8>, File) {
    let run = run_in(buffer, calls);
    let mut desk = DESK.map_or_else(|| Box::new(run.desk()) as Box<dyn Desk>, |new| new(&run));
    let answers = play(desk.as_mut(), &run.calls, u64::MAX);
    assert!(answers.iter().all(Result::is_ok), "{answers:?}");
    let buffer = desk.memory()[0].to_vec();
    let files = READERS.iter().map(|read| read(&buffer, &edition.form()));
    let mut files: Vec<File> = files.map(Result::unwrap).collect();
    assert!(files.iter().all(|file| *file == files[0]));
    (buffer, files.remove(0))
}

/// Three Chars, an Int and a Double in all six orders: three sizes, six files, one tree. The ends of data are by hand.
#[test]
fn three_puts_in_six_orders() {
    let ends = [
        ([0, 1, 2], 192),
        ([0, 2, 1], 188),
        ([1, 0, 2], 192),
        ([1, 2, 0], 187),
        ([2, 0, 1], 188),
        ([2, 1, 0], 187),
    ];
    for edition in Edition::WRITTEN {
        let puts = [
            Call::Put(1, 2, b"abc".to_vec()),
            Call::Put(2, 3, vec![0xff, 0xff, 0xff, 0xba]),
            Call::Put(3, 4, 1_f64.to_be_bytes().to_vec()),
        ];
        let mut files = Vec::new();
        for (order, end) in ends {
            let mut calls = vec![Call::begin(edition)];
            calls.extend([b"a", b"b", b"c"].map(|name| Call::Make(0, name.to_vec())));
            calls.extend(order.map(|put| puts[put].clone()));
            calls.push(Call::Close);
            let (buffer, file) = file_of(edition, calls, 300);
            // Three strings of 2 bytes and three entries of 25.
            assert_eq!(file.size, end + 6 + 75, "{order:?}");
            files.push((buffer[..file.size as usize].to_vec(), file));
        }
        let distinct: BTreeSet<&Vec<u8>> = files.iter().map(|(bytes, _)| bytes).collect();
        assert_eq!(distinct.len(), 6);
        assert!(files.iter().all(|(_, file)| file.tree == files[0].1.tree));
        let data = |node: usize| files[0].1.tree.nodes[node].bytes.as_slice();
        assert_eq!(data(1), b"abc");
        assert_eq!(data(2), b"\xff\xff\xff\xba");
        assert_eq!(data(3), b"\x3f\xf0\0\0\0\0\0\0");
    }
}

/// Random pairs are two lawful orders, and meet every kind: 6 that C-23's claim does not apply to, 13 that it applies to, and 5 of later calls of which
/// nothing is assumed.
#[test]
fn kinds_of_pairs() {
    let mut report = Report::default();
    let made = |number: u64| {
        let pair = random_pair(&Random::of(35, number));
        let [one, other] = pair.nodes();
        assert_ne!(one, other);
        let plays = ORDERS.map(|order| played(&pair, order, None, &mut report));
        assert_eq!(
            plays[0].answers[..pair.first],
            plays[1].answers[..pair.first]
        );
        orders::met(&pair, &plays)
    };
    let counts = counted((0..600).flat_map(made));
    assert_eq!(counts.len(), 6 + 13 + 5, "{counts:?}");
}

/// Three nodes, and Chars of lengths 3, 8 and 5 as a block, beside another order of it. The length of the buffer goes by the calls.
fn block_of_three(edition: Edition, order: [usize; 3], buffer: impl Fn(&[Call]) -> usize) -> Block {
    let mut calls = vec![Call::begin(edition)];
    calls.extend([b"a", b"b", b"c"].map(|name| Call::Make(0, name.to_vec())));
    let puts = [b"abc".as_slice(), b"abcdefgh", b"abcde"];
    let nodes_and_puts = (1..).zip(puts);
    calls.extend(nodes_and_puts.map(|(node, bytes)| Call::Put(node, 2, bytes.to_vec())));
    calls.push(Call::Close);
    Block {
        run: run_in(buffer(&calls), calls),
        first: 4,
        order: order.to_vec(),
        // Strings with their zeros, entries, header.
        close: 6 + 75 + 168,
    }
}

/// Both orders of a block, on the model and on the library where it is linked, which must agree.
fn block_played(block: &Block) -> [Played; 2] {
    let mut report = Report::default();
    let plays = ORDERS.map(|order| any_order::played(block, order, DESK, &mut report));
    report.end(&[]);
    assert!(report.finish());
    plays
}

/// Whether nothing differs from what is claimed of a block.
fn block_compared(block: &Block, plays: &[Played; 2]) -> bool {
    let mut report = Report::default();
    any_order::compare_plays(block, plays, READERS, &mut report);
    report.end(&[]);
    report.finish()
}

/// The six orders of Chars of lengths 3, 8 and 5, with the end of data by hand.
const ORDERS_OF_THREE: [([usize; 3], u64); 6] = [
    ([0, 1, 2], 189),
    ([0, 2, 1], 192),
    ([1, 0, 2], 189),
    ([1, 2, 0], 187),
    ([2, 0, 1], 192),
    ([2, 1, 0], 187),
];

/// In a buffer that is never too small all six orders are accepted, with allowances of 7 more than the bytes. It has 168 bytes, 14 and 1 for each make, and 19 and
/// the data for each put.
#[test]
fn three_puts_in_a_buffer_never_too_small() {
    for edition in Edition::WRITTEN {
        for (order, end) in ORDERS_OF_THREE {
            let block = block_of_three(edition, order, never_too_small);
            assert_eq!(block.run.buffer.len(), 168 + 3 * 15 + (22 + 27 + 24));
            let plays = block_played(&block);
            assert!(block_compared(&block, &plays), "{order:?}");
            assert!(plays[1].answers.iter().all(Result::is_ok), "{order:?}");
            let ends = plays.each_ref().map(|played| played.end(6));
            assert_eq!(ends, [189, end], "{order:?}");
            // Three strings of 2 bytes and three entries of 25.
            assert_eq!(plays[1].size(), Some(end + 6 + 75), "{order:?}");
        }
    }
}

/// In a buffer one byte shorter than the longest of the six files, the two orders with that length are refused by 21 at their last put, and this is seen.
#[test]
fn three_puts_in_a_shorter_buffer() {
    for edition in Edition::WRITTEN {
        for (order, end) in ORDERS_OF_THREE {
            let block = block_of_three(edition, order, |_| 192 + 6 + 75 - 1);
            let plays = block_played(&block);
            let refused = plays[1].answers[6] == Err((21, 0));
            assert_eq!(refused, end == 192, "{order:?}");
            assert_eq!(block_compared(&block, &plays), !refused, "{order:?}");
        }
    }
}

/// Each of these differences between two orders of a block is seen: a node number, a put that is refused, the stores of close, an end of data after the block
/// and after close, a byte of data, a file that does not open.
#[test]
fn differences_between_orders_of_a_block() {
    let changes: [fn(&mut Played); 8] = [
        |played| played.answers[2] = Ok(3),
        |played| played.answers[5] = Err((23, 15)),
        |played| played.answers[7] = Ok(250),
        |played| played.numbers[6][6] = 189,
        |played| played.numbers[6][6] = 184,
        |played| played.numbers[7][6] += 1,
        |played| played.buffer[168] ^= 1,
        |played| played.buffer[0] = 0,
    ];
    for edition in Edition::WRITTEN {
        let block = block_of_three(edition, [1, 2, 0], never_too_small);
        for (number, change) in changes.iter().enumerate() {
            let mut plays = block_played(&block);
            change(&mut plays[1]);
            assert!(!block_compared(&block, &plays), "change {number}");
        }
    }
}

/// Random blocks are in another order, in a buffer of the length said, and meet every kind: 15 where a close is accepted, and 1 where none is.
#[test]
fn kinds_of_blocks() {
    let mut report = Report::default();
    let made = |number: u64| {
        let block = random_block(&Random::of(36, number));
        assert_ne!(block.order, Vec::from_iter(0..block.order.len()));
        assert_eq!(block.run.buffer.len(), never_too_small(&block.run.calls));
        let plays = ORDERS.map(|order| any_order::played(&block, order, None, &mut report));
        any_order::met(&block, &plays)
    };
    let counts = counted((0..600).flat_map(made));
    assert_eq!(counts.len(), 15 + 1, "{counts:?}");
}

/// A call of a run by hand, and whether it is meant to be accepted.
type Meant = (Call, bool);

/// A run of an edition with calls by hand between its begin and its close.
fn planned_run(edition: Edition, calls: &[Meant]) -> Planned {
    let first = (Call::begin(edition), true);
    let last = (Call::Close, true);
    let all = [vec![first], calls.to_vec(), vec![last]].concat();
    let (calls, meant) = all.into_iter().unzip();
    Planned {
        run: run_in(300, calls),
        allowances: Allowances::Total(u64::MAX),
        meant,
    }
}

/// Two runs, on the model and on the library where it is linked, which must agree; and whether nothing differs from what is claimed of them.
fn both_planned(runs: [Planned; 2]) -> ([Played; 2], bool) {
    let meant = runs.each_ref().map(|planned| planned.meant.clone());
    let mut report = Report::default();
    let plays = runs.map(|planned| tree_by_calls::played(planned, DESK, &mut report));
    report.end(&[]);
    assert!(report.finish());
    let mut report = Report::default();
    tree_by_calls::compare_plays(&meant, &plays, READERS, &mut report);
    report.end(&[]);
    (plays, report.finish())
}

/// Makes of `/a`, `/a/b` and `/c`, and puts of three Chars, an Int and a Double there.
fn three_makes() -> [Meant; 3] {
    [(0, b"a"), (1, b"b"), (0, b"c")]
        .map(|(parent, name)| (Call::Make(parent, name.to_vec()), true))
}

fn three_puts() -> [Meant; 3] {
    [
        Call::Put(1, 2, b"abc".to_vec()),
        Call::Put(2, 3, vec![0xff, 0xff, 0xff, 0xba]),
        Call::Put(3, 4, 1_f64.to_be_bytes().to_vec()),
    ]
    .map(|put| (put, true))
}

/// Puts after all makes, and moved among them, with refused calls: one tree in both editions. The places of the data are by hand.
#[test]
fn puts_among_makes() {
    let ([a, b, c], [chars, int, double]) = (three_makes(), three_puts());
    let refused = |(call, _): &Meant| (call.clone(), false);
    let again = refused(&a);
    let second_put = refused(&int);
    let to_root = (Call::Put(0, 2, Vec::new()), false);
    let after = [&a, &b, &c, &chars, &int, &double].map(Clone::clone);
    let moved: [(Vec<&Meant>, [u64; 3]); 4] = [
        (vec![&a, &b, &c, &chars, &int, &double], [168, 176, 184]),
        (vec![&a, &chars, &b, &int, &c, &double], [168, 176, 184]),
        (
            vec![&a, &again, &b, &int, &second_put, &chars, &c, &double],
            [176, 168, 184],
        ),
        (
            vec![&to_root, &a, &b, &int, &c, &double, &chars],
            [184, 168, 176],
        ),
    ];
    for (calls, offsets) in moved {
        for editions in [[0, 0], [0, 1], [1, 0], [1, 1]] {
            let [one, other] = editions.map(|number| Edition::WRITTEN[number]);
            let calls: Vec<Meant> = calls.iter().map(|call| (*call).clone()).collect();
            let runs = [planned_run(one, &after), planned_run(other, &calls)];
            let (plays, same) = both_planned(runs);
            assert!(same, "{calls:?}");
            for read in READERS {
                let file = read(&plays[1].buffer, &other.form()).unwrap();
                let [a, b, c] = offsets;
                assert_eq!(file.offsets, [None, Some(a), Some(b), Some(c)]);
                let node = |n: usize| {
                    (
                        file.tree.nodes[n].path.clone(),
                        file.tree.nodes[n].bytes.clone(),
                    )
                };
                assert_eq!(node(1), (b"/a".to_vec(), b"abc".to_vec()));
                assert_eq!(node(2), (b"/a/b".to_vec(), vec![0xff, 0xff, 0xff, 0xba]));
                assert_eq!(node(3), (b"/c".to_vec(), 1_f64.to_be_bytes().to_vec()));
            }
        }
    }
}

/// What the tree does depend on is seen: makes in another order, a put that is missing, and a put to another node.
#[test]
fn differences_between_trees() {
    let ([a, b, c], [chars, int, double]) = (three_makes(), three_puts());
    let to_other_node = (Call::Put(3, 2, b"abc".to_vec()), true);
    let calls = [&a, &b, &chars, &int, &c].map(Clone::clone);
    let others = [
        [&a, &c, &b, &chars, &int].map(Clone::clone).to_vec(),
        [&a, &b, &chars, &c].map(Clone::clone).to_vec(),
        [&a, &b, &int, &c, &to_other_node]
            .map(Clone::clone)
            .to_vec(),
        [&a, &b, &chars, &int, &c, &double]
            .map(Clone::clone)
            .to_vec(),
    ];
    for edition in Edition::WRITTEN {
        for other in &others {
            let runs = [planned_run(edition, &calls), planned_run(edition, other)];
            let (_, same) = both_planned(runs);
            assert!(!same, "{other:?}");
        }
    }
}

/// Random runs with puts moved meet every kind, and each refusal that does not stop a run.
#[test]
fn kinds_of_moved_puts() {
    let mut report = Report::default();
    let (mut kinds, mut refusals) = (Vec::new(), BTreeSet::new());
    for number in 0..300 {
        let runs = random_runs(&Random::of(37, number));
        let plays = runs.map(|planned| tree_by_calls::played(planned, None, &mut report));
        kinds.extend(tree_by_calls::met(&plays));
        let answers = plays.iter().flat_map(|played| &played.answers);
        refusals.extend(
            answers
                .filter_map(|reported| reported.err())
                .map(|(number, _)| number),
        );
    }
    let counts = counted(kinds.into_iter());
    assert_eq!(counts.len(), 1 + 2 + 2 + 3 + 3, "{counts:?}");
    assert_eq!(Vec::from_iter(refusals), [14, 15, 17, 18, 19, 21, 22]);
}

/// P1 to P10. P3 and P4 are in edition 3, too; P5 is not.
#[test]
fn cases_on_each_side() {
    for edition in Edition::WRITTEN {
        let file = worked(edition);
        let opened = open(&file, &edition.form()).ok().unwrap();
        let passed = passed(&file, &opened);
        let reader = judged(&passed).ok().unwrap();
        assert_eq!(reader.lookup(b"/"), Ok(0));
        for (path, place) in [(b"".as_slice(), 0), (b"//a", 1), (b"/a/", 3)] {
            assert_eq!(reader.lookup(path), Err((14, place)));
            assert_eq!(edition.path_fault(path), Some(place));
        }
        let nine = match edition {
            Edition::Three => (15, 0),
            _ => (14, 1),
        };
        assert_eq!(reader.lookup(b"/9a"), Err(nine));
        assert_eq!(reader.lookup(b"/a/n"), Ok(2));
        assert_eq!(reader.element(2, 0), Ok(Element::Int(-70)));
    }
    for edition in NARROW {
        assert!(edition.is_subkey(b"_") && !edition.is_subkey(b"9a"));
    }
    for name in [b"_".as_slice(), b"9a", b" ", b"\xff"] {
        assert!(Edition::Three.is_subkey(name));
    }
    for name in [b"".as_slice(), b"a/b", b"a\0"] {
        assert!(!Edition::Three.is_subkey(name));
    }
    let int = |bytes: &[u8]| decoded(Kind::Int, bytes);
    assert_eq!(int(b"\xff\xff\xff\xba"), Element::Int(-70));
    assert_eq!(int(b"\x80\0\0\0"), Element::Int(-2_147_483_648));
    assert_eq!(int(b"\x7f\xff\xff\xff"), Element::Int(2_147_483_647));
    assert_eq!((Kind::Void.entry(), Kind::Int.entry()), (13, 25));
}

/// The header of each edition: sizes, the places of the section headers by hand, the 12 bytes.
#[test]
fn headers() {
    let places = |edition: Edition| [SYMBOLS, TREE, DATA].map(|section| edition.place_of(section));
    assert_eq!(places(Edition::One), [32, 64, 96]);
    assert_eq!(places(Edition::Two), [32, 72, 112]);
    assert_eq!(places(Edition::Three), [72, 112, 32]);
    let sums =
        |edition: Edition| [SYMBOLS, TREE, DATA].map(|section| edition.place_of_sum(section));
    assert_eq!(sums(Edition::One), [48, 80, 112]);
    assert_eq!(sums(Edition::Two), [56, 96, 136]);
    assert_eq!(sums(Edition::Three), [96, 136, 56]);
    assert_eq!(Edition::ALL.map(Edition::summed), [128, 152, 152]);
    assert_eq!(Edition::ALL.map(Edition::header), [144, 168, 168]);
    let form = |last: u8| [0, 0x40, 2, 0x35, 4, 0, 3, 0xfd, 0, 0, 0, last];
    assert_eq!(
        Edition::ALL.map(Edition::form),
        [0x90, 0xa8, 0xa8].map(form)
    );
    assert_eq!(
        Edition::ALL.map(|edition| form_for(edition.text())),
        [0x90, 0xa8, 0xa8].map(form)
    );
    assert_eq!(form_for(b"LHPC AFF version 3.1"), form(0xa8));
    assert_eq!(Edition::from_text(b"LHPC AFF version 3."), None);
    let numbers = [0, 1, 2, 3, 4, 1 << 32 | 2];
    let exist = numbers.map(|number| Edition::from_number(number).is_some());
    assert_eq!(exist, [false, true, true, true, false, false]);
    let are_written = numbers.map(|number| Edition::written(number).is_some());
    assert_eq!(are_written, [false, false, true, true, false, false]);
}

/// The verdict on a worked file that was changed: number and place.
fn verdict(file: &[u8]) -> Result<(), Refusal> {
    open(file, &form_for(file))
        .map(|_| ())
        .map_err(without_second)
}

/// Lengths, texts and bytes of the signature in edition 3.
#[test]
fn signature_of_edition_3() {
    let file = worked(Edition::Three);
    assert_eq!(verdict(&file), Ok(()));
    for length in 0..=167 {
        assert_eq!(verdict(&file[..length]), Err((2, 0)), "{length}");
    }
    assert_eq!(verdict(&file[..168]), Err((6, 1)));
    let with = |place: usize, byte: u8| {
        let mut file = file.clone();
        file[place] = byte;
        sum_header(&mut file, Edition::Three);
        verdict(&file)
    };
    for (place, byte) in [
        (19, b'1'),
        (17, b'4'),
        (17, b'0'),
        (18, b','),
        (0, 0),
        (0, b'l'),
    ] {
        assert_eq!(with(place, byte), Err((3, 0)));
    }
    assert_eq!(with(20, b'.'), Err((4, 0)));
    assert_eq!(with(31, 144), Err((4, 0)));
    // Another edition's text: edition 1's form has another header size; edition 2 has its section headers in another order.
    assert_eq!(with(17, b'1'), Err((4, 0)));
    assert_eq!(with(17, b'2'), Err((9, 1)));
    // With a header sum that is wrong, all but 3 and 4 come after it.
    let mut file = file;
    file[152] ^= 1;
    assert_eq!(verdict(&file), Err((5, 0)));
}

/// The worked file with its section headers in the order of the other edition, and right sums.
#[test]
fn order_of_section_headers() {
    for (edition, ranks, expected) in [
        (Edition::Three, [1, 2, 0], (26, 0)),
        (Edition::Two, [2, 0, 1], (9, 1)),
    ] {
        let file = worked(edition);
        let headers: Vec<&[u8]> = ranks
            .iter()
            .map(|rank| &file[SIGNATURE + 40 * rank..][..40])
            .collect();
        let mut moved = [&file[..SIGNATURE], &headers.concat(), &file[152..]].concat();
        sum_header(&mut moved, edition);
        assert_eq!(verdict(&moved), Err(expected));
    }
}

/// 6 and 7 report 1 symbol, 2 tree, 3 data, and the lowest of several, wherever the section headers stand; 26 and 9 by the counts of symbol and tree
/// header; the data header's count is not checked.
#[test]
fn sections_of_each_edition() {
    for edition in Edition::WRITTEN {
        let file = worked(edition);
        let with = |changes: &[(usize, u8)]| {
            let mut file = file.clone();
            for (place, byte) in changes {
                file[*place] = *byte;
            }
            sum_header(&mut file, edition);
            verdict(&file)
        };
        let far = |section: usize| (edition.place_of(section) + 1, 1);
        let wrong = |section: usize| (edition.place_of_sum(section), 0);
        for section in [SYMBOLS, TREE, DATA] {
            let number = section as u64 + 1;
            assert_eq!(with(&[far(section)]), Err((6, number)));
            assert_eq!(with(&[wrong(section)]), Err((7, number)));
            assert_eq!(with(&[far(DATA), far(section)]), Err((6, number)));
            assert_eq!(with(&[wrong(DATA), wrong(section)]), Err((7, number)));
            let count = (edition.place_of(section) + 23, 3);
            let expected = [Err((26, 0)), Err((9, 0)), Ok(())];
            assert_eq!(with(&[count]), expected[section]);
        }
    }
}

/// A file of edition 3 with names that the others do not have, and how the listers print them. The digest was made elsewhere.
#[test]
fn wide_names() {
    let (mut desk, mut narrow) = (desk(253), desk(300));
    let calls = [
        Call::begin(Edition::Three),
        Call::Make(0, b"9a".to_vec()),
        Call::Make(1, b"p x=\xff\\".to_vec()),
        Call::Make(1, b"\n".to_vec()),
        Call::Put(2, 4, 3.5_f64.to_be_bytes().to_vec()),
        Call::Put(3, 2, b"hi".to_vec()),
        Call::Close,
    ];
    let answers = play(&mut desk, &calls, u64::MAX);
    assert_eq!(answers, [Ok(1), Ok(1), Ok(2), Ok(3), Ok(8), Ok(2), Ok(243)]);
    let file = &desk.buffer;
    assert_eq!(hex(&md5(file)), "72c629f0dd1741bd4c8e2cee066c0fc7");
    let lines = r"/ void 0
/9a void 0
/9a/p\x20x=\xff\x5c double 1
/9a/\x0a char 2
";
    assert_eq!(listing(file, Choice::All), lines.as_bytes());
    let short = lines.split_inclusive('\n').skip(2).collect::<String>();
    assert_eq!(listing(file, Choice::NotVoid), short.as_bytes());
    let opened = open(file, &form_for(file)).ok().unwrap();
    let passed = passed(file, &opened);
    let reader = judged(&passed).ok().unwrap();
    // The path has the bytes of the names, not what is printed.
    assert_eq!(reader.path(3), Ok(b"/9a/\n".to_vec()));
    assert_eq!(reader.lookup(b"/9a/\n"), Ok(3));
    assert_eq!(reader.lookup(b"/9a/p x=\xff\\"), Ok(2));
    assert_eq!(reader.lookup(br"/9a/\x0a"), Err((15, 0)));
    assert_eq!(reader.lookup(b"/9a/p x=\xff"), Err((15, 0)));
    for name in [b"9a".as_slice(), b"\n"] {
        let call = Call::Make(0, name.to_vec());
        let answers = play(&mut narrow, &[Call::begin(Edition::Two), call], 9);
        assert_eq!(answers, [Ok(1), Err((14, 0))]);
    }
}

/// Lookup goes by the recorded edition. A file of edition 3 whose record is altered to edition 2 has a node that no lookup finds.
#[test]
fn lookup_by_the_record() {
    for of in Edition::ALL {
        let image = tree(of, &[(0, "a", Kind::Void, 0)]);
        let opened = open(&image, &of.form()).ok().unwrap();
        for edition in 0..=4 {
            let mut passed = passed(&image, &opened);
            passed.record.edition = edition;
            let expected = match edition {
                1..=2 => Err((14, 1)),
                3 => Err((15, 0)),
                _ => Err((24, 0)),
            };
            let reader = judged(&passed).map_err(|number| (number, 0));
            let wide = reader.and_then(|reader| {
                assert_eq!(reader.lookup(b"/a"), Ok(1));
                assert_eq!(reader.lookup(b"/\0"), Err((14, 1)));
                reader.lookup(b"/9")
            });
            assert_eq!(wide, expected);
        }
    }
}

/// How each byte is printed, at the bounds by hand; and that every byte printed is from 33 to 126.
#[test]
fn escapes() {
    for (byte, text) in [
        (1, r"\x01"),
        (9, r"\x09"),
        (10, r"\x0a"),
        (31, r"\x1f"),
        (32, r"\x20"),
        (33, "!"),
        (34, "\""),
        (46, "."),
        (48, "0"),
        (91, "["),
        (92, r"\x5c"),
        (93, "]"),
        (125, "}"),
        (126, "~"),
        (127, r"\x7f"),
        (128, r"\x80"),
        (173, r"\xad"),
        (254, r"\xfe"),
        (255, r"\xff"),
    ] {
        assert_eq!(shown(&[byte]), text.as_bytes());
        let name = [b'a', byte, b'b'];
        let image = nodes_with(Edition::Three, &[&name], &[(0, 0)], false, b"");
        let lines = format!("/ void 0\n/a{text}b void 0\n");
        assert_eq!(listing(&image, Choice::All), lines.as_bytes());
    }
    let mut different: Vec<Vec<u8>> = (0..=255).map(|byte| shown(&[byte])).collect();
    assert!(different
        .iter()
        .flatten()
        .all(|byte| (33..=126).contains(byte)));
    different.sort();
    different.dedup();
    assert_eq!(different.len(), 256);
    assert_eq!(shown(br"/a\x20/ "), br"/a\x5cx20/\x20");
    // The narrow names are printed as they are.
    let narrow: Vec<u8> = (0..=255)
        .filter(|byte| Edition::Two.is_subkey(&[b'a', *byte]))
        .collect();
    assert_eq!(shown(&narrow), narrow);
}

/// What opening answers to an image of two sections: the number of strings, or the refusal. Where there are counts, the symbol header has this one, and
/// the tree header has 0.
fn opened(edition: Edition, symbols: &[u8], count: u64, tree: &[u8]) -> Result<u64, Refusal> {
    let header = vec![0; edition.header()];
    let span = |offset: usize, size: usize| Span {
        offset: offset as u64,
        size: size as u64,
    };
    let mut draft = Draft {
        edition,
        strings: Vec::new(),
        unterminated: false,
        nodes: Vec::new(),
        tail: Vec::new(),
        cut: 0,
        spans: [
            span(header.len(), symbols.len()),
            span(header.len() + symbols.len(), tree.len()),
            Span::default(),
        ],
        bytes: [&header, symbols, tree].concat(),
        records: [count, 0, 0],
    };
    draft.seal();
    let opened = open(&draft.bytes, &edition.form()).map_err(without_second)?;
    Ok(opened.record.strings)
}

/// Number and place of a refusal that has no second number.
fn without_second(refused: Refused) -> Refusal {
    assert_eq!(refused.second, 0);
    (refused.number, refused.place)
}

/// An entry of type 0: 9 at entry 1.
const BAD_TREE: &[u8] = &[0];

/// A symbol section: each string with its zero.
fn section(strings: &[&str]) -> Vec<u8> {
    let ended = |string: &&str| format!("{string}\0").into_bytes();
    strings.iter().flat_map(ended).collect()
}

/// A symbol section of so many different strings, s0, s1 and on, and of others after them.
fn large(count: usize, others: &[&str]) -> Vec<u8> {
    let different: Vec<String> = (0..count).map(|number| format!("s{number}")).collect();
    let different: Vec<&str> = different.iter().map(String::as_str).collect();
    section(&[&different, others].concat())
}

/// How many strings a symbol section has: one for each zero, and one more where the last byte is not zero.
fn strings_in(symbols: &[u8]) -> u64 {
    let zeros = symbols.iter().filter(|byte| **byte == 0).count() as u64;
    zeros + u64::from(!symbols.is_empty() && !symbols.ends_with(&[0]))
}

/// 25 and 27 with their places, in all editions, also before the tree's 9. The count is right.
#[test]
fn strings_too_many_or_repeated() {
    let tables = [
        (section(&[]), Ok(0)),
        (section(&[""]), Ok(1)),
        (section(&["a", "n"]), Ok(2)),
        (section(&["a", "ab", "b", "", "A"]), Ok(5)),
        (section(&["a", "n", "a"]), Err((27, 2))),
        (section(&["a", "n", "x", "x"]), Err((27, 3))),
        (section(&["", "a", ""]), Err((27, 2))),
        (section(&["", ""]), Err((27, 1))),
        (section(&["a", "a", "a"]), Err((27, 1))),
        (section(&["a", "b", "b", "a"]), Err((27, 2))),
        (large(2047, &[]), Ok(2047)),
        (large(2048, &[]), Ok(2048)),
        (large(2049, &[]), Err((25, 2048))),
        (large(3000, &[]), Err((25, 2048))),
        (large(2047, &["s0"]), Err((27, 2047))),
        (large(2047, &["s2046"]), Err((27, 2047))),
        (large(2048, &["s0"]), Err((25, 2048))),
        (large(2047, &["s0", "s1"]), Err((25, 2048))),
        (section(&[""; 2048]), Err((27, 1))),
        (section(&[""; 2049]), Err((25, 2048))),
        (section(&[""; 9000]), Err((25, 2048))),
    ];
    for (symbols, answer) in tables {
        assert_answer(&symbols, strings_in(&symbols), answer);
    }
}

/// What opening answers to a table, in all editions, with the right count, and before the tree's 9.
fn assert_answer(symbols: &[u8], count: u64, answer: Result<u64, Refusal>) {
    for edition in Edition::ALL {
        assert_eq!(opened(edition, symbols, count, b""), answer);
        let with_bad_tree = answer.and(Err((9, 1)));
        assert_eq!(opened(edition, symbols, count, BAD_TREE), with_bad_tree);
    }
}

/// 26 in editions 2 and 3. Edition 1 has no count.
#[test]
fn symbol_counts() {
    let two = section(&["a", "n"]);
    for count in [0, 1, 3, (1 << 32) + 2, u64::MAX] {
        for edition in COUNTED {
            assert_eq!(opened(edition, &two, count, b""), Err((26, 0)));
            assert_eq!(opened(edition, &two, count, BAD_TREE), Err((26, 0)));
        }
        assert_eq!(opened(Edition::One, &two, count, b""), Ok(2));
    }
    for edition in COUNTED {
        assert_eq!(opened(edition, &two, 2, b""), Ok(2));
        assert_eq!(opened(edition, b"", 1, b""), Err((26, 0)));
        assert_eq!(opened(edition, &large(2048, &[]), 2047, b""), Err((26, 0)));
    }
}

/// 25, 26, 27: the first in this order.
#[test]
fn symbol_faults_in_order() {
    let repeated = section(&["a", "n", "a"]);
    let many = [section(&["a", "a"]), large(2047, &[])].concat();
    for edition in Edition::ALL {
        for count in [0, 2, 3, 2049] {
            let wrong = edition.has_counts() && count != 3;
            let expected = if wrong { (26, 0) } else { (27, 2) };
            assert_eq!(opened(edition, &repeated, count, BAD_TREE), Err(expected));
        }
        for count in [0, 2048, 2049] {
            assert_eq!(opened(edition, &many, count, BAD_TREE), Err((25, 2048)));
        }
    }
}

/// A table without its last zero (C-13): the bytes after the last zero are one more string, which 25, 26 and 27 count and compare. The number of
/// strings is written by hand.
#[test]
fn last_string_not_ended() {
    let joined = |front: Vec<u8>, last: &str| [front.as_slice(), last.as_bytes()].concat();
    let tables = [
        (b"a".to_vec(), 1, Ok(1)),
        (b"\xff".to_vec(), 1, Ok(1)),
        (b"a\0n".to_vec(), 2, Ok(2)),
        (b"a\0n\0".to_vec(), 2, Ok(2)),
        (b"a\0\0".to_vec(), 2, Ok(2)),
        (b"\0a".to_vec(), 2, Ok(2)),
        (b"a\0\0n".to_vec(), 3, Ok(3)),
        (b"a\0aa".to_vec(), 2, Ok(2)),
        (b"aa\0a".to_vec(), 2, Ok(2)),
        (b"a\0n\0a".to_vec(), 3, Err((27, 2))),
        (b"a\0a".to_vec(), 2, Err((27, 1))),
        (b"a\0a\0a".to_vec(), 3, Err((27, 1))),
        (b"a\0b\0b\0a".to_vec(), 4, Err((27, 2))),
        (b"\0\0a".to_vec(), 3, Err((27, 1))),
        (joined(large(2047, &[]), "s2047"), 2048, Ok(2048)),
        (joined(large(2047, &[]), "s0"), 2048, Err((27, 2047))),
        (joined(large(2048, &[]), "s2048"), 2049, Err((25, 2048))),
        (joined(large(2048, &[]), "s0"), 2049, Err((25, 2048))),
        (joined(large(2999, &[]), "s2999"), 3000, Err((25, 2048))),
        (joined(vec![0; 2047], "a"), 2048, Err((27, 1))),
        (joined(vec![0; 2048], "a"), 2049, Err((25, 2048))),
    ];
    for (symbols, count, answer) in tables {
        assert_answer(&symbols, count, answer);
        let many = count > 2048;
        for wrong in [count - 1, count + 1] {
            let expected = if many { (25, 2048) } else { (26, 0) };
            for edition in COUNTED {
                let refused = opened(edition, &symbols, wrong, BAD_TREE);
                assert_eq!(refused, Err(expected));
            }
            assert_eq!(opened(Edition::One, &symbols, wrong, b""), answer);
        }
    }
}

/// Document 01's worked file without the zero of its last string: 213 bytes, and the same listings. What is after the symbol section, or before it,
/// belongs to no name.
#[test]
fn worked_file_not_ended() {
    let keys = [(0, "a", Kind::Void, 0), (1, "n", Kind::Int, 1)];
    let lines = b"/ void 0\n/a void 0\n/a/n int 1\n";
    for edition in Edition::ALL {
        let mut draft = draft_of(edition, &keys);
        draft.unterminated = true;
        lay_out(&mut draft, [DATA, SYMBOLS, TREE], 4, b"");
        assert_eq!(draft.bytes.len(), edition.header() + 45);
        let image = draft.finish();
        assert_eq!(listing(&image, Choice::All), lines);
        assert_eq!(listing(&image, Choice::NotVoid), b"/a/n int 1\n");
        for after in [b"".as_slice(), b"b", b"\0", b"n\0", b"/x", b"\xff"] {
            let mut draft = draft_of(edition, &keys);
            draft.unterminated = true;
            lay_out(&mut draft, [DATA, TREE, SYMBOLS], 4, after);
            assert_eq!(listing(&draft.finish(), Choice::All), lines);
        }
    }
}

/// An image of Void nodes, each a parent and a string number. Its symbol table is last, with or without its last zero, and before some bytes.
fn nodes_with(
    edition: Edition,
    strings: &[&[u8]],
    of: &[(u64, u32)],
    unterminated: bool,
    after: &[u8],
) -> Vec<u8> {
    let mut draft = draft_of(edition, &[]);
    draft.strings = strings.iter().map(|string| string.to_vec()).collect();
    draft.unterminated = unterminated;
    let node = |(parent, string): &(u64, u32)| Node {
        code: Kind::Void.code(),
        parent: *parent,
        string: *string,
        count: 0,
        offset: 0,
    };
    draft.nodes = of.iter().map(node).collect();
    draft.records = [strings.len() as u64, of.len() as u64, 0];
    lay_out(&mut draft, [DATA, TREE, SYMBOLS], 0, after);
    draft.finish()
}

/// The number of strings, or the refusal, of such an image, in some editions alike.
fn opened_nodes(
    editions: &[Edition],
    strings: &[&[u8]],
    of: &[(u64, u32)],
    unterminated: bool,
    after: &[u8],
) -> Result<u64, Refused> {
    alike(editions, |edition| {
        let image = nodes_with(edition, strings, of, unterminated, after);
        open(&image, &edition.form()).map(|opened| opened.record.strings)
    })
}

/// What is the same in some editions.
fn alike<T: PartialEq + std::fmt::Debug>(editions: &[Edition], of: impl Fn(Edition) -> T) -> T {
    let first = of(editions[0]);
    for edition in &editions[1..] {
        assert_eq!(of(*edition), first, "{edition:?}");
    }
    first
}

/// 10 with its node and its second number.
fn ten<T>(place: u64, second: u64) -> Result<T, Refused> {
    Err(Refused {
        number: 10,
        place,
        second,
    })
}

/// 10 and 12 of a last string that has no zero, with bytes after the section that would make another name.
#[test]
fn names_not_ended() {
    let opened_in = |editions: &[Edition], strings: &[&[u8]], of: &[(u64, u32)], after: &[u8]| {
        opened_nodes(editions, strings, of, true, after)
    };
    let chain = [(0, 0), (1, 1)];
    let siblings = [(0, 0), (0, 1)];
    for after in [b"".as_slice(), b"b\0", b"\0", b"/", b"9"] {
        let all =
            |strings: &[&[u8]], of: &[(u64, u32)]| opened_in(&Edition::ALL, strings, of, after);
        assert_eq!(all(&[b"a", b"n"], &chain), Ok(2));
        assert_eq!(all(&[b"ab", b"a"], &siblings), Ok(2));
        let narrow = [
            (b"9".as_slice(), 0),
            (b"a ", 1),
            (b"a@", 1),
            (b"\xff", 0),
            (b"momentum:1 ", 10),
        ];
        let in_all = [(b"a/".as_slice(), 1), (b"/", 0), (b"a/ ", 1)];
        for (name, place) in narrow.into_iter().chain(in_all) {
            let strings = [b"a".as_slice(), name];
            for parent in [1, 9] {
                let nodes = [(0, 0), (parent, 1)];
                assert_eq!(opened_in(&NARROW, &strings, &nodes, after), ten(2, place));
            }
            assert_eq!(all(&strings, &[(0, 0)]), Ok(2));
        }
        for (name, _) in narrow {
            let strings = [b"a".as_slice(), name];
            assert_eq!(opened_in(&[Edition::Three], &strings, &chain, after), Ok(2));
            let orphan = opened_in(&[Edition::Three], &strings, &[(0, 0), (9, 1)], after);
            assert_eq!(orphan, ten(2, 0));
        }
        for (name, place) in in_all {
            assert_eq!(all(&[b"a", name], &chain), ten(2, place));
        }
        assert_eq!(
            all(&[b"a", b"n"], &[(0, 1), (0, 1)]),
            Err(Refused::from((12, 2)))
        );
        assert_eq!(all(&[b"a", b"n"], &[(0, 2)]), ten(1, 0));
    }
}

/// Names and paths of each byte. The bytes are written by hand.
#[test]
fn every_byte() {
    const FIRST: &[u8] = b"ABCDEFGHIJKLMNOPQRSTUVWXYZabcdefghijklmnopqrstuvwxyz_:";
    const DIGITS: &[u8] = b"0123456789.-";
    for byte in 0..=255 {
        let root = byte == b'/';
        let wide = ![0, b'/'].contains(&byte);
        let first = FIRST.contains(&byte);
        let later = first || DIGITS.contains(&byte);
        for (edition, first, later) in [
            (Edition::One, first, later),
            (Edition::Two, first, later),
            (Edition::Three, wide, wide),
        ] {
            let (name, path) = (
                |name: &[u8]| edition.subkey_fault(name),
                |path: &[u8]| edition.path_fault(path),
            );
            assert_eq!(name(&[byte]), (!first).then_some(0), "{byte}");
            let place = if first { 1 } else { 0 };
            assert_eq!(name(&[byte, b'/']), Some(place), "{byte}");
            assert_eq!(name(&[byte, 0]), Some(place), "{byte}");
            assert_eq!(name(&[b'a', byte]), (!later).then_some(1));
            let place = if later { 2 } else { 1 };
            assert_eq!(name(&[b'a', byte, 0]), Some(place), "{byte}");
            assert_eq!(path(&[byte]), (!root).then_some(0), "{byte}");
            assert_eq!(path(&[b'/', byte]), (!first).then_some(1), "{byte}");
            let place = if root { 3 } else { 2 };
            let fault = (!later).then_some(place);
            assert_eq!(path(&[b'/', b'a', byte]), fault, "{byte}");
        }
        let place = if first { 1 } else { 0 };
        assert_eq!(Edition::Two.subkey_fault(&[byte, b' ']), Some(place));
    }
}

/// C-18's places in a path, by hand: in editions 1 and 2.
const MALFORMED: [(&[u8], u64); 34] = [
    (b"", 0),
    (b"a", 0),
    (b"a/", 0),
    (b"a b", 0),
    (b" /a", 0),
    (b"9", 0),
    (b"\0", 0),
    (b"\xff", 0),
    (b"//", 1),
    (b"//a", 1),
    (b"///", 1),
    (b"/a/", 3),
    (b"/a//", 3),
    (b"/a//n", 3),
    (b"/a/n/", 5),
    (b"/a/n//", 5),
    (b"/9a", 1),
    (b"/9", 1),
    (b"/.", 1),
    (b"/-a", 1),
    (b"/ ", 1),
    (b"/a ", 2),
    (b"/a b/9", 2),
    (b"/a/9", 3),
    (b"/a/n b", 4),
    (b"/\0", 1),
    (b"/a\0", 2),
    (b"/a\0/n", 2),
    (b"/a/\0", 3),
    (b"/\xff", 1),
    (b"/a\xff", 2),
    (b"/a/n\xff", 4),
    (b"/a/n/\xff\0", 5),
    (b"/momentum,1/x", 9),
];

/// Those of edition 3.
const MALFORMED_WIDE: [(&[u8], u64); 24] = [
    (b"", 0),
    (b"a", 0),
    (b"a/", 0),
    (b" /a", 0),
    (b"9", 0),
    (b"\0", 0),
    (b"\xff", 0),
    (b"//", 1),
    (b"//a", 1),
    (b"///", 1),
    (b"/a/", 3),
    (b"/a//", 3),
    (b"/a//n", 3),
    (b"/a/n/", 5),
    (b"/a/n//", 5),
    (b"/ //", 3),
    (b"/\xff\n/", 4),
    (b"/\0", 1),
    (b"/a\0", 2),
    (b"/a\0/n", 2),
    (b"/a/\0", 3),
    (b"/9 \\\0", 4),
    (b"/../.\0//", 5),
    (b"/momentum,1/x\0", 13),
];

#[test]
fn places_in_a_path() {
    let keys = [(0, "a", Kind::Void, 0), (1, "n", Kind::Int, 1)];
    for edition in Edition::ALL {
        let image = tree(edition, &keys);
        let opened = open(&image, &edition.form()).ok().unwrap();
        let passed = passed(&image, &opened);
        let reader = judged(&passed).ok().unwrap();
        let (malformed, other) = match edition {
            Edition::One | Edition::Two => (MALFORMED.as_slice(), MALFORMED_WIDE.as_slice()),
            Edition::Three => (MALFORMED_WIDE.as_slice(), MALFORMED.as_slice()),
        };
        for (path, place) in malformed {
            assert_eq!(reader.lookup(path), Err((14, *place)), "{path:?}");
        }
        for (path, _) in other {
            // What is malformed in edition 3 is in the others, too; the other way, an absent path.
            let place = edition.path_fault(path);
            assert!(place.is_some() || edition == Edition::Three);
            let refused = place.map_or((15, 0), |place| (14, place));
            assert_eq!(reader.lookup(path), Err(refused), "{path:?}");
        }
        for (path, place) in long_malformed(edition) {
            assert_eq!(reader.lookup(&path), Err((14, place)));
        }
        assert_eq!(reader.lookup(b"/"), Ok(0));
        assert_eq!(reader.lookup(b"/a"), Ok(1));
        assert_eq!(reader.lookup(b"/a/n"), Ok(2));
        for path in ["/n", "/A", "/a/n/x", "/_", "/:.-_9", "/a/n/momentum.1"] {
            let path = path.as_bytes();
            assert_eq!(reader.lookup(path), Err((15, 0)), "{path:?}");
        }
    }
    let absent = [
        "/ ",
        "/a ",
        "/9",
        "/.",
        "/..",
        "/\n",
        "/\\",
        "/a/n b",
        "/momentum,1/x",
    ];
    for path in absent {
        assert_eq!(Edition::Three.path_fault(path.as_bytes()), None, "{path}");
    }
}

/// Paths of 65,536 bytes, one subkey or 32,768, with a fault in their last byte; and an empty subkey after it.
fn long_malformed(edition: Edition) -> Vec<(Vec<u8>, u64)> {
    let bytes = match edition {
        Edition::One | Edition::Two => [0, b' ', 255].as_slice(),
        Edition::Three => &[0],
    };
    let one = [b"/".to_vec(), vec![b'k'; 65_535]].concat();
    let many = b"/k".repeat(32_768);
    let mut found = Vec::new();
    for path in [one, many] {
        for byte in bytes {
            let mut bad = path.clone();
            bad[65_535] = *byte;
            found.push((bad, 65_535));
        }
        found.push(([path, b"/".to_vec()].concat(), 65_537));
    }
    let mut slash = b"/k".repeat(32_767);
    slash.extend(b"k/");
    found.push((slash, 65_536));
    found
}

/// C-18's places in a name that make refuses: they are reported, and nothing else changes. 15 comes before 14, and 14 before 20 and 21.
#[test]
fn places_in_a_name() {
    let mut long = vec![b'k'; 40_000];
    long[39_999] = b'/';
    let in_both: [(&[u8], u64); 9] = [
        (b"", 0),
        (b"a/b", 1),
        (b"/", 0),
        (b"/a", 0),
        (b"\0", 0),
        (b"a\0", 1),
        (b"ab\0c d", 2),
        (b"a/\0", 1),
        (&long, 39_999),
    ];
    let narrow: [(&[u8], u64); 10] = [
        (b"9a", 0),
        (b"9", 0),
        (b"a b", 1),
        (b" ", 0),
        (b"momentum,1", 8),
        (b"\xff", 0),
        (b"a\xff", 1),
        (b"a\xe9", 1),
        (b"-a", 0),
        (b"a.b-c_d:e;", 9),
    ];
    // Malformed in both editions, but at another place.
    let wide: [(&[u8], u64); 3] = [(b"9 \0", 2), (b"\xff\n/", 2), (b". ./.", 3)];
    for (edition, more) in [
        (Edition::Two, narrow.as_slice()),
        (Edition::Three, wide.as_slice()),
    ] {
        let mut desk = desk(190);
        play(&mut desk, &worked_calls(edition)[..2], u64::MAX);
        for (name, place) in in_both.iter().chain(more) {
            for parent in [0, 1] {
                let before = desk.clone();
                let call = Call::Make(parent, name.to_vec());
                assert_eq!(desk.call(&call, 0), Err((14, *place)), "{name:?}");
                assert_eq!(desk.numbers().0[0], *place);
                desk.last = before.last;
                assert!(desk == before);
            }
            let call = Call::Make(2, name.to_vec());
            assert_eq!(desk.call(&call, 0), Err((15, 0)));
        }
    }
    for (name, _) in narrow {
        let mut desk = desk(300);
        play(&mut desk, &worked_calls(Edition::Three)[..2], u64::MAX);
        assert_eq!(desk.call(&Call::Make(1, name.to_vec()), 0), Ok(2));
        assert_eq!(desk.call(&Call::Make(1, name.to_vec()), 0), Err((17, 0)));
        assert_eq!(
            desk.call(&Call::Close, u64::MAX),
            Ok(168 + 26 + 3 + name.len() as u64)
        );
        let path = [b"/a/", name].concat();
        let opened = open(&desk.buffer, &form_for(&desk.buffer)).ok().unwrap();
        let passed = passed(&desk.buffer, &opened);
        assert_eq!(judged(&passed).ok().unwrap().lookup(&path), Ok(2));
    }
}

/// C-18's second number of 10, by hand: names with the place, and a parent that exists or not.
#[test]
fn second_number() {
    let long = [vec![b'k'; 70_000], b" ".to_vec()].concat();
    let long_wide = [vec![1; 70_000], b"/ ".to_vec()].concat();
    let narrow: [(&[u8], u64); 10] = [
        (b"a b", 1),
        (b"9a", 0),
        (b"momentum,1", 8),
        (b"ab\xff", 2),
        (b"\xff", 0),
        (b"a b c", 1),
        (b"a ,", 1),
        (b"9 a", 0),
        (b"abc ", 3),
        (&long, 70_000),
    ];
    let in_all: [(&[u8], u64); 4] = [(b"", 0), (b"a/b", 1), (b"/", 0), (b"ab//", 2)];
    let wide: [(&[u8], u64); 4] = [
        (b" /", 1),
        (b"9a/b", 2),
        (b"\xff\n/ ", 2),
        (&long_wide, 70_000),
    ];
    for (name, place) in narrow {
        second_number_of(&NARROW, name, place);
        let strings = [b"a".as_slice(), name];
        let wide = opened_nodes(&[Edition::Three], &strings, &[(0, 0), (0, 1)], false, b"");
        assert_eq!(wide, Ok(2));
        let orphan = opened_nodes(&[Edition::Three], &strings, &[(0, 0), (9, 1)], false, b"");
        assert_eq!(orphan, ten(2, 0));
    }
    for (name, place) in in_all {
        second_number_of(&Edition::ALL, name, place);
    }
    for (name, place) in wide {
        second_number_of(&[Edition::Three], name, place);
    }
    let two = [b"a".as_slice(), b"a b", b"abc,"];
    let opened =
        |strings: &[&[u8]], of: &[(u64, u32)]| opened_nodes(&NARROW, strings, of, false, b"");
    assert_eq!(opened(&two, &[(0, 2), (0, 1)]), ten(1, 3));
    assert_eq!(opened(&two, &[(0, 1), (0, 2)]), ten(1, 1));
    // 11, 12 and 13 come later; 9 and 27 before.
    assert_eq!(opened(&two, &[(1, 0), (0, 1)]), ten(2, 1));
    let twice = [b"a/b".as_slice(), b"a/b"];
    let refused = opened_nodes(&Edition::ALL, &twice, &[(0, 1)], false, b"");
    assert_eq!(refused, Err(Refused::from((27, 1))));
}

/// A name of a node that is malformed at a place in some editions.
fn second_number_of(editions: &[Edition], name: &[u8], place: u64) {
    for unterminated in [false, true] {
        let strings = [b"a".as_slice(), name];
        let opened = |of: &[(u64, u32)]| opened_nodes(editions, &strings, of, unterminated, b"x\0");
        assert_eq!(opened(&[(0, 0), (0, 1)]), ten(2, place));
        assert_eq!(opened(&[(0, 0), (2, 1)]), ten(2, place));
        for parent in [3, 9, 1 << 32, u64::MAX] {
            assert_eq!(opened(&[(0, 0), (parent, 1)]), ten(2, place));
            // The parent alone is wrong; the number of the string, alone or with the parent.
            assert_eq!(opened(&[(0, 0), (parent, 0)]), ten(2, 0));
            assert_eq!(opened(&[(0, 0), (parent, 2)]), ten(2, 0));
            // A higher node with a place of its own.
            assert_eq!(opened(&[(parent, 0), (0, 1)]), ten(1, 0));
            assert_eq!(opened(&[(parent, 9), (0, 1)]), ten(1, 0));
            assert_eq!(opened(&[(parent, 1), (0, 2)]), ten(1, place));
        }
        assert_eq!(opened(&[(0, 0), (0, 2)]), ten(2, 0));
        assert_eq!(opened(&[(0, 0), (0, u32::MAX)]), ten(2, 0));
        assert_eq!(opened(&[(0, 0)]), Ok(2));
    }
}

/// "the lister's refusal line stays as it is".
#[test]
fn lister_has_one_place() {
    for edition in Edition::ALL {
        let image = nodes_with(edition, &[b"a", b"ab/c"], &[(0, 0), (9, 1)], false, b"");
        for choice in [Choice::All, Choice::NotVoid] {
            assert_eq!(listing(&image, choice), b"refused 10 2\n");
        }
    }
}

/// How often each kind was met; each must be met more than once.
fn counted<K: Ord + std::fmt::Debug>(met: impl Iterator<Item = K>) -> BTreeMap<K, usize> {
    let mut counts = BTreeMap::new();
    met.for_each(|kind| *counts.entry(kind).or_insert(0) += 1);
    assert!(counts.values().all(|count| *count > 1), "{counts:?}");
    counts
}

/// Images made for 10 get it with both their places. A name has 5 faults or none, a parent exists or not; two kinds of several nodes. All in each edition.
#[test]
fn kinds_of_nodes() {
    let mut report = Report::default();
    let made = |number: u64| {
        let image = numbers(&Random::of(30, number));
        assert_eq!(judge(30, number, &image, &mut report), 10);
        let edition = Edition::from_text(&image.bytes).unwrap();
        let nodes = bad_nodes(&image.bytes);
        let kinds = [Some(kinds::of_node(&nodes[0])), kinds::of_several(&nodes)];
        kinds.map(|kind| kind.map(|kind| (edition, kind)))
    };
    let counts = counted((0..1800).flat_map(made).flatten());
    assert!(report.finish());
    assert_eq!(counts.len(), 3 * (11 + 2), "{counts:?}");
}

/// No first slash, of an empty path and of another; 4 faults of a subkey at 4 depths, but no first subkey that is empty at the path's end: that is `/`. All
/// in each edition.
#[test]
fn kinds_of_paths() {
    let random = Random::of(31, 0);
    let some: [&[u8]; 5] = [b"/", b"/a", b"/a/n", b"/momentum.1/x-9/_", b"/9 a/.\\"];
    for edition in Edition::ALL {
        let sound: Vec<&[u8]> = some
            .into_iter()
            .filter(|path| edition.path_fault(path).is_none())
            .collect();
        let made = |number: usize| {
            let path = sound[number % sound.len()];
            let made = [
                paths::malformed(&random, edition, path),
                paths::near(&random, path),
            ];
            made.map(|path| Some(kinds::of_path(&path, edition.path_fault(&path)?)))
        };
        let counts = counted((0..15_000).flat_map(made).flatten());
        assert_eq!(counts.len(), 2 + 15, "{counts:?}");
    }
    let sound = |edition: Edition| {
        let mut sound = paths::PATHS.to_vec();
        sound.retain(|path| edition.path_fault(path).is_none());
        sound
    };
    for edition in NARROW {
        assert_eq!(sound(edition), [b"/".as_slice(), b"/a"]);
    }
    let wide = [
        b"/".as_slice(),
        b"/9",
        b"/9a",
        b"/-a",
        b"/.",
        b"/ ",
        b"/ a",
        b"/\xff",
        b"/a",
        b"/a b/9",
        b"/a/n\xff",
        b"/momentum,1/x",
        b"/..",
        b"/../9 /~",
        b"/\n",
        b"/\\",
        b"/\\x20",
        b"/\x01",
    ];
    assert_eq!(sound(Edition::Three), wide);
}

/// No byte; 5 bytes and others at the first place, 4 and others at the last and between. In edition 3 only a slash and the byte 0.
#[test]
fn kinds_of_names() {
    let random = Random::of(32, 0);
    for (edition, kinds) in [
        (Edition::Two, 1 + 6 + 5 + 5),
        (Edition::Three, 1 + 2 + 2 + 2),
    ] {
        let made = |_| {
            let name = bad_name(&random, edition);
            kinds::of_name(&name, edition.subkey_fault(&name).unwrap())
        };
        let counts = counted((0..3000).map(made));
        assert_eq!(counts.len(), kinds, "{counts:?}");
    }
}

/// 24 by where a string begins, and names that end at a zero or at the section's end. The image is the worked file, whose symbol section is `a`,
/// zero, `n`, zero from 172 on; the recorded section and the place of string 1 are altered.
#[test]
fn strings_in_altered_memory() {
    for edition in Edition::WRITTEN {
        strings_in_altered(&worked(edition));
    }
}

fn strings_in_altered(file: &[u8]) {
    let opened = open(file, &form_for(file)).ok().unwrap();
    let name = |image: &[u8], span: (u64, u64), place: u32| {
        let mut strings = opened.strings.clone();
        strings[1] = place;
        let mut record = opened.record;
        (record.symbols.offset, record.symbols.size) = span;
        let passed = Passed {
            image,
            record,
            strings: &strings,
            entries: &opened.entries,
        };
        judged(&passed).and_then(|reader| Ok(String::from_utf8_lossy(reader.name(2)?).into_owned()))
    };
    let right = |name: &str| Ok(name.to_string());
    let image = file;
    assert_eq!(name(image, (172, 4), 174), right("n"));
    // The section ends before the zero, before `n`, or is empty.
    assert_eq!(name(image, (172, 3), 174), right("n"));
    assert_eq!(name(image, (172, 2), 174), Err(24));
    assert_eq!(name(image, (172, 2), 173), right(""));
    assert_eq!(name(image, (172, 2), 172), right("a"));
    assert_eq!(name(image, (172, 1), 172), right("a"));
    assert_eq!(name(image, (172, 0), 172), Err(24));
    // One before the start, the last zero, the end, one after it.
    assert_eq!(name(image, (172, 4), 171), Err(24));
    assert_eq!(name(image, (172, 4), 175), right(""));
    assert_eq!(name(image, (172, 4), 176), Err(24));
    assert_eq!(name(image, (172, 4), 177), Err(24));
    assert_eq!(name(image, (173, 3), 174), Err(24));
    // No zero in the section from there on: other bytes in place of both zeros, and letters after the section.
    let mut image = file.to_vec();
    image[173] = b'b';
    image[175] = b'c';
    assert_eq!(name(&image, (172, 4), 172), right("abnc"));
    assert_eq!(name(&image, (172, 4), 174), right("nc"));
    assert_eq!(name(&image, (172, 4), 175), right("c"));
    assert_eq!(name(&image, (172, 4), 176), Err(24));
    assert_eq!(name(&image, (172, 3), 174), right("n"));
}

/// A node of a tree: its parent, name, kind and count.
type Key<'a> = (u64, &'a str, Kind, u32);

/// The image of a tree; all nodes have their data at the start of the data section.
fn tree(edition: Edition, keys: &[Key]) -> Vec<u8> {
    let mut draft = draft_of(edition, keys);
    lay_out(&mut draft, [DATA, SYMBOLS, TREE], 64, b"");
    draft.finish()
}

/// The tables of a tree, not yet placed; all nodes have their data at the end of the header.
fn draft_of(edition: Edition, keys: &[Key]) -> Draft {
    let mut strings: Vec<Vec<u8>> = keys.iter().map(|key| key.1.into()).collect();
    strings.sort();
    strings.dedup();
    let node = |key: &Key| Node {
        code: key.2.code(),
        parent: key.0,
        string: strings
            .iter()
            .position(|name| *name == key.1.as_bytes())
            .unwrap() as u32,
        count: key.3,
        offset: edition.header() as u64,
    };
    let nodes: Vec<Node> = keys.iter().map(node).collect();
    Draft {
        edition,
        records: [strings.len() as u64, nodes.len() as u64, 0],
        strings,
        unterminated: false,
        nodes,
        tail: Vec::new(),
        cut: 0,
        bytes: Vec::new(),
        spans: [Span::default(); 3],
    }
}

/// Places the sections one after another from the header on, and some bytes after them.
fn lay_out(draft: &mut Draft, order: [usize; 3], data: usize, after: &[u8]) {
    let mut sizes = [0; 3];
    sizes[SYMBOLS] = draft.symbols().len();
    sizes[TREE] = draft.tree().len();
    sizes[DATA] = data;
    let mut at = draft.edition.header();
    for section in order {
        draft.spans[section] = Span {
            offset: at as u64,
            size: sizes[section] as u64,
        };
        at += sizes[section];
    }
    draft.bytes = vec![0; at];
    draft.bytes.extend(after);
}

/// What `list` and `listall` print of a tree, in all editions alike.
fn listings(keys: &[Key]) -> (String, String) {
    alike(&Edition::ALL, |edition| listings_in(edition, keys))
}

fn listings_in(edition: Edition, keys: &[Key]) -> (String, String) {
    let image = tree(edition, keys);
    let text = |choice| String::from_utf8(listing(&image, choice)).unwrap();
    (text(Choice::NotVoid), text(Choice::All))
}

/// A chain of nodes of one name, Void but for the last.
fn chain(nodes: usize, name: &str, last: Kind) -> Vec<Key<'_>> {
    let void = (0..nodes as u64 - 1).map(|parent| (parent, name, Kind::Void, 0));
    void.chain([(nodes as u64 - 1, name, last, u32::from(last != Kind::Void))])
        .collect()
}

/// "`list` leaves out Void nodes, mostly folders, but still descends"; the order is by parents and numbers, not by numbers alone.
#[test]
fn void_nodes_left_out() {
    let keys = [
        (5, "x", Kind::Int, 1),
        (1, "v", Kind::Void, 0),
        (2, "d", Kind::Double, 2),
        (0, "e", Kind::Char, 4),
        (6, "f", Kind::Void, 0),
        (0, "g", Kind::Void, 0),
        (6, "y", Kind::Complex, 1),
    ];
    let short = "/e char 4\n/g/f/x int 1\n/g/f/x/v/d double 2\n/g/y complex 1\n";
    let full = "/ void 0\n/e char 4\n/g void 0\n/g/f void 0\n/g/f/x int 1\n/g/f/x/v void 0\n/g/f/x/v/d double 2\n/g/y complex 1\n";
    assert_eq!(listings(&keys), (short.into(), full.into()));
}

/// Nothing is printed, and that is no refusal.
#[test]
fn all_void() {
    assert_eq!(listings(&[]), ("".into(), "/ void 0\n".into()));
    let keys = [(0, "a", Kind::Void, 0), (1, "b", Kind::Void, 0)];
    let full = "/ void 0\n/a void 0\n/a/b void 0\n";
    assert_eq!(listings(&keys), ("".into(), full.into()));
}

/// A node of count 0 that has a type is not Void.
#[test]
fn no_element() {
    let keys = [
        (0, "c", Kind::Char, 0),
        (0, "i", Kind::Int, 0),
        (0, "d", Kind::Double, 0),
        (0, "z", Kind::Complex, 0),
    ];
    let short = "/c char 0\n/i int 0\n/d double 0\n/z complex 0\n";
    assert_eq!(
        listings(&keys),
        (short.into(), format!("/ void 0\n{short}"))
    );
}

/// "21 looks only at the nodes listed": a path of 65,536 bytes is listed, one of 65,537 is not, unless its node is Void.
#[test]
fn long_paths() {
    let (name, longer) = ("s".repeat(8191), "t".repeat(8192));
    let refused = || "refused 21 0\n".to_string();
    for last in [Kind::Void, Kind::Int] {
        let listed = usize::from(last != Kind::Void);
        let mut keys = chain(8, &name, last);
        let (short, full) = listings(&keys);
        let counts = (short.lines().count(), full.lines().count());
        assert_eq!(counts, (listed, 9));
        assert!(full.lines().last().unwrap().find(' ') == Some(LISTED) && full.ends_with(&short));
        keys[7].1 = &longer;
        let short = if listed == 0 {
            String::new()
        } else {
            refused()
        };
        assert_eq!(listings(&keys), (short, refused()));
    }
    let mut beside = chain(8, &name, Kind::Void);
    beside[7].1 = &longer;
    beside.push((0, "n", Kind::Int, 1));
    assert_eq!(listings(&beside), ("/n int 1\n".into(), refused()));
}

/// The limit of 65,536 bytes counts the path itself: in edition 3 such a path lists also where each byte of its names is printed as four.
#[test]
fn long_wide_paths() {
    let (name, longer) = ("\x01".repeat(8191), "\x01".repeat(8192));
    let mut keys = chain(8, &name, Kind::Int);
    let (short, full) = listings_in(Edition::Three, &keys);
    let path = format!("/{}", r"\x01".repeat(8191)).repeat(8);
    assert_eq!(path.len(), 8 + 4 * (LISTED - 8));
    assert_eq!(short, format!("{path} int 1\n"));
    assert!(full.ends_with(&short) && full.lines().count() == 9);
    keys[7].1 = &longer;
    let refused = || "refused 21 0\n".to_string();
    assert_eq!(listings_in(Edition::Three, &keys), (refused(), refused()));
    keys[7].2 = Kind::Void;
    keys[7].3 = 0;
    assert_eq!(
        listings_in(Edition::Three, &keys),
        (String::new(), refused())
    );
}

/// `refused N P` and `too long` are the same for both programs.
#[test]
fn refusals_of_both() {
    for choice in [Choice::All, Choice::NotVoid] {
        assert_eq!(listing(b"", choice), b"refused 2 0\n");
        assert_eq!(listing(&[0; LISTED], choice), b"refused 3 0\n");
        assert_eq!(listing(&[0; LISTED + 1], choice), b"too long\n");
    }
}

/// The order into areas: as many places as there are nodes listed, and one fewer; what is after them stays.
#[test]
fn places_for_an_order() {
    let keys = [
        (2, "n", Kind::Int, 1),
        (0, "a", Kind::Void, 0),
        (0, "b", Kind::Char, 0),
    ];
    let image = tree(Edition::Two, &keys);
    let opened = open(&image, &Edition::Two.form()).ok().unwrap();
    let passed = passed(&image, &opened);
    let reader = judged(&passed).ok().unwrap();
    for (choice, order) in [
        (Choice::All, vec![0, 2, 1, 3]),
        (Choice::NotVoid, vec![1, 3]),
    ] {
        for places in 0..6 {
            let mut area = vec![9; places];
            let fits = order.len() <= places;
            let answer = if fits {
                Ok(order.len() as u64)
            } else {
                Err(21)
            };
            assert_eq!(reader.order_into(choice, &mut area), answer);
            let written = if fits { order.as_slice() } else { &[] };
            assert_eq!(area, [written, &vec![9; places - written.len()]].concat());
        }
    }
}

/// Every image that is made for a verdict gets it, and each verdict from 2 to 13 and from 25 to 27 is met in every edition that has it, but 8, which is
/// withdrawn. A table without its last zero is met with each verdict that depends on the strings.
#[test]
fn aims() {
    let mut report = Report::default();
    let mut met = BTreeMap::new();
    let mut unterminated = BTreeMap::new();
    for number in 0..4000 {
        let image = image(20, number);
        let verdict = judge(20, number, &image, &mut report);
        let edition = Edition::from_text(&image.bytes);
        *met.entry((edition, verdict)).or_insert(0) += 1;
        if last_byte(&image.bytes).is_some_and(|byte| byte != 0) {
            *unterminated.entry((edition, verdict)).or_insert(0) += 1;
        }
    }
    assert!(report.finish());
    for edition in Edition::ALL.map(Some) {
        let is_counted = edition.is_some_and(Edition::has_counts);
        for verdict in [0, 2, 4, 5, 6, 7, 9, 10, 11, 12, 13, 25, 26, 27] {
            let count = met.get(&(edition, verdict)).copied().unwrap_or(0);
            let expected = verdict != 26 || is_counted;
            assert_eq!(count > 2, expected, "{edition:?} {verdict}: {count}");
        }
        for verdict in [0, 10, 12, 25, 26, 27] {
            let count = unterminated.get(&(edition, verdict)).copied().unwrap_or(0);
            let expected = verdict != 26 || is_counted;
            assert_eq!(count > 2, expected, "{edition:?} {verdict}: {count}");
        }
    }
    assert!(met.get(&(None, 3)).is_some_and(|count| *count > 2));
    assert!(met.keys().all(|(_, verdict)| *verdict != 8));
}

/// Lawful images of edition 3 have names with each of these, and paths that the listers print in another way.
#[test]
fn wide_images() {
    let mut seen = vec![0; 256];
    let mut special: BTreeMap<Vec<u8>, usize> = BTreeMap::new();
    let mut escaped = 0;
    for number in 0..800 {
        let image = image(21, number).bytes;
        let Ok(opened) = open(&image, &form_for(&image)) else {
            continue;
        };
        let passed = passed(&image, &opened);
        let reader = judged(&passed).ok().unwrap();
        let wide = opened.record.edition == 3;
        for node in 1..=reader.nodes() {
            let name = reader.name(node).unwrap();
            assert!(wide || NARROW[0].is_subkey(name));
            escaped += usize::from(shown(name) != name);
            name.iter().for_each(|byte| seen[usize::from(*byte)] += 1);
            *special.entry(name.to_vec()).or_insert(0) += 1;
        }
    }
    let never: Vec<usize> = (0..256).filter(|byte| seen[*byte] == 0).collect();
    assert_eq!(never, [0, 47]);
    for name in WIDE_NAMES {
        assert!(special.contains_key(name), "{name:?}");
    }
    assert!(escaped > 1000, "{escaped}");
}

/// The sample of the gate has images of each edition, accepted and refused, and names of edition 3 that are printed in another way.
#[test]
fn sample_of_all_editions() {
    let sample = cases::sample(4000, 300).unwrap();
    let mut met = BTreeMap::new();
    let mut at = 0;
    while at < sample.input.len() {
        let size = big(&sample.input, at, 4) as usize;
        let image = &sample.input[at + 4..][..size];
        let accepted = open(image, &form_for(image)).is_ok();
        *met.entry((Edition::from_text(image), accepted))
            .or_insert(0) += 1;
        at += 4 + size;
    }
    assert_eq!(met.values().sum::<usize>(), 300);
    for edition in Edition::ALL {
        for accepted in [false, true] {
            let count = met.get(&(Some(edition), accepted)).copied().unwrap_or(0);
            assert!(count > 20, "{met:?}");
        }
    }
    let output = String::from_utf8(sample.output).unwrap();
    assert!(output.lines().filter(|line| line.contains(r"\x")).count() > 100);
}

/// Opens an image and compares the verdict with what its maker knows; the number.
fn judge(seed: u64, number: u64, image: &Image, report: &mut Report) -> usize {
    let reported = open(&image.bytes, &form_for(&image.bytes));
    report.begin(seed, number, image);
    report.opened(image, &reported);
    report.end(&image.bytes);
    reported.err().map_or(0, |refused| refused.number as usize)
}

/// The last byte of an image's symbol section, if the header names one inside the image.
fn last_byte(image: &[u8]) -> Option<u8> {
    let edition = Edition::from_text(image)?;
    let place = edition.place_of(SYMBOLS);
    let header = image.get(place..place + 16)?;
    let end = big(header, 0, 8).checked_add(big(header, 8, 8))?;
    let last = end.checked_sub(u64::from(big(header, 8, 8) > 0))?;
    (last < end).then(|| image.get(last as usize).copied())?
}
