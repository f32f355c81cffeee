#!/usr/bin/env python3
"""Makes the images of the test program test_open: lawful odd files, and damaged ones on both sides of each boundary.

It shares no code with the library: it is written from source document 003, for edition 3 source document 000, document 01 and requests C-11, C-13,
C-15, C-18 and C-22, and what each image must be answered with is said here by hand. It writes crates/test_open/stdin (each
image after its length in 4 bytes), crates/test_open/stdout and tests/test_open.txt. A refusal has three numbers there: its number, its place, and the second
number, which is the place in a node's name for 10 and 0 for the others.

    tests/make_images.py [FOLDER]      FOLDER: where these are written, the repository where none is given
"""
import argparse
import hashlib
import itertools
import os
import re
import struct

ROOT = os.path.dirname(os.path.dirname(os.path.abspath(__file__)))
VOID, CHAR, INT, DOUBLE, COMPLEX = 1, 2, 3, 4, 5
EDITIONS = (1, 2, 3)
COUNTED = (2, 3)  # those whose section headers have a record count
WRITTEN = (2, 3)  # those that our writer writes
TEXT = {1: b"LHPC AFF version 1.0", 2: b"LHPC AFF version 2.0", 3: b"LHPC AFF version 3.0"}
HEADER = {1: 144, 2: 168, 3: 168}
FORM = bytes([0, 64, 2, 53, 4, 0, 3, 253])
# The order of the section headers: document 01's, and for edition 3 that of table 2 of source document 000.
HEADERS = {1: ("symbol", "tree", "data"), 2: ("symbol", "tree", "data"), 3: ("data", "symbol", "tree")}
NARROW = re.compile(rb"[A-Za-z_:][A-Za-z0-9.\-_:]*")
SUBKEY = {1: NARROW, 2: NARROW, 3: re.compile(rb"[^/\0]+")}
# Every byte that a name of edition 3 may have.
WIDE = bytes(x for x in range(256) if x not in b"\0/")
LETTERS = b"ABCDEFGHIJKLMNOPQRSTUVWXYZabcdefghijklmnopqrstuvwxyz"
# More than 3,000 names of two bytes.
MANY = [bytes(pair) for pair in itertools.product(LETTERS, LETTERS + b"0123456789")]


def destination(doc):
    """The folder that a script writes to: its one argument, or the repository."""
    parser = argparse.ArgumentParser(description=doc, formatter_class=argparse.RawDescriptionHelpFormatter)
    parser.add_argument("folder", metavar="FOLDER", nargs="?", default=ROOT)
    return parser.parse_args().folder


def md5(b):
    return hashlib.md5(b).digest()


def form(ed):
    return FORM + struct.pack(">I", HEADER[ed])


def entry(kind, parent, string, count=0, offset=0):
    b = struct.pack(">BQI", kind, parent, string)
    return b if kind == VOID else b + struct.pack(">IQ", count, offset)


def aligned_data(ed, parts):
    """The data section that our writer makes of the data of its puts, in their order, and the offset of each (request C-22): each begins at a multiple of 8,
    counted from the start of the file, with zero bytes up to there. Nothing is padded after the last."""
    file, offsets = bytearray(HEADER[ed]), []
    for part in parts:
        while len(file) % 8:
            file.append(0)
        offsets.append(len(file))
        file += part
    return bytes(file[HEADER[ed]:]), offsets


def strings_of(table):
    """The strings of a symbol table (request C-13): each ends at its zero; bytes after the last zero are one more string."""
    parts = table.split(b"\0")
    return parts if parts[-1] else parts[:-1]


def fault(ed, name):
    """The place of the first byte of a name that breaks the edition's rule for a subkey; 0 for an empty name; None where the name is a subkey."""
    front = SUBKEY[ed].match(name)
    length = front.end() if front else 0
    return None if name and length == len(name) else length


class Image:
    """A file in parts. Each field that is None is worked out when the bytes are asked for. Where `ended` is false, the last string
    has no zero. `order` is how the sections follow each other, `headers` how their headers do."""

    def __init__(self, ed, strings=(b"a", b"n"), data=b"\xff\xff\xff\xba", entries=None, tail=b"", ended=True, order=("data", "symbol", "tree")):
        self.ed = ed
        self.text = TEXT[ed]
        self.form = form(ed)
        self.data = data
        self.symbols = b"".join(s + b"\0" for s in strings)
        if not ended:
            self.symbols = self.symbols[:-1]
        self.order = order
        self.headers = HEADERS[ed]
        self.nstrings = len(strings)
        self.tail = tail
        if entries is None:
            entries = [entry(VOID, 0, 0), entry(INT, 1, 1, 1, HEADER[ed])]
        self.tree = b"".join(entries)
        self.nnodes = len(entries)
        self.gap = b""
        self.at = {}      # section -> (offset, size), where not the usual
        self.count = {}   # section -> record count
        self.sums = {}    # section -> sum
        self.sum = None

    def bytes(self):
        h = HEADER[self.ed]
        parts = {"data": self.data, "symbol": self.symbols, "tree": self.tree}
        body, usual = b"", {}
        for s in self.order:
            usual[s] = (h + len(body), len(parts[s]))
            body += parts[s] + (self.gap if s != self.order[-1] else self.tail)
        at = {s: self.at.get(s, usual[s]) for s in usual}
        count = {"symbol": self.nstrings, "tree": self.nnodes, "data": 1}
        count.update(self.count)

        def header(image):
            out = self.text + self.form
            for s in self.headers:
                o, n = at[s]
                out += struct.pack(">QQ", o, n)
                if self.ed in COUNTED:
                    out += struct.pack(">Q", count[s])
                out += self.sums.get(s, md5(image[o:o + n] if o <= len(image) else b""))
            return out + (self.sum if self.sum is not None else md5(out))

        image = bytes(h) + body
        # a section that covers header bytes is summed as the file finally is; two turns settle those that cover no sum
        for _ in range(3):
            image = header(image) + body
        self.where = at
        return image


CASES = []


def case(name, image, expect):
    CASES.append((name, image.bytes() if isinstance(image, Image) else image, expect, image))


def opened(image, strings=None):
    """Opened; with so many strings, where that is said by hand."""
    return ("opened", image, strings)


def refused(n, p=0, second=0):
    return ("refused", n, p, second)


def malformed(ed, node, name, place):
    """10 at a node whose name is malformed: the second number is the place in the name, written by hand."""
    assert place is not None and fault(ed, name) == place, (ed, name, place)
    return refused(10, node, place)


def changed(ed, **kw):
    i = Image(ed, **{k: kw.pop(k) for k in ("strings", "data", "entries", "tail", "ended", "order") if k in kw})
    for k, v in kw.items():
        setattr(i, k, v)
    return i


def node_file(ed, nodes, strings=None, data=b"\xff\xff\xff\xba", ended=True):
    return Image(ed, strings=strings or [b"a", b"b", b"c", b"d", b"e"], entries=nodes, data=data, ended=ended)


def lawful():
    for ed in EDITIONS:
        h = HEADER[ed]
        i = Image(ed)
        case(f"edition {ed}: document 01's worked file", i, opened(i))
        i = node_file(ed, [entry(VOID, 2, 0), entry(VOID, 0, 1)])
        case(f"edition {ed}: a parent above its child", i, opened(i))
        i = changed(ed, at={"data": (h, 8)})
        case(f"edition {ed}: data section over the symbol table", i, opened(i))
        i = changed(ed, at={"data": (0, 20)}, entries=[entry(CHAR, 0, 0, 20, 0), entry(VOID, 0, 1)])
        case(f"edition {ed}: data section in the header", i, opened(i))
        i = changed(ed, gap=b"gap")
        case(f"edition {ed}: gaps between the sections", i, opened(i))
        i = node_file(ed, [entry(INT, 0, 0, 1, h), entry(CHAR, 0, 1, 4, h), entry(CHAR, 0, 2, 2, h + 1)])
        case(f"edition {ed}: shared data", i, opened(i))
        i = changed(ed, strings=[b"a", b"n", b"", b"9/ is no subkey"])
        case(f"edition {ed}: unused strings, the empty one and no subkey among them", i, opened(i))
        i = changed(ed, tail=b"\0" * 5)
        case(f"edition {ed}: bytes of no section at the end", i, opened(i))
        i = changed(ed, strings=[], entries=[], data=b"")
        case(f"edition {ed}: nothing but a header", i, opened(i))
        i = changed(ed, strings=[], entries=[], data=b"")
        i.at = {s: (h, 0) for s in ("symbol", "tree", "data")}
        case(f"edition {ed}: empty sections at the image's end", i, opened(i))
        i = node_file(ed, [entry(VOID, 0, 0), entry(VOID, 0, 1), entry(VOID, 1, 1), entry(VOID, 2, 1)], [b"a", b"A"])
        case(f"edition {ed}: names that differ in case, and again under other parents", i, opened(i))
        names = [b"_", b":", b"Z", b"z.-_:9", b"a-b.c"]
        i = node_file(ed, [entry(VOID, 0, k) for k in range(5)], names)
        case(f"edition {ed}: every kind of subkey byte", i, opened(i))
    for ed, n in itertools.product(COUNTED, (0, 1, 2**64 - 1)):
        i = changed(ed, count={"data": n})
        i.records = n
        case(f"edition {ed}: a data record count of {n}", i, opened(i))


def header_faults():
    full = {ed: Image(ed).bytes() for ed in EDITIONS}
    for n in (0, 19, 20, 31, 143):
        case(f"cut to {n} bytes", full[2][:n], refused(2))
    case("143 bytes of edition 1", full[1][:143], refused(2))
    case("144 bytes of edition 1", full[1][:144], refused(6, 1))
    for ed in COUNTED:
        for n in (143, 144, 145, 167):
            case(f"{n} bytes of edition {ed}'s text", full[ed][:n], refused(2))
        case(f"168 bytes of edition {ed}", full[ed][:168], refused(6, 1))
    case("144 bytes of no text", b"\0" + full[2][1:144], refused(3))
    for ed in EDITIONS:
        h = HEADER[ed]
        for at in (0, 9, 19):
            b = bytearray(full[ed])
            b[at] ^= 1
            case(f"edition {ed}: byte {at} of the text wrong", bytes(b), refused(3))
        for at in (20, 21, 27, 31):
            i = Image(ed)
            f = bytearray(i.form)
            f[at - 20] ^= 1
            i.form = bytes(f)
            case(f"edition {ed}: byte {at} of the form wrong, sums right", i, refused(4))
        for at in (32, h - 17, h - 16, h - 1):
            b = bytearray(full[ed])
            b[at] ^= 1
            case(f"edition {ed}: header byte {at} wrong", bytes(b), refused(5))
        b = bytearray(full[ed])
        b[h - 16:h] = md5(b"\0" + bytes(b[1:h - 16]))
        case(f"edition {ed}: the header summed with zero at place 0", bytes(b), refused(5))
        b = bytearray(full[ed])
        b[h - 16:h] = md5(bytes(b[1:h - 16]))
        case(f"edition {ed}: the header summed without its first byte", bytes(b), refused(5))
    for ed in COUNTED:
        i = Image(ed)
        i.form = form(1)
        case(f"edition {ed}: the form of edition 1", i, refused(4))


def section_faults():
    for ed in EDITIONS:
        n = len(Image(ed).bytes())
        for k, s in enumerate(("symbol", "tree", "data")):
            for o, z, what in (
                (n, 1, "one byte from the image's end on"),
                (n + 1, 0, "empty, one past the image's end"),
                (n - 1, 2, "ends one past the image"),
                (2**64 - 4, 8, "offset plus size wraps to 4"),
                (2**64 - 1, 1, "offset plus size is 2 to the 64"),
                (1, 2**64 - 1, "size plus offset is 2 to the 64"),
                (2**32, 0, "offset of 2 to the 32, empty"),
            ):
                case(f"edition {ed}: {s} section {what}", changed(ed, at={s: (o, z)}), refused(6, k + 1))
            case(f"edition {ed}: sum of the {s} section wrong", changed(ed, sums={s: bytes(16)}), refused(7, k + 1))
        bad = {"symbol": (n, 1), "tree": (n, 1)}
        case(f"edition {ed}: symbol and tree past the image", changed(ed, at=bad), refused(6, 1))
        i = changed(ed, at={"data": (n, 1)}, sums={"symbol": bytes(16)})
        case(f"edition {ed}: data past the image before a wrong sum", i, refused(6, 3))
        i = changed(ed, sums={"tree": bytes(16), "data": bytes(16)})
        case(f"edition {ed}: two sums wrong", i, refused(7, 2))


def symbol_faults():
    one = [entry(VOID, 0, 0)]
    for ed in EDITIONS:
        for names, place in (
            ([b"a", b"n", b"a"], 2),
            ([b"a", b"n", b"x", b"x"], 3),
            ([b"", b"a", b""], 2),
            ([b"a", b"a"], 1),
            ([b"a", b"a", b"a"], 1),
            ([b"", b""], 1),
            ([b"a", b"n", b"a", b"n", b"a"], 2),
            ([b"a", b"b", b"b", b"a"], 2),
        ):
            case(f"edition {ed}: strings {names}", changed(ed, strings=names), refused(27, place))
        i = changed(ed, strings=[b"a", b"n", b"aa", b"an", b"A"])
        case(f"edition {ed}: strings that begin alike or differ in case", i, opened(i))
        i = Image(ed, strings=MANY[:2048], entries=one)
        case(f"edition {ed}: 2,048 strings", i, opened(i))
        case(f"edition {ed}: 2,049 strings", Image(ed, strings=MANY[:2049], entries=one), refused(25, 2048))
        case(f"edition {ed}: 3,000 strings", Image(ed, strings=MANY[:3000], entries=one), refused(25, 2048))
        i = Image(ed, strings=[b""], entries=[], data=b"")
        case(f"edition {ed}: the empty string alone", i, opened(i))
        case(f"edition {ed}: 2,048 empty strings", Image(ed, strings=[b""] * 2048, entries=[], data=b""), refused(27, 1))
        case(f"edition {ed}: 2,049 empty strings", Image(ed, strings=[b""] * 2049, entries=[], data=b""), refused(25, 2048))
        i = Image(ed, strings=MANY[:2047] + MANY[:1], entries=one)
        case(f"edition {ed}: string 2,047 equals string 0", i, refused(27, 2047))
        i = Image(ed, strings=MANY[:2048] + MANY[:1], entries=one)
        case(f"edition {ed}: string 2,048 equals string 0", i, refused(25, 2048))
    for ed in COUNTED:
        for n in (0, 1, 3, 2**32 + 2, 2**64 - 1):
            case(f"edition {ed}: a string count of {n} for 2", changed(ed, count={"symbol": n}), refused(26))
        i = Image(ed, strings=MANY[:2048], entries=one)
        i.count = {"symbol": 2047}
        case(f"edition {ed}: a string count of 2,047 for 2,048", i, refused(26))
        case(f"edition {ed}: a string count of 1 for none", changed(ed, strings=[], entries=[], data=b"", count={"symbol": 1}), refused(26))


def symbol_faults_together():
    """Two faults or more, of which the first in the order 7, 25, 26, 27, 9 is reported."""
    many = MANY[:1] * 2 + MANY[2:2049]
    twice = [b"a", b"n", b"a"]
    one = [entry(VOID, 0, 0)]
    for ed in EDITIONS:
        i = Image(ed, strings=many, entries=one)
        i.count = {"symbol": 2}
        case(f"edition {ed}: 2,049 strings, the first two equal, the count wrong", i, refused(25, 2048))
        i = changed(ed, strings=twice, count={"symbol": 2})
        case(f"edition {ed}: the count wrong and strings {twice}", i, refused(26) if ed in COUNTED else refused(27, 2))
        i = changed(ed, strings=twice)
        i.tree = i.tree[:-1]
        case(f"edition {ed}: strings {twice} and a tree table cut short", i, refused(27, 2))
        i = changed(ed, strings=twice, count={"tree": 3})
        case(f"edition {ed}: strings {twice} and a node count of 3 for 2", i, refused(27, 2))
        i = Image(ed, strings=twice, entries=[entry(VOID, 9, 0)])
        case(f"edition {ed}: strings {twice} and a node whose parent does not exist", i, refused(27, 2))
        i = Image(ed, strings=many, entries=one, ended=False)
        case(f"edition {ed}: 2,049 strings, the first two equal, the last without its zero", i, refused(25, 2048))
        i = Image(ed, strings=MANY[:3000], entries=one, ended=False)
        case(f"edition {ed}: 3,000 strings, the last without its zero", i, refused(25, 2048))
        i = changed(ed, strings=twice, count={"symbol": 9}, ended=False)
        case(f"edition {ed}: strings {twice}, the count wrong, the last without its zero", i, refused(26) if ed in COUNTED else refused(27, 2))
        i = changed(ed, strings=twice, sums={"data": bytes(16)})
        case(f"edition {ed}: strings {twice} and the data's sum wrong", i, refused(7, 3))


def unterminated():
    """The last string has no zero (request C-13). What is after the section is no part of it."""
    one = [entry(VOID, 0, 0)]
    last = [entry(VOID, 0, 0), entry(VOID, 1, 1)]
    for ed in EDITIONS:
        i = changed(ed, ended=False)
        case(f"edition {ed}: the worked file, its last string without a zero", i, opened(i, 2))
        for table, n in (
            (b"a", 1), (b"\xff", 1), (b"a\0n", 2), (b"\0a", 2), (b"a\0\0n", 3), (b"a\0\0", 2), (b"aa\0a", 2), (b"a\0aa", 2), (b"a\0A", 2), (b"\0\1", 2),
        ):
            i = changed(ed, strings=[], entries=[], data=b"", symbols=table, nstrings=n)
            case(f"edition {ed}: the symbol table {table!r}, no node", i, opened(i, n))
        i = Image(ed, strings=[b"a"], entries=one, ended=False)
        case(f"edition {ed}: one string of one byte, without a zero, and a node with it", i, opened(i, 1))
        i = Image(ed, strings=MANY[:2048], entries=one, ended=False)
        case(f"edition {ed}: 2,048 strings, the last without its zero", i, opened(i, 2048))
        i = Image(ed, strings=MANY[:2049], entries=one, ended=False)
        case(f"edition {ed}: 2,049 strings, the last without its zero", i, refused(25, 2048))
        for names, place in (
            ([b"a", b"n", b"a"], 2),
            ([b"a", b"a"], 1),
            ([b"a", b"n", b"n"], 2),
            ([b"a", b"b", b"b", b"a"], 2),
            ([b"", b"", b"a"], 1),
            ([b"eightlet", b"eightlet"], 1),
        ):
            case(f"edition {ed}: strings {names}, the last without its zero", changed(ed, strings=names, ended=False), refused(27, place))
        i = Image(ed, strings=[b""] * 2047 + [b"a"], entries=[], data=b"", ended=False)
        case(f"edition {ed}: 2,047 empty strings and one without a zero", i, refused(27, 1))
        i = Image(ed, strings=[b""] * 2048 + [b"a"], entries=[], data=b"", ended=False)
        case(f"edition {ed}: 2,048 empty strings and one without a zero", i, refused(25, 2048))
        i = Image(ed, strings=MANY[:2047] + MANY[:1], entries=one, ended=False)
        case(f"edition {ed}: string 2,047 equals string 0 and has no zero", i, refused(27, 2047))
        i = Image(ed, strings=MANY[:2048] + MANY[:1], entries=one, ended=False)
        case(f"edition {ed}: string 2,048 equals string 0 and has no zero", i, refused(25, 2048))
        i = changed(ed, ended=False)
        i.tree = i.tree[:-1]
        case(f"edition {ed}: no last zero, and a tree table cut short", i, refused(9, 2))
        # What is directly after the section, in the data section or in the tree table, would make another name or an equal one.
        for names, nodes, after in (
            ([b"a", b"n"], last, b"bc"),
            ([b"a", b"n"], last, b"/x\0"),
            ([b"a", b"n"], last, b"\xff\0"),
            ([b"a", b"n"], last, b"\0"),
            ([b"an", b"a"], last, b"n\0"),
            ([b"n", b"a"], last, b"\0n"),
            ([b"an", b"a"], [entry(VOID, 0, 0), entry(VOID, 0, 1)], b"n\0"),
            ([b"eightletters", b"eightlet"], [entry(VOID, 0, 0), entry(VOID, 0, 1)], b"ters\0"),
        ):
            i = Image(ed, strings=names, entries=nodes, data=after, ended=False, order=("symbol", "data", "tree"))
            case(f"edition {ed}: strings {names}, no last zero, then the data {after!r}", i, opened(i, 2))
        i = changed(ed, ended=False, order=("data", "tree", "symbol"))
        case(f"edition {ed}: no last zero, the symbol table at the image's end", i, opened(i, 2))
        # A string that is no subkey: 10 where a node has it. The last byte of the section is a byte of the name. Places as in NAMES, below.
        for name, narrow, wide in (
            (b"9a", 0, None), (b"a b", 1, None), (b"a/", 1, 1), (b"/", 0, 0), (b"a@", 1, None), (b"@", 0, None), (b"a\xff", 1, None), (b"momentum:1,", 10, None),
        ):
            place = wide if ed == 3 else narrow
            i = node_file(ed, last, [b"a", name], ended=False)
            case(f"edition {ed}: the name {name!r} without a zero", i, opened(i, 2) if place is None else malformed(ed, 2, name, place))
            i = node_file(ed, [entry(VOID, 0, 0), entry(VOID, 9, 1)], [b"a", name], ended=False)
            expect = refused(10, 2) if place is None else malformed(ed, 2, name, place)
            case(f"edition {ed}: the name {name!r} without a zero, parent 9 of 2", i, expect)
            i = node_file(ed, one, [b"a", name], ended=False)
            case(f"edition {ed}: the unused string {name!r} without a zero", i, opened(i, 2))
        case(f"edition {ed}: string 2 of 2, the last without its zero", node_file(ed, [entry(VOID, 0, 2)], [b"a", b"n"], ended=False), refused(10, 1))
        i = node_file(ed, [entry(VOID, 0, 1), entry(VOID, 0, 0), entry(VOID, 0, 1)], [b"a", b"n"], ended=False)
        case(f"edition {ed}: two siblings of the name that has no zero", i, refused(12, 3))
        i = node_file(ed, [entry(VOID, 0, 1), entry(VOID, 1, 1), entry(VOID, 2, 1)], [b"a", b"n"], ended=False)
        case(f"edition {ed}: a chain of the name that has no zero", i, opened(i, 2))
        # Over the signature: its text has spaces, and no zero before byte 20. "LHPC" alone is a subkey in every edition.
        for size, n in ((4, 1), (20, 1), (21, 1), (22, 2)):
            i = changed(ed, strings=[], entries=[], data=b"", at={"symbol": (0, size)}, nstrings=n)
            case(f"edition {ed}: the symbol table is the first {size} bytes of the file, {n} unused", i, opened(i, n))
        for size, subkey in ((2, True), (4, True), (5, False), (20, False)):
            i = changed(ed, strings=[], entries=one, data=b"", at={"symbol": (0, size)}, nstrings=1)
            expect = opened(i, 1) if subkey or ed == 3 else malformed(ed, 1, TEXT[ed][:size], 4)
            case(f"edition {ed}: the symbol table is the first {size} bytes of the file, a node's name", i, expect)
    for ed in COUNTED:
        for n in (0, 1, 3, 2**32 + 2, 2**64 - 1):
            case(f"edition {ed}: a string count of {n} for 2, the last without its zero", changed(ed, ended=False, count={"symbol": n}), refused(26))
        for n in (0, 2):
            i = changed(ed, strings=[b"a"], entries=one, ended=False, count={"symbol": n})
            case(f"edition {ed}: a string count of {n} for one without a zero", i, refused(26))
        for n in (2, 4):
            i = changed(ed, strings=[b"a", b"n", b"a"], ended=False, count={"symbol": n})
            case(f"edition {ed}: a string count of {n} for a, n, a, the last without its zero", i, refused(26))
        for n in (2047, 2049):
            i = changed(ed, strings=MANY[:2048], entries=one, ended=False, count={"symbol": n})
            case(f"edition {ed}: a string count of {n} for 2,048, the last without its zero", i, refused(26))
        for n in (2048, 2050):
            i = changed(ed, strings=MANY[:2049], entries=one, ended=False, count={"symbol": n})
            case(f"edition {ed}: a string count of {n} for 2,049, the last without its zero", i, refused(25, 2048))


def tree_faults():
    for ed in EDITIONS:
        h = HEADER[ed]
        for cut, place in ((1, 2), (24, 2), (26, 1), (37, 1)):
            i = Image(ed)
            i.tree = i.tree[:-cut]
            case(f"edition {ed}: tree table cut by {cut}", i, refused(9, place))
        i = Image(ed)
        i.tree = i.tree[:-25]
        i.nnodes = 1
        case(f"edition {ed}: tree table cut by a whole entry", i, opened(i))
        for kind in (0, 6, 255):
            i = Image(ed)
            i.tree = i.tree[:13] + bytes([kind]) + i.tree[14:]
            case(f"edition {ed}: entry 2 of type {kind}", i, refused(9, 2))
        full = [entry(VOID, k, 0) for k in range(2048)]
        i = Image(ed, strings=[b"n"], entries=full, data=b"")
        case(f"edition {ed}: 2,048 nodes, a chain", i, opened(i))
        i = Image(ed, strings=[b"n"], entries=full + [entry(VOID, 0, 0)], data=b"")
        case(f"edition {ed}: 2,049 nodes", i, refused(9, 2049))
        i = Image(ed, strings=[b"n"], entries=full + [b"\0"], data=b"")
        case(f"edition {ed}: one byte after 2,048 nodes", i, refused(9, 2049))
    for ed in COUNTED:
        for n in (1, 3, 2**32 + 2):
            case(f"edition {ed}: a node count of {n} for 2", changed(ed, count={"tree": n}), refused(9))
        i = changed(ed, count={"tree": 1})
        i.tree = i.tree[:-1]
        case(f"edition {ed}: an entry cut short before a count that differs", i, refused(9, 2))


def node_faults():
    for ed in EDITIONS:
        h = HEADER[ed]
        for p in (3, 2**32, 2**64 - 1):
            i = node_file(ed, [entry(VOID, 0, 0), entry(VOID, p, 1)])
            case(f"edition {ed}: parent {p} of 2 nodes", i, refused(10, 2))
        for s in (5, 65536, 2**32 - 1):
            i = node_file(ed, [entry(VOID, 0, 0), entry(VOID, 0, s)])
            case(f"edition {ed}: string {s} of 5", i, refused(10, 2))
        for name in (b"a\xe9", b"a@", b"a[", b"a`", b"a{", b"a,", b"a;", b"a\x7f", b"a\x80"):
            i = node_file(ed, [entry(VOID, 0, 0), entry(VOID, 0, 1)], [b"a", name])
            case(f"edition {ed}: the name {name!r}", i, opened(i) if ed == 3 else malformed(ed, 2, name, 1))
        i = node_file(ed, [entry(VOID, 9, 9), entry(VOID, 9, 0)])
        case(f"edition {ed}: two nodes astray", i, refused(10, 1))
        for ring, low in (([1], 1), ([0, 2], 2), ([2, 1], 1), ([0, 3, 2], 2), ([3, 0, 3], 1), ([4, 0, 4, 3], 1), ([0, 4, 1, 5, 4], 2)):
            i = node_file(ed, [entry(VOID, p, k) for k, p in enumerate(ring)])
            case(f"edition {ed}: parents {ring}", i, refused(11, low))
        i = node_file(ed, [entry(VOID, 0, 0), entry(VOID, 0, 1), entry(VOID, 0, 0), entry(VOID, 0, 1)])
        case(f"edition {ed}: two pairs of equal siblings", i, refused(12, 3))
        i = node_file(ed, [entry(VOID, 2, 0), entry(VOID, 0, 1), entry(VOID, 2, 0)])
        case(f"edition {ed}: equal siblings under a later parent", i, refused(12, 3))
        data = bytes(range(32))
        for kind, count, off, ok, what in (
            (INT, 8, h, True, "all of the section"),
            (INT, 8, h + 1, False, "one byte past the section"),
            (INT, 1, h - 1, False, "one byte before the section"),
            (CHAR, 0, h, True, "count 0 at the section's start"),
            (CHAR, 0, h + 32, True, "count 0 at the section's end"),
            (CHAR, 0, h + 33, False, "count 0 one past the section's end"),
            (CHAR, 0, h - 1, False, "count 0 one before the section"),
            (CHAR, 0, 0, False, "count 0 at offset 0"),
            (DOUBLE, 4, h, True, "four doubles"),
            (DOUBLE, 5, h, False, "five doubles"),
            (COMPLEX, 2, h, True, "two complex numbers"),
            (COMPLEX, 2, h + 16, False, "two complex numbers half outside"),
            (INT, 8, 0, False, "an offset from the section's start"),
            (INT, 2**30, h, False, "2 to the 32 bytes"),
            (COMPLEX, 2**28, h, False, "2 to the 32 bytes of complex numbers"),
            (INT, 1, 2**64 - 4, False, "an offset that wraps"),
            (CHAR, 1, 2**32 + h, False, "an offset past 2 to the 32"),
        ):
            i = node_file(ed, [entry(VOID, 0, 0), entry(kind, 1, 1, count, off)], data=data)
            case(f"edition {ed}: type {kind}, {what}", i, opened(i) if ok else refused(13, 2))
        i = node_file(ed, [entry(INT, 1, 0, 9, 0), entry(VOID, 7, 1)])
        case(f"edition {ed}: 10 at node 2 before 11 and 13 at node 1", i, refused(10, 2))
        i = node_file(ed, [entry(INT, 0, 0, 9, 0), entry(VOID, 0, 0), entry(VOID, 3, 1)])
        case(f"edition {ed}: 11 at node 3 before 12 at node 2", i, refused(11, 3))
        i = node_file(ed, [entry(INT, 0, 0, 9, 0), entry(VOID, 0, 0)])
        case(f"edition {ed}: 12 at node 2 before 13 at node 1", i, refused(12, 2))


# Names, and the place at which each breaks: in editions 1 and 2, and in edition 3. None where it is a subkey.
NAMES = (
    (b"", 0, 0), (b"/", 0, 0), (b"/a", 0, 0), (b"a/b", 1, 1), (b"abc/", 3, 3), (b" /", 0, 1), (b"\xff\n\\/", 0, 3), (b"a b/ /", 1, 3),
    (b"9a", 0, None), (b"-a", 0, None), (b".a", 0, None), (b"..", 0, None), (b" ", 0, None), (b"\xff", 0, None), (b"9 a", 0, None), (b"a b", 1, None),
    (b"a b c", 1, None), (b"a ,", 1, None), (b"ab\xff", 2, None), (b"abc ", 3, None), (b"momentum,1", 8, None), (b"_:.-9Zz\x01", 7, None),
)


def name_places():
    """Request C-18: 10 reports the place in the name wherever the string exists and is no subkey, its parent sound or not, else 0."""
    astray = (3, 9, 2**32, 2**64 - 1)
    for ed in EDITIONS:
        def nodes(*of, strings):
            return node_file(ed, [entry(VOID, *node) for node in of], strings)

        for name, narrow, wide in NAMES:
            place = wide if ed == 3 else narrow
            names, what = [b"a", name], f"edition {ed}: the name {name!r}"
            i = nodes((0, 0), (0, 1), strings=names)
            if place is None:
                assert fault(ed, name) is None
                case(what, i, opened(i))
                continue
            case(what, i, malformed(ed, 2, name, place))
            case(f"{what}, its own parent", nodes((0, 0), (2, 1), strings=names), malformed(ed, 2, name, place))
            case(f"{what}, parent 9 of 2", nodes((0, 0), (9, 1), strings=names), malformed(ed, 2, name, place))
        first, second, last = (b"a/b", b"abc/", b"/") if ed == 3 else (b"a b", b"abc,", b" ")
        names = [b"a", first, second]
        for parent in astray:
            what = f"edition {ed}: parent {parent} of 2"
            case(f"{what}, the name {first!r}", nodes((0, 0), (parent, 1), strings=names), malformed(ed, 2, first, 1))
            case(f"{what}, a sound name", nodes((0, 0), (parent, 0), strings=names), refused(10, 2))
            case(f"{what}, string 3 of 3", nodes((0, 0), (parent, 3), strings=names), refused(10, 2))
        case(f"edition {ed}: string 3 of 3", nodes((0, 0), (0, 3), strings=names), refused(10, 2))
        case(f"edition {ed}: a sound name, its own parent", nodes((0, 0), (2, 0), strings=names), refused(11, 2))
        for low, high, expect in (
            ((9, 0), (0, 1), refused(10, 1)),
            ((0, 9), (0, 1), refused(10, 1)),
            ((9, 9), (9, 2), refused(10, 1)),
            ((0, 1), (0, 2), malformed(ed, 1, first, 1)),
            ((0, 2), (0, 1), malformed(ed, 1, second, 3)),
            ((9, 2), (0, 1), malformed(ed, 1, second, 3)),
            ((0, 2), (9, 9), malformed(ed, 1, second, 3)),
        ):
            case(f"edition {ed}: two bad nodes, parents and strings {low} and {high}", nodes(low, high, strings=names), expect)
        case(f"edition {ed}: its own parent, and above it the name {first!r}", nodes((1, 0), (0, 1), strings=names), malformed(ed, 2, first, 1))
        long = b"k" * 20000 + last
        i = node_file(ed, [entry(VOID, 0, 0)], [long], ended=False)
        case(f"edition {ed}: a name of 20,001 bytes, malformed in its last one, which has no zero", i, malformed(ed, 1, long, 20000))


def wide_names():
    """A Double and two Chars below a Void node, with names that only edition 3 allows."""
    nodes = [entry(VOID, 0, 0), entry(DOUBLE, 1, 1, 1, 168), entry(CHAR, 1, 2, 2, 176)]
    i = Image(3, strings=[b"9a", b"p x=\xff\\", b"\n"], data=struct.pack(">d", 3.5) + b"hi", entries=nodes)
    i.count, i.records = {"data": 2}, 2
    return i


# Files with padding and their MD5 sums in both written editions, as the issue of request C-22 states them: `abc`, then a Double; the Double first.
ALIGNED = {2: "83af5aeaec7934f518ddfbcd2759d236", 3: "1005f6ce7bb4470d076dcb00e77eb581"}
DOUBLE_FIRST = {2: "715e7c4b9b41de6028ce3180af33d8dc", 3: "f157ff7b0ec0ee3346739cbbfa4e9e5b"}


def aligned(ed):
    """The Char array `abc` and, after five zero bytes, the Double 1.0. Places and data are written by hand."""
    nodes = [entry(CHAR, 0, 0, 3, 168), entry(DOUBLE, 0, 1, 1, 176)]
    i = Image(ed, strings=[b"a", b"b"], data=b"abc\0\0\0\0\0\x3f\xf0\0\0\0\0\0\0", entries=nodes)
    i.count, i.records = {"data": 2}, 2
    return i


def double_first(ed):
    """The same nodes with the data of the second one first: no byte is padded."""
    nodes = [entry(CHAR, 0, 0, 3, 176), entry(DOUBLE, 0, 1, 1, 168)]
    i = Image(ed, strings=[b"a", b"b"], data=b"\x3f\xf0\0\0\0\0\0\0abc", entries=nodes)
    i.count, i.records = {"data": 2}, 2
    return i


def padding():
    """Request C-22: files of our writer with data at multiples of 8. A reader asks for no such multiple, and does not look at the bytes between."""
    for ed in WRITTEN:
        i = aligned(ed)
        assert len(i.bytes()) == 238 and md5(i.bytes()).hex() == ALIGNED[ed]
        assert i.bytes()[168:188].hex(" ") == "61 62 63 00 00 00 00 00 3f f0 00 00 00 00 00 00 61 00 62 00"
        case(f"edition {ed}: a padded Double, 238 bytes", i, opened(i, 2))
        i = double_first(ed)
        assert len(i.bytes()) == 233 and md5(i.bytes()).hex() == DOUBLE_FIRST[ed]
        case(f"edition {ed}: a Double before three Chars, 233 bytes", i, opened(i, 2))
        i = aligned(ed)
        i.data = b"abc\1\2\3\4\5" + i.data[8:]
        case(f"edition {ed}: other bytes than zero before a Double", i, opened(i, 2))
        nodes = [entry(CHAR, 0, 0, 3, 168), entry(DOUBLE, 0, 1, 1, 171)]
        i = node_file(ed, nodes, [b"a", b"b"], b"abc\x3f\xf0\0\0\0\0\0\0")
        case(f"edition {ed}: a Double at 171, right after three Chars", i, opened(i, 2))


def third_edition():
    """Request C-15: what source document 000 has otherwise than 003 has it."""
    i = Image(3)
    assert len(i.bytes()) == 214 and md5(i.bytes()).hex() == "b3ea9a372cc7394dbc2470f7b30eee3c"
    i = wide_names()
    assert len(i.bytes()) == 253 and md5(i.bytes()).hex() == "72c629f0dd1741bd4c8e2cee066c0fc7"
    case("edition 3: names that editions 1 and 2 refuse, 253 bytes", i, opened(i, 3))
    i = node_file(3, [entry(VOID, 0, k) for k in range(254)], [b"%c" % x for x in WIDE])
    case("edition 3: every byte but zero and the slash, each a name", i, opened(i, 254))
    i = node_file(3, [entry(VOID, 0, 0), entry(VOID, 1, 0)], [WIDE])
    case("edition 3: a name of every byte but zero and the slash", i, opened(i, 1))
    for x in (46, 47, 48):
        i = node_file(3, [entry(VOID, 0, 0), entry(VOID, 0, 1)], [b"a", b"a%c" % x])
        case(f"edition 3: byte {x} in a name", i, malformed(3, 2, b"a/", 1) if x == 47 else opened(i))
    i = node_file(3, [entry(VOID, 0, k) for k in range(4)], [b"a", b"A", b"a ", b" a"])
    case("edition 3: siblings that differ in case and by a space", i, opened(i))
    i = node_file(3, [entry(VOID, 0, 0), entry(VOID, 0, 1), entry(VOID, 0, 0)], [b" ", b"\n"])
    case("edition 3: two siblings named by a space", i, refused(12, 3))
    case("edition 3: section headers in the order of edition 2, sums right", changed(3, headers=HEADERS[2]), refused(26))
    for ed in (1, 2):
        case(f"edition {ed}: section headers in the order of edition 3, sums right", changed(ed, headers=HEADERS[3]), refused(9, 1))
    for version in (b"3.1", b"4.0", b"0.0"):
        case(f"edition 3: the text {version!r}, sums right", changed(3, text=TEXT[3][:17] + version), refused(3))
    case("edition 3: the text 3.0.0, so byte 20 is no zero, sums right", changed(3, form=b"." + form(3)[1:]), refused(4))
    for other in (1, 2):
        i = changed(other, text=TEXT[3])
        case(f"edition {other} with the text of edition 3, sums right", i, refused(4) if other == 1 else refused(26))
        case(f"edition {other} with the text of edition 3 alone", TEXT[3] + Image(other).bytes()[20:], refused(4) if other == 1 else refused(5))
    i = changed(3, at={"symbol": (300, 1), "data": (300, 1)})
    case("edition 3: data and symbols past the image: the symbols are reported", i, refused(6, 1))
    i = changed(3, sums={"tree": bytes(16), "data": bytes(16), "symbol": bytes(16)})
    case("edition 3: three sums wrong: that of the symbols is reported", i, refused(7, 1))


def expected(image, expect, source):
    if expect[0] == "refused":
        return "refused %d %d %d areas 0 0" % expect[1:]
    i = source
    places, at = [], i.where["symbol"][0]
    strings = strings_of(image[at:at + i.where["symbol"][1]])
    assert expect[2] in (None, len(strings)), (strings, expect[2])
    for s in strings:
        places.append(at)
        at += len(s) + 1
    nodes, at = [], i.where["tree"][0]
    end = at + i.where["tree"][1]
    while at < end:
        nodes.append(at)
        at += 13 if image[at] == VOID else 25
    records = getattr(i, "records", 1) if i.ed in COUNTED else 0
    return f"opened {i.ed} {len(places)} {len(nodes)} {records} areas {sum(places)} {sum(nodes)}"


def main():
    top = destination(__doc__)
    lawful()
    header_faults()
    section_faults()
    symbol_faults()
    symbol_faults_together()
    unterminated()
    tree_faults()
    node_faults()
    name_places()
    third_edition()
    padding()
    crate = os.path.join(top, "crates", "test_open")
    os.makedirs(crate, exist_ok=True)
    os.makedirs(os.path.join(top, "tests"), exist_ok=True)
    out, index = [], ["The images of crates/test_open/stdin, made by tests/make_images.py, and what each is answered with.", ""]
    stdin = b""
    for k, (name, image, expect, source) in enumerate(CASES):
        stdin += struct.pack(">I", len(image)) + image
        line = expected(image, expect, source)
        out.append("%d %s" % (k, line))
        index.append("%d %s: %s" % (k, name, line))
    for what in ("strings of 2,047", "strings of 2,049", "entries of 2,047", "entries of 2,049", "a form of 11", "a form of 13"):
        line = "refused 1 0 0 unchanged"
        out.append("passed " + line)
        index.append("passed %s: %s" % (what, line))
    with open(os.path.join(crate, "stdin"), "wb") as f:
        f.write(stdin)
    with open(os.path.join(crate, "stdout"), "w") as f:
        f.write("\n".join(out) + "\n")
    with open(os.path.join(top, "tests", "test_open.txt"), "w") as f:
        f.write("\n".join(index) + "\n")
    print(len(CASES), "images")


if __name__ == "__main__":
    main()
