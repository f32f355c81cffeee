#!/usr/bin/env python3
"""Makes the script of the test program test_write, and what it must print.

A script is a run of steps: the writer's calls, and between them what is printed, or changed without the writer. What must be printed is worked
out here from document 01, requests C-15, C-18 and C-22 and source document 000, with no code of the library: `Writer` answers the calls by its tables, and
a finished file is laid out a second time by make_images. The refusal that a case is about is said by hand besides. Everything is run in both written
editions. Of runs in which two puts have changed places, what request C-23 claims is asserted here too, over the answers and the finished files.
It writes crates/test_write/stdin (each step after its length in 4 bytes) and stdout.

    tests/make_writes.py [FOLDER]      FOLDER: where these are written, the repository where none is given
"""
import collections
import itertools
import struct

from make_images import (
    ALIGNED, CHAR, COMPLEX, DOUBLE, DOUBLE_FIRST, HEADER, HEADERS, INT, NAMES, VOID, WIDE, WRITTEN, Image, aligned, aligned_data, destination, double_first,
    entry, fault, form, md5, strings_of,
)
from make_listings import SIZE, brief, lines, write

BUFFER_SIZE, TEXT, TREE, LIMIT = 65536, 32768, 51200, 2048
MOST = 2**64 - 1
# `end` is the place where the data end, padding counted (request C-22).
FIELDS = ("length", "edition", "strings", "text", "nodes", "end", "open")


class Writer:
    """Buffer, areas and record, and what each call answers: ("accepted", n) or ("refused", number, place). The recorded edition decides the size of the
    header, and with it the first place of the data and the least buffer; the order of the section headers; and the rule for names."""

    def __init__(self):
        self.buffer, self.text, self.tree = bytearray(BUFFER_SIZE), bytearray(TEXT + 1), bytearray(TREE + 1)
        self.passed = (0, 0, 0)
        self.none()

    def none(self):
        self.rec = dict.fromkeys(FIELDS, 0)
        self.form = bytes(12)

    def slot(self, k):
        """Type, parent, string, count and data offset of node k."""
        return struct.unpack(">BQIIQ", self.tree[25 * (k - 1):25 * k])

    def put_slot(self, k, *fields):
        self.tree[25 * (k - 1):25 * k] = struct.pack(">BQIIQ", *fields)

    def strings(self):
        return bytes(self.text[:self.rec["text"]]).split(b"\0")[:-1]

    def header(self):
        return HEADER[self.rec["edition"]]

    def size(self):
        kinds = [self.slot(k)[0] for k in range(1, self.rec["nodes"] + 1)]
        return self.rec["end"] + self.rec["text"] + sum(13 if k == VOID else 25 for k in kinds)

    def belongs(self):
        r, used = self.rec, self.text[:self.rec["text"]]
        if self.passed != (r["length"], TEXT, TREE) or r["edition"] not in WRITTEN:
            return False
        if r["strings"] > LIMIT or r["text"] > TEXT or r["nodes"] > LIMIT:
            return False
        if used.count(0) != r["strings"] or used[-1:] not in (b"", b"\0"):
            return False
        if r["end"] < self.header():
            return False
        for k in range(1, r["nodes"] + 1):
            kind, parent, string, count, offset = self.slot(k)
            if not 1 <= kind <= 5 or parent >= k or string >= r["strings"]:
                return False
            if kind != VOID and not self.header() <= offset <= r["end"] - count * SIZE[kind]:
                return False
        return self.size() <= r["length"]

    def judge(self):
        if not self.belongs():
            return ("refused", 24, 0)
        return None if self.rec["open"] else ("refused", 22, 0)

    def store(self, stores, allowance):
        """Makes the first stores; the answer, and after 23 the record is stopped."""
        for place, byte in stores[:allowance]:
            self.buffer[place] = byte
        if len(stores) <= allowance:
            return ("accepted", len(stores))
        self.rec["open"] = 0
        return ("refused", 23, allowance)

    def begin(self, allowance, edition, passed):
        buffer, text, tree = self.passed
        self.none()
        if len(passed) != 12 or text != TEXT or tree != TREE:
            return ("refused", 1, 0)
        if edition not in WRITTEN:
            return ("refused", 3, 0)
        if buffer < HEADER[edition]:
            return ("refused", 21, 0)
        self.rec.update(length=buffer, edition=edition, end=HEADER[edition], open=1)
        self.form = passed
        answer = self.store([(0, 0)], allowance)
        if answer[0] == "accepted":
            self.text[:TEXT], self.tree[:TREE] = bytes(TEXT), bytes(TREE)
        return answer

    def make(self, parent, name):
        r, strings = self.rec, self.strings()
        new = name not in strings
        added = len(name) + 1 if new else 0
        wrong = self.judge()
        if wrong:
            return wrong
        if parent > r["nodes"]:
            return ("refused", 15, 0)
        if fault(r["edition"], name) is not None:
            return ("refused", 14, fault(r["edition"], name))
        for k in range(1, r["nodes"] + 1):
            if self.slot(k)[1] == parent and strings[self.slot(k)[2]] == name:
                return ("refused", 17, 0)
        if r["nodes"] == LIMIT or new and (r["strings"] == LIMIT or r["text"] + added > TEXT):
            return ("refused", 20, 0)
        if self.size() + 13 + added > r["length"]:
            return ("refused", 21, 0)
        if new:
            self.text[r["text"]:r["text"] + added] = name + b"\0"
            strings.append(name)
        r.update(nodes=r["nodes"] + 1, strings=r["strings"] + new, text=r["text"] + added)
        self.put_slot(r["nodes"], VOID, parent, strings.index(name), 0, 0)
        return ("accepted", r["nodes"])

    def put(self, node, kind, data, allowance):
        r, wrong = self.rec, self.judge()
        if wrong:
            return wrong
        if node > r["nodes"]:
            return ("refused", 15, 0)
        if node == 0 or self.slot(node)[0] != VOID:
            return ("refused", 18, 0)
        if kind not in SIZE or len(data) % SIZE[kind]:
            return ("refused", 19, 0)
        padding = -r["end"] % 8
        if self.size() + 12 + padding + len(data) > r["length"]:
            return ("refused", 21, 0)
        answer = self.store(list(enumerate(bytes(padding) + data, r["end"])), allowance)
        if answer[0] == "accepted":
            self.put_slot(node, kind, *self.slot(node)[1:3], len(data) // SIZE[kind], r["end"] + padding)
            r["end"] += padding + len(data)
        return answer

    def close(self, allowance):
        r, wrong = self.rec, self.judge()
        if wrong:
            return wrong
        nodes, h = [self.slot(k) for k in range(1, r["nodes"] + 1)], self.header()
        data = bytes(self.buffer[h:r["end"]])
        image = Image(r["edition"], strings=self.strings(), entries=[entry(*n) for n in nodes], data=data)
        image.form = self.form
        image.count = {"data": sum(n[0] != VOID for n in nodes)}
        stores = list(enumerate(image.bytes()))
        stores = stores[r["end"]:] + stores[1:h] + stores[:1]
        answer = self.store(stores, allowance)
        r["open"] = 0
        return answer


class Script:
    """Steps, with what they print. `edition` is the one that begin is passed where a case names no other. `tree` has the nodes that the accepted calls
    describe: parent, name, type, bytes; `order` has those with data, in the order of the puts. `answered` has the calls of a case, each by name, with their
    answers."""

    def __init__(self):
        self.w, self.stdin, self.out, self.tree, self.order, self.answered, self.cases, self.edition = Writer(), [], [], [], [], [], 0, 2

    def step(self, letter, numbers=(), data=b""):
        block = letter.encode() + struct.pack(">3Q", *(list(numbers) + [0, 0, 0])[:3]) + data
        self.stdin.append(struct.pack(">I", len(block)) + block)

    def reported(self, name, answer, expect):
        assert expect is None or answer == expect, (self.out[-3:], name, answer, expect)
        self.answered.append((name, answer))
        r = self.w.rec
        numbers = " ".join(str(r[f]) for f in FIELDS[:6])
        self.out.append("%s %s, record %s %s %s\n" % (name, " ".join(map(str, answer)), numbers, "open" if r["open"] else "shut", self.w.form.hex()))
        return answer[0] == "accepted"

    def case(self, title, buffer=None, fill=0xEE):
        """Begins a case: its title, the lengths passed, and a buffer full of one byte."""
        self.cases += 1
        self.answered = []
        title = f"edition {self.edition}: {title}"
        self.step("#", data=title.encode())
        self.out.append(title + "\n")
        if buffer is not None:
            self.lend(buffer)
            self.step("f", [fill])
            self.w.buffer[:buffer] = bytes([fill]) * buffer

    def lend(self, buffer, text=TEXT, tree=TREE):
        self.step("=", [buffer, text, tree])
        self.w.passed = (buffer, text, tree)

    def begin(self, allowance=MOST, passed=None, edition=None, expect=None):
        edition = self.edition if edition is None else edition
        passed = form(self.edition) if passed is None else passed
        self.step("b", [allowance, edition], passed)
        if self.reported("begin", self.w.begin(allowance, edition, passed), expect):
            self.tree, self.order = [], []

    def make(self, parent, name, expect=None):
        self.step("m", [parent], name)
        if self.reported("make", self.w.make(parent, name), expect):
            self.tree.append([parent, name, VOID, b""])

    def put(self, node, kind, data=b"", allowance=MOST, expect=None):
        self.step("p", [node, kind, allowance], data)
        if self.reported("put", self.w.put(node, kind, data, allowance), expect):
            self.tree[node - 1][2:] = [kind, data]
            self.order.append(node)

    def close(self, allowance=MOST, expect=None):
        self.step("c", [allowance])
        self.reported("close", self.w.close(allowance), expect)

    def alter(self, field, value):
        self.step("a", [FIELDS.index(field), value])
        self.w.rec[field] = value

    def poke(self, area, place, byte):
        self.step({"buffer": "R", "text": "S", "tree": "T"}[area], [place, byte])
        getattr(self.w, area)[place] = byte

    def sums(self):
        """The MD5 sums of buffer and areas."""
        self.step("s")
        areas = (self.w.buffer, self.w.text, self.w.tree)
        self.out.append("sums %s\n" % " ".join(md5(bytes(a[:n])).hex() for a, n in zip(areas, self.w.passed)))

    def hex(self):
        self.step("x")
        self.out.append(self.w.buffer[:self.w.passed[0]].hex() + "\n")

    def layout(self, moved=None):
        """The file of the tree that the calls described, laid out from that and the recorded edition alone. `moved`: nodes with altered offsets."""
        strings, entries, edition = [], [], self.w.rec["edition"]
        for parent, name, kind, held in self.tree:
            if name not in strings:
                strings.append(name)
        data, offsets = aligned_data(edition, [self.tree[k - 1][3] for k in self.order])
        at = {**dict(zip(self.order, offsets)), **(moved or {})}
        for k, (parent, name, kind, held) in enumerate(self.tree, 1):
            entries.append(entry(kind, parent, strings.index(name), len(held) // SIZE.get(kind, 1), at.get(k, 0)))
        image = Image(edition, strings=strings, entries=entries, data=data)
        image.count = {"data": len(at)}
        return image.bytes(), len(strings), len(at)

    def rows(self):
        return [(p, n, k, len(d) // SIZE.get(k, 1)) for p, n, k, d in self.tree]

    def listed(self):
        """The buffer as `listall` prints it."""
        self.step("l")
        self.out.append(brief(lines(self.rows())).decode())

    def refused(self, number, place=0):
        self.step("o")
        self.out.append("refused %d %d\n" % (number, place))

    def opened(self, moved=None):
        """The buffer opened, and every answer of every node; and that it begins with the file of the tree. A node in `moved` has the bytes at its offset."""
        file, strings, full = self.layout(moved)
        assert bytes(self.w.buffer[:len(file)]) == file
        self.step("o")
        self.out.append("opened %d %d %d %d\n" % (self.w.rec["edition"], strings, len(self.tree), full))
        paths = [b""]
        for k, (parent, name, kind, held) in enumerate([(0, b"", VOID, b"")] + self.tree):
            if k:
                paths.append(paths[parent] + b"/" + name)
            if moved and k in moved:
                held = file[moved[k]:moved[k] + len(held)]
            size = SIZE.get(kind, 1)
            elements = [element(kind, held[i:i + size]) for i in range(0, len(held), size)]
            front = "%d path %s name %s type %d count accepted %d bytes %s\n"
            self.out.append(front % (k, (paths[k] or b"/").decode("latin-1"), name.decode("latin-1"), kind, len(elements), held.hex()))
            self.out.append("  elements %s\n" % " ".join(elements + ["refused 16 0"]))
        self.out.append("%d path refused 15 0 name  type refused 15 0 count refused 15 0 bytes \n" % len(paths))


def real(b):
    n = int.from_bytes(b, "big")
    return "nan" if n & (2**63 - 1) > 0x7FF << 52 else "%016x" % n


def element(kind, b):
    if kind == CHAR:
        return str(b[0])
    if kind == INT:
        return str(struct.unpack(">i", b)[0])
    return ",".join(real(b[i:i + 8]) for i in range(0, len(b), 8))


INT70 = b"\xff\xff\xff\xba"


def no(number, place=0):
    return ("refused", number, place)


def yes(number):
    return ("accepted", number)


# The MD5 sums of the worked file.
SUMS = {2: "68aa038d934967d187bd25bfb6353110", 3: "b3ea9a372cc7394dbc2470f7b30eee3c"}


def worked(s, buffer=214, fill=0xEE, title=None):
    s.case(title or "the worked file", buffer, fill)
    s.begin(expect=yes(1))
    s.make(0, b"a", yes(1))
    s.make(1, b"n", yes(2))


def whole_files(s):
    worked(s)
    s.sums()
    s.put(2, INT, INT70, 4, yes(4))
    s.sums()
    s.close(210, yes(210))
    assert md5(bytes(s.w.buffer[:214])).hex() == SUMS[s.edition]
    s.sums()
    s.hex()
    s.listed()
    s.opened()
    for buffer in (0, 1, 167):
        s.case("a buffer of %d" % buffer, buffer)
        s.begin(expect=no(21))
        s.make(0, b"a", no(24))
        s.close(expect=no(24))
        s.sums()
    s.case("a buffer of 168: an empty tree", 168)
    s.begin(1, expect=yes(1))
    s.refused(3)
    s.make(0, b"a", no(21))
    s.close(168, yes(168))
    s.hex()
    s.listed()
    s.opened()
    s.case("a buffer of 182: a child does not fit", 182)
    s.begin()
    s.make(0, b"a", no(21))
    s.close(expect=yes(168))
    s.opened()
    s.case("a buffer of 183: a child fits, a second does not", 183)
    s.begin()
    s.make(0, b"a", yes(1))
    s.make(1, b"a", no(21))
    s.close(expect=yes(183))
    s.opened()
    worked(s, 213, title="a buffer of 213: the put is refused, and the file fits without it")
    s.put(2, INT, INT70, expect=no(21))
    s.put(2, INT, b"", expect=yes(0))
    s.close(expect=yes(168 + 4 + 38))
    s.opened()
    worked(s, 1000, title="a buffer longer than the file keeps its rest")
    s.put(2, INT, INT70)
    s.close(expect=yes(210))
    s.sums()
    s.listed()
    s.opened()


def every_kind(s):
    s.case("every kind", 1000)
    s.begin()
    doubles = [0x8000000000000000, 1, 0x000FFFFFFFFFFFFF, 0x7FF0000000000000, 0xFFF0000000000000, 0x7FF8000000000001, 0xFFF0000000000001,
               0x3FF0000000000000, 0, 0x7FEFFFFFFFFFFFFF, 0x4009_21FB_5444_2D18]
    data = [
        (b"char", CHAR, bytes([0, 1, 127, 128, 255]) + b"text"),
        (b"int", INT, struct.pack(">7i", -70, 0, 1, -1, 2**31 - 1, -2**31, 305419896)),
        (b"double", DOUBLE, struct.pack(">11Q", *doubles)),
        (b"complex", COMPLEX, struct.pack(">6Q", *doubles[:6])),
        (b"none", DOUBLE, b""),
        (b"void", VOID, None),
    ]
    for k, (name, kind, held) in enumerate(data, 1):
        s.make(0, name, yes(k))
    for k, stores in ((3, 88), (1, 9), (4, 7 + 48), (5, 0), (2, 28)):
        s.put(k, data[k - 1][1], data[k - 1][2], expect=yes(stores))
    s.sums()
    s.close()
    s.sums()
    s.listed()
    s.opened()
    s.case("strings are reused by name: five nodes, two strings", 500)
    s.begin()
    for parent, name in ((0, b"a"), (0, b"b"), (1, b"a"), (2, b"a"), (3, b"b")):
        s.make(parent, name)
    assert s.w.rec["strings"] == 2
    s.close()
    s.listed()
    s.opened()
    s.case("names that differ in case, and one that is the front of another", 500)
    s.begin()
    for name in (b"a", b"A", b"ab", b"a.b", b"_", b":", b"Z-9"):
        s.make(0, name)
    s.close()
    s.opened()
    if s.edition == 3:
        wide_names(s)


def wide_names(s):
    """Names that only edition 3 allows."""
    s.case("a name that begins with a digit, one with a space, FF and a backslash, a line feed", 253)
    s.begin()
    for k, (parent, name) in enumerate(((0, b"9a"), (1, b"p x=\xff\\"), (1, b"\n")), 1):
        s.make(parent, name, yes(k))
    s.put(2, DOUBLE, struct.pack(">d", 3.5), expect=yes(8))
    s.put(3, CHAR, b"hi", expect=yes(2))
    s.close(expect=yes(243))
    assert md5(bytes(s.w.buffer[:253])).hex() == "72c629f0dd1741bd4c8e2cee066c0fc7"
    s.hex()
    s.listed()
    s.opened()
    s.case("every byte but zero and the slash, in one name and each a name", BUFFER_SIZE)
    s.begin()
    s.make(0, WIDE, yes(1))
    for k, x in enumerate(WIDE, 2):
        s.make(1, b"%c" % x, yes(k))
    s.make(0, b"\0", no(14, 0))
    s.make(0, b"/", no(14, 0))
    s.make(0, bytes(range(1, 256)), no(14, 46))
    s.make(0, WIDE + b"\0", no(14, 254))
    s.make(1, b"\xff", no(17))
    s.close()
    s.sums()
    s.listed()


def no_bytes(s):
    s.case("puts of no bytes, with allowance 0", 400)
    s.begin()
    for k, name in enumerate((b"a", b"b", b"c", b"d"), 1):
        s.make(0, name)
        s.put(k, k + 1, b"", 0, yes(0))
        s.put(k, k + 1, b"", 0, no(18))
    s.close()
    s.listed()
    s.opened()


def limits(s):
    s.case("2,048 nodes, and the refusal of one more", BUFFER_SIZE)
    s.begin()
    letter = {2: b"k", 3: b"\xff"}[s.edition]
    for k in range(1, LIMIT + 1):
        s.make(k // 4, b"%s%d" % (letter, k), yes(k))
    s.make(0, b"one.more", no(20))
    s.make(1, letter + b"1", no(20))
    s.put(LIMIT, INT, INT70 * 3, expect=yes(12))
    s.put(1, CHAR, b"first", expect=yes(4 + 5))
    s.sums()
    s.close()
    s.sums()
    s.listed()
    assert s.layout()[0] == bytes(s.w.buffer[:len(s.layout()[0])])
    s.case("text of exactly 32,768 bytes", BUFFER_SIZE)
    s.begin()
    for k, letter in enumerate({2: (b"a", b"b", b"c"), 3: (b"\1", b" ", b"\\")}[s.edition], 1):
        s.make(0, letter * 8191, yes(k))
    s.make(0, b"d" * 8192, no(20))
    s.make(0, b"d" * 8191, yes(4))
    s.sums()
    s.make(0, b"e", no(20))
    s.make(1, b"d" * 8191, yes(5))
    s.close()
    s.listed()
    s.case("text of 32,766 bytes takes a name of one byte and no longer one", BUFFER_SIZE)
    s.begin()
    for k, size in enumerate((8191, 8191, 8191, 8189), 1):
        s.make(0, b"%c" % (96 + k) * size, yes(k))
    s.make(0, b"xy", no(20))
    s.make(0, b"x", yes(5))
    s.make(0, b"y", no(20))
    s.close()
    s.listed()
    s.case("a 2,049th string, which only an altered record comes to", BUFFER_SIZE)
    s.begin()
    s.alter("strings", LIMIT)
    s.alter("text", LIMIT)
    s.make(0, b"a", no(20))
    s.alter("strings", LIMIT - 1)
    s.alter("text", LIMIT - 1)
    s.make(0, b"a", yes(1))


def begin_refusals(s):
    s.case("begin: 1", 214)
    for size in (0, 11, 13):
        s.begin(passed=(form(s.edition) + b"\1")[:size], expect=no(1))
    for text, tree in ((TEXT - 1, TREE), (TEXT + 1, TREE), (TEXT, TREE - 1), (TEXT, TREE + 1)):
        s.lend(214, text, tree)
        s.begin(expect=no(1))
        s.make(0, b"a", no(24))
    s.lend(100, TEXT, TREE - 1)
    s.begin(0, expect=no(1))
    s.lend(214)
    s.sums()
    s.make(0, b"a", no(24))
    s.put(0, INT, b"", expect=no(24))
    s.close(expect=no(24))
    s.case("begin: 21 comes before 23", 167)
    s.begin(0, expect=no(21))
    s.case("begin: 23 stores nothing and clears nothing; later calls get 22", 214)
    s.poke("text", 0, 7)
    s.poke("tree", 51199, 7)
    s.begin(0, expect=no(23))
    s.sums()
    s.make(0, b"a", no(22))
    s.put(0, INT, b"", expect=no(22))
    s.close(expect=no(22))
    s.sums()
    s.refused(3)
    s.case("begin: other 12 bytes are kept, and the file has them", 168)
    s.begin(1, passed=bytes(range(1, 13)), expect=yes(1))
    s.close(expect=yes(168))
    s.hex()
    s.refused(4)
    s.case("begin over a finished file: nothing opens from then on", 168)
    s.begin()
    s.close()
    s.opened()
    s.begin(1, expect=yes(1))
    s.refused(3)
    s.close(167, no(23, 167))
    s.refused(3)
    s.case("begin over a finished file of the other edition", 168)
    s.begin(edition=5 - s.edition)
    s.close()
    s.opened()
    s.begin(1, expect=yes(1))
    s.refused(3)
    s.close(168, yes(168))
    s.opened()


def unwritten_editions(s):
    """Request C-15: 3 for an edition that is not written comes after 1 and before 21 and 23, changes nothing, and leaves the all-zero record."""
    for s.edition in (0, 1, 4, MOST >> 32):
        s.case("begin: 3 stores nothing and clears nothing; later calls get 24", 214)
        s.poke("text", 0, 7)
        s.poke("tree", 51199, 7)
        s.begin(passed=form(2), expect=no(3))
        all_24(s)
        s.begin(0, passed=form(2), expect=no(3))
        s.begin(passed=form(1), expect=no(3))
        s.begin(passed=form(2)[:11], expect=no(1))
        for passed in ((214, TEXT - 1, TREE), (214, TEXT, TREE + 1), (100, TEXT + 1, TREE)):
            s.lend(*passed)
            s.begin(0, passed=form(2), expect=no(1))
        for buffer in (0, 143, 144, 167):
            s.lend(buffer)
            s.begin(passed=form(2), expect=no(3))
            s.begin(0, passed=form(2), expect=no(3))
            all_24(s)
        s.lend(214)
        s.sums()
    for s.edition in WRITTEN:
        worked(s, 214, title="begin with edition 1 in the middle of a file: buffer and areas stay, later calls get 24")
        s.put(2, INT, INT70)
        s.sums()
        s.begin(edition=1, expect=no(3))
        all_24(s)
        s.sums()


# Names, and the place of the first byte that breaks the rule: in edition 2, and in edition 3. None where the name is lawful.
CALL_NAMES = NAMES + (
    (b"\0", 0, 0), (b"a\0", 1, 1), (b"ab\0c", 2, 2), (b" \0", 0, 1), (b"\xff\0/", 0, 1), (b"9", 0, None), (b"a\xe9", 1, None), (b"a@", 1, None),
    (b"a[", 1, None), (b"a`", 1, None), (b"a{", 1, None), (b"a,", 1, None), (b"a;", 1, None),
)


def make_refusals(s):
    names = [(name, narrow if s.edition == 2 else wide) for name, narrow, wide in CALL_NAMES]
    names, lawful = [pair for pair in names if pair[1] is not None], [name for name, place in names if place is None]
    if lawful:
        s.case("make: names that are 14 in edition 2", 2000)
        s.begin()
        for k, name in enumerate(lawful, 1):
            s.make(k, name, no(15))
            s.make(k - 1, name, yes(k))
        s.close()
        s.sums()
        s.listed()
    s.case("make: 15, 14, 17", 400)
    s.begin()
    s.make(1, b"a", no(15))
    s.make(MOST, b"9", no(15))
    for name, place in names:
        s.make(0, name, no(14, place))
        s.make(1, name, no(15))
    s.make(0, b"a", yes(1))
    s.make(0, b"a", no(17))
    s.make(1, b"a", yes(2))
    s.make(1, b"a", no(17))
    s.make(0, b"b", yes(3))
    s.make(0, b"a", no(17))
    s.make(0, b"b", no(17))
    s.make(3, b"b", yes(4))
    s.make(5, b"b", no(15))
    for name, place in names:
        s.make(4, name, no(14, place))
    s.make(5, b"a/b", no(15))
    s.sums()
    s.case("make: 17 comes before 20 and 21, 14 before all three", 185)
    s.begin()
    s.make(0, b"abc", yes(1))
    s.make(0, b"abc", no(17))
    s.make(0, b"a/b", no(14, 1))
    s.make(0, b"k" * 33000 + b"/", no(14, 33000))
    s.make(0, b"abd", no(21))
    s.close(expect=yes(185))
    s.opened()
    s.case("make: 22 after close, 24 before it", 300)
    s.begin()
    s.close()
    s.make(9, b"", no(22))
    s.alter("strings", 1)
    s.make(9, b"", no(24))


def put_refusals(s):
    s.case("put: 15, 18, 19, 21", 300)
    s.begin()
    s.make(0, b"a")
    s.make(1, b"n")
    s.put(3, INT, INT70, expect=no(15))
    s.put(MOST, 0, b"", expect=no(15))
    s.put(0, INT, INT70, expect=no(18))
    s.put(0, 0, b"x", expect=no(18))
    for kind in (0, 1, 6, 255, 258, 2**32 + 3, MOST):
        s.put(2, kind, b"", expect=no(19))
        s.put(2, kind, INT70 * 4, expect=no(19))
    for kind, size in ((INT, 1), (INT, 3), (INT, 5), (DOUBLE, 4), (DOUBLE, 12), (COMPLEX, 8), (COMPLEX, 17)):
        s.put(2, kind, bytes(size), expect=no(19))
    s.put(2, CHAR, bytes(91), expect=no(21))
    s.put(2, CHAR, bytes(91), 0, expect=no(21))
    s.put(2, INT, INT70, expect=yes(4))
    s.put(2, INT, INT70, expect=no(18))
    s.put(2, 0, INT70, expect=no(18))
    s.put(1, CHAR, bytes(71), expect=no(21))
    s.put(1, CHAR, bytes(range(70)), expect=yes(4 + 70))
    s.make(0, b"a", no(17))
    s.make(0, b"n", no(21))
    s.close(expect=yes(300 - 78))
    s.listed()
    s.opened()
    for allowance in (0, 1, 4, 5, 6, 16):
        s.case("put: 23 after %d of 5 + 12 stores; the node stays Void" % allowance, 300)
        s.begin()
        s.make(0, b"a")
        s.make(0, b"b")
        s.put(1, CHAR, b"xyz", 3, yes(3))
        s.put(2, INT, INT70 * 3, allowance, no(23, allowance))
        s.sums()
        s.put(2, INT, INT70 * 3, expect=no(22))
        s.make(0, b"c", no(22))
        s.close(expect=no(22))
        s.sums()
        s.refused(3)


def close_refusals(s):
    for allowance in (0, 1, 4, 5, 41, 42, 43, 200, 208, 209):
        worked(s, 214, 0, title="close: 23 after %d of 210 stores" % allowance)
        s.put(2, INT, INT70)
        s.close(allowance, no(23, allowance))
        s.sums()
        s.refused(3)
        s.close(expect=no(22))
        s.make(0, b"b", no(22))
        s.put(1, INT, b"", expect=no(22))
        s.sums()
    worked(s, 214, title="close: an accepted one changes of the record only that it is shut; then 22")
    s.put(2, INT, INT70)
    s.close(MOST, yes(210))
    s.close(MOST, no(22))
    s.close(0, no(22))
    s.make(0, b"b", no(22))
    s.put(1, INT, b"", expect=no(22))
    s.opened()
    worked(s, 214, title="close sums the data that are in the buffer then")
    s.put(2, INT, INT70)
    s.poke("buffer", 171, 0xBB)
    s.tree[1][3] = b"\xff\xff\xff\xbb"
    s.close(MOST, yes(210))
    s.opened()


def all_24(s):
    s.make(0, b"c", no(24))
    s.put(1, INT, b"", expect=no(24))
    s.close(expect=no(24))


def altered(s):
    worked(s, 300, title="24: the record altered")
    s.put(2, INT, INT70, expect=yes(4))
    for field, values in (
        ("length", (0, 299, 301, MOST)),
        ("edition", (0, 1, 4, 5, 256 + s.edition, MOST >> 32)),
        ("strings", (0, 1, 3, 2049, MOST)),
        ("text", (0, 3, 5, 6, 32769, MOST)),
        ("nodes", (3, 2049, MOST)),
        ("end", (0, 4, 167, 168, 171, 259, 300, 301, 2**32 + 172, MOST)),
    ):
        right = s.w.rec[field]
        for value in values:
            s.alter(field, value)
            all_24(s)
        s.alter(field, right)
    s.alter("open", 0)
    s.make(0, b"c", no(22))
    s.alter("open", 1)
    s.sums()
    s.case("24: the text without its last zero, though the reader would find the same strings (request C-13)", 300)
    s.begin()
    s.make(0, b"a", yes(1))
    s.alter("text", 1)
    all_24(s)
    s.alter("text", 2)
    s.make(1, b"name", yes(2))
    s.put(2, INT, INT70, expect=yes(4))
    s.alter("text", 6)
    all_24(s)
    s.sums()
    s.alter("text", 7)
    s.poke("text", 6, 1)
    all_24(s)
    s.poke("text", 6, 0)
    s.close(expect=yes(168 + 7 + 38))
    s.opened()
    worked(s, 300, title="24: another length passed")
    s.put(2, INT, INT70, expect=yes(4))
    for passed in ((299, TEXT, TREE), (301, TEXT, TREE), (0, TEXT, TREE), (300, TEXT - 1, TREE), (300, TEXT + 1, TREE), (300, TEXT, TREE - 1), (300, TEXT, TREE + 1)):
        s.lend(*passed)
        all_24(s)
    s.lend(300)
    s.case("24: the areas altered")
    for area, place, bad in (
        ("text", 1, (1,)),             # one string too few
        ("text", 2, (0,)),             # one string too many
        ("text", 3, (1,)),             # the last string has no zero
        ("tree", 0, (0, 6, 255, 3)),   # node 1: no type, or one whose data lie before 168
        ("tree", 8, (1, 2)),           # its own parent, and a parent above it
        ("tree", 1, (1,)),             # a parent of 2 to the 56
        ("tree", 12, (2,)),            # string 2 of 2
        ("tree", 25 + 8, (2, 3)),      # node 2: its own parent
        ("tree", 25 + 16, (2,)),       # two elements where one was put
        ("tree", 25 + 24, (167, 169)),  # data before and past what was put
        ("tree", 25 + 17, (1,)),       # a data offset of 2 to the 56 and more
    ):
        right = getattr(s.w, area)[place]
        for byte in bad:
            s.poke(area, place, byte)
            all_24(s)
        s.poke(area, place, right)
    s.case("what 24 does not judge: the rest of the areas, the last bytes of a Void slot, the buffer")
    s.poke("text", 100, 1)
    s.poke("tree", 24, 9)
    s.poke("tree", 60, 9)
    s.poke("buffer", 250, 9)
    s.make(0, b"c", yes(3))
    s.close(expect=yes(168 + 6 + 51))
    s.listed()
    s.opened()
    other_edition(s)


def other_edition(s):
    """A record of the other written edition passes 24: it is one of that edition from then on."""
    other = 5 - s.edition
    worked(s, 300, title="the record altered to edition %d" % other)
    s.put(2, INT, INT70)
    s.alter("edition", other)
    s.make(0, b"9a", yes(3) if other == 3 else no(14, 0))
    s.make(0, b"b", yes(4) if other == 3 else yes(3))
    s.close()
    s.listed()
    s.opened()
    s.case("the record altered to edition %d and back" % other, 300)
    s.begin()
    s.make(0, b"a", yes(1))
    s.alter("edition", other)
    s.make(0, b" ", yes(2) if other == 3 else no(14, 0))
    s.alter("edition", s.edition)
    s.make(1, b" ", no(14, 0) if other == 3 else yes(2))
    s.close()
    # A file of edition 2 with a name of edition 3: close does not look at names.
    if other == 3:
        s.refused(10, 2)
    else:
        s.opened()


# Request C-22: data at multiples of 8. Nodes a and b of the root mostly get these; stores, places and sums are those of the request's examples.
ABC, ONE = b"abc", struct.pack(">d", 1.0)
# The sum of the file of edition 2 with `abc` and a Double array of no element.
ABC_EMPTY = "3f1de327357ae517ffe35c357e6c5f46"


def two_nodes(s, title, buffer, fill=0xEE):
    s.case(title, buffer, fill)
    s.begin(1, expect=yes(1))
    s.make(0, b"a", yes(1))
    s.make(0, b"b", yes(2))


def finished(s, file, stores=222):
    """Close makes exactly this file and leaves the rest of the buffer; it is opened and read."""
    rest = bytes(s.w.buffer[len(file):s.w.passed[0]])
    s.close(stores, yes(stores))
    assert bytes(s.w.buffer[:s.w.passed[0]]) == file + rest
    s.sums()
    s.listed()
    s.opened()


def slot_is(s, node, kind, count, offset):
    """What a node's slot must be, by hand: type, count, offset."""
    assert (s.w.slot(node)[0], *s.w.slot(node)[3:]) == (kind, count, offset), s.w.slot(node)


def padding(s):
    for buffer in (238, 300):
        two_nodes(s, "padding: abc, then a Double, in a buffer of %d" % buffer, buffer)
        s.put(1, CHAR, ABC, 3, yes(3))
        s.put(2, DOUBLE, ONE, 13, yes(13))
        slot_is(s, 2, DOUBLE, 1, 176)
        assert s.w.rec["end"] == 184 and md5(aligned(s.edition).bytes()).hex() == ALIGNED[s.edition]
        s.hex()
        finished(s, aligned(s.edition).bytes())
    two_nodes(s, "padding: the Double first", 233)
    s.put(2, DOUBLE, ONE, 8, yes(8))
    s.put(1, CHAR, ABC, 3, yes(3))
    slot_is(s, 1, CHAR, 3, 176)
    assert s.w.rec["end"] == 179 and md5(double_first(s.edition).bytes()).hex() == DOUBLE_FIRST[s.edition]
    finished(s, double_first(s.edition).bytes())
    two_nodes(s, "padding: a buffer of 237 refuses the Double", 237)
    s.put(1, CHAR, ABC, expect=yes(3))
    s.put(2, DOUBLE, ONE, expect=no(21))
    s.put(2, DOUBLE, ONE, 0, expect=no(21))
    s.close(expect=yes(168 + 4 + 38))
    s.opened()
    two_nodes(s, "padding: a buffer of 232 takes the Double first, and then no abc", 232)
    s.put(2, DOUBLE, ONE, expect=yes(8))
    s.put(1, CHAR, ABC, expect=no(21))
    s.put(1, CHAR, ABC[:2], expect=yes(2))
    s.close(expect=yes(222))
    s.opened()
    cut_puts(s)
    empty_puts(s)
    lengths(s)
    orders(s)


def cut_puts(s):
    for allowance in (0, 4, 5, 6, 12):
        two_nodes(s, "padding: the Double with an allowance of %d of 5 + 8 stores" % allowance, 300)
        s.put(1, CHAR, ABC, expect=yes(3))
        before = bytes(s.w.buffer[:300])
        s.put(2, DOUBLE, ONE, allowance, no(23, allowance))
        stored = (bytes(5) + ONE)[:allowance]
        assert bytes(s.w.buffer[:300]) == before[:171] + stored + before[171 + allowance:]
        slot_is(s, 2, VOID, 0, 0)
        assert s.w.rec["end"] == 171 and not s.w.rec["open"]
        s.hex()
        s.sums()
        s.put(2, DOUBLE, ONE, expect=no(22))
        s.close(expect=no(22))
        s.refused(3)
    for total in (*range(19), 237, 238, 239):
        s.case("padding: abc and a Double with %d stores in all" % total, 238, 0x55)
        begin, first, second, close = (max(0, total - before) for before in (0, 1, 1 + 3, 1 + 3 + 13))
        s.begin(begin)
        s.make(0, b"a")
        s.make(0, b"b")
        s.put(1, CHAR, ABC, first)
        s.put(2, DOUBLE, ONE, second)
        s.close(close, yes(222) if total == 239 else None)
        s.hex()
        if total < 239:
            s.refused(3)
        else:
            assert md5(bytes(s.w.buffer[:238])).hex() == ALIGNED[s.edition]
            s.opened()


def empty_puts(s):
    two_nodes(s, "padding: abc, then a put of no Doubles, in a buffer of 230", 230)
    s.put(1, CHAR, ABC, expect=yes(3))
    s.put(2, DOUBLE, b"", 5, yes(5))
    slot_is(s, 2, DOUBLE, 0, 176)
    assert s.w.rec["end"] == 176
    s.hex()
    s.close(222, yes(222))
    assert s.edition == 3 or md5(bytes(s.w.buffer[:230])).hex() == ABC_EMPTY
    s.hex()
    s.opened()
    two_nodes(s, "padding: a buffer of 229 refuses the put of no Doubles", 229)
    s.put(1, CHAR, ABC, expect=yes(3))
    s.put(2, DOUBLE, b"", expect=no(21))
    s.close(expect=yes(210))
    s.opened()
    for allowance in (0, 4):
        two_nodes(s, "padding: a put of no Doubles with an allowance of %d of 5 stores" % allowance, 300)
        s.put(1, CHAR, ABC, expect=yes(3))
        s.put(2, DOUBLE, b"", allowance, no(23, allowance))
        slot_is(s, 2, VOID, 0, 0)
        assert s.w.rec["end"] == 171
        s.hex()
        s.close(expect=no(22))
        s.refused(3)
    two_nodes(s, "padding: a put of no bytes as the first stores nothing, and so does a second", 300)
    s.put(2, DOUBLE, b"", 0, yes(0))
    slot_is(s, 2, DOUBLE, 0, 168)
    s.put(1, CHAR, b"", 0, yes(0))
    slot_is(s, 1, CHAR, 0, 168)
    assert s.w.rec["end"] == 168
    s.sums()
    s.close(expect=yes(222))
    s.opened()
    two_nodes(s, "padding: puts of no bytes after one byte: only the first of them pads", 300)
    s.make(0, b"c", yes(3))
    s.put(1, CHAR, b"x", 1, yes(1))
    s.put(2, COMPLEX, b"", 7, yes(7))
    s.put(3, INT, b"", 0, yes(0))
    slot_is(s, 3, INT, 0, 176)
    s.close(expect=yes(168 + 6 + 75))
    s.opened()
    worked(s, 300, title="padding: nothing is padded after the last put")
    s.put(2, INT, INT70, expect=yes(4))
    s.make(2, b"c", yes(3))
    assert s.w.rec["end"] == 172
    s.close(expect=yes(168 + 6 + 51))
    assert bytes(s.w.buffer[168:178]) == INT70 + b"a\0n\0c\0"
    s.opened()


def lengths(s):
    """A put of so many bytes before a Double: its stores, and its place."""
    for first, stores, offset in ((1, 15, 176), (6, 10, 176), (7, 9, 176), (8, 8, 176), (9, 15, 184), (15, 9, 184), (16, 8, 184), (17, 15, 192)):
        two_nodes(s, "padding: a put of %d bytes before a Double" % first, 300)
        s.put(1, CHAR, bytes(range(1, first + 1)), first, yes(first))
        s.put(2, DOUBLE, ONE, stores, yes(stores))
        slot_is(s, 2, DOUBLE, 1, offset)
        assert s.w.rec["end"] == offset + 8
        s.close(expect=yes(222))
        s.opened()


def orders(s):
    """A buffer of the header, all bytes put, 7 for each put, strings and entries takes the puts in every order."""
    data = [(CHAR, b"x"), (INT, INT70 * 3), (DOUBLE, ONE)]
    most = 168 + sum(len(held) + 7 for _, held in data) + 6 + 75
    for order in itertools.permutations((1, 2, 3)):
        two_nodes(s, "padding: the puts in the order %d, %d, %d" % order, most)
        s.make(0, b"c", yes(3))
        for k in order:
            s.put(k, *data[k - 1])
            assert s.order[-1] == k
        s.close(expect=yes(168 + 6 + 75))
        s.opened()


def ends(s):
    """24 by the recorded end of data: below the header, before the end of some data, and where the finished size passes the buffer."""
    s.case("end: no data in the buffer", 300)
    s.begin()
    s.make(0, b"a", yes(1))
    for end in (0, 1, 144, 160, 167):
        s.alter("end", end)
        all_24(s)
    s.alter("end", 168)
    s.make(1, b"n", yes(2))
    # 300 - 4 - 26 is the highest end that fits, and 12 fewer before a put.
    for end in (271, 300, 301, 2**31, 2**32 + 168, 2**63, MOST):
        s.alter("end", end)
        all_24(s)
    s.alter("end", 270)
    s.make(0, b"b", no(21))
    s.put(1, CHAR, b"", expect=no(21))
    s.alter("end", 257)
    s.put(1, CHAR, b"", expect=no(21))
    s.alter("end", 256)
    s.put(1, CHAR, b"xyz", expect=no(21))
    s.put(1, CHAR, b"xy", expect=yes(2))
    slot_is(s, 1, CHAR, 2, 256)
    s.sums()
    two_nodes(s, "end: 184 where the Double ends", 400)
    s.put(1, CHAR, ABC)
    s.put(2, DOUBLE, ONE)
    for end in (167, 168, 171, 176, 183):
        s.alter("end", end)
        all_24(s)
    s.alter("end", 184)
    s.make(0, b"c", yes(3))
    # Not an end that puts could have left: 24 does not judge that. The next put begins at the next multiple of 8.
    s.alter("end", 185)
    s.make(0, b"d", yes(4))
    s.put(3, CHAR, b"xyz", 10, yes(7 + 3))
    slot_is(s, 3, CHAR, 3, 192)
    s.hex()
    s.alter("end", 197)
    s.close(expect=yes(168 + 8 + 88))
    assert bytes(s.w.buffer[197:205]) == b"a\0b\0c\0d\0"
    s.hex()
    s.listed()
    two_nodes(s, "end: a put of no bytes stands at the end", 400)
    s.put(1, CHAR, ABC)
    s.put(2, DOUBLE, b"", expect=yes(5))
    for end in (171, 175):
        s.alter("end", end)
        all_24(s)
    s.alter("end", 176)
    s.close(expect=yes(222))
    s.opened()


def offsets(s):
    """An offset inside what was put is no 24, also where it is no multiple of 8: the node then has other bytes."""
    two_nodes(s, "offset: altered inside what was put", 300)
    s.put(1, CHAR, ABC)
    s.put(2, DOUBLE, ONE)
    for node, bad in ((1, (0, 167, 182, 255)), (2, (0, 167, 177, 184, 255))):
        right = s.w.slot(node)[4]
        for low in bad:
            s.poke("tree", 25 * node - 1, low)
            all_24(s)
        s.poke("tree", 25 * node - 1, right)
    for node, low in ((3, 181), (4, 174), (5, 169)):
        s.poke("tree", 24, low)
        s.make(node - 1, b"a", yes(node))
    s.poke("tree", 49, 173)
    s.put(3, INT, INT70, 4, yes(4))
    slot_is(s, 3, INT, 1, 184)
    s.close(expect=yes(168 + 4 + 101))
    s.hex()
    s.opened(moved={1: 169, 2: 173})
    assert s.out[-11] == "1 path /a name a type 2 count accepted 3 bytes 626300\n" and s.out[-8] == "  elements 0000003ff0000000 refused 16 0\n"


# Request C-23: two puts that follow each other may change places. A call is the name of a step and its arguments. A run has its calls and their answers, the
# stores made, and the end of data after begin and after each call. Where a close was accepted, it has the file, what is in it (`tree_in`), and what is
# printed of it.
Run = collections.namedtuple("Run", "calls answers stores ends file nodes offsets printed", defaults=[None] * 4)
PAIR = [("make", 0, b"a"), ("make", 0, b"b"), ("put", 1, CHAR, ABC), ("put", 2, DOUBLE, ONE)]


def tree_in(edition, file):
    """The nodes of a finished file, read from its own sections: path, type, count and bytes of each; and the offsets in their entries, 0 for Void."""
    part = {}
    for k, section in enumerate(HEADERS[edition]):
        offset, size = struct.unpack_from(">QQ", file, 32 + 40 * k)
        part[section] = file[offset:offset + size]
    strings, entries = strings_of(part["symbol"]), part["tree"]
    paths, nodes, offsets = [b""], [], []
    while entries:
        kind, parent, string = struct.unpack_from(">BQI", entries)
        count, offset = (0, 0) if kind == VOID else struct.unpack_from(">IQ", entries, 13)
        paths.append(paths[parent] + b"/" + strings[string])
        nodes.append((paths[-1], kind, count, file[offset:offset + count * SIZE.get(kind, 0)]))
        offsets.append(offset)
        entries = entries[13 if kind == VOID else 25:]
    return nodes, offsets


def stores_made(s):
    """The stores that the calls of the case have made. Of the refusals only 23 reports a number of stores; the other ones of begin, put and close report 0."""
    return sum(answer[-1] for name, answer in s.answered if name != "make")


def run(s, title, buffer, calls, total=None):
    """Begin and the calls; then the file is opened and read, or refused by 3 where no close was accepted. Where a total allowance is given, each call that
    stores gets what is left of it."""
    s.case(title, buffer)
    s.begin(MOST if total is None else total, expect=yes(1))
    ends = [s.w.rec["end"]]
    for call in calls:
        left = () if total is None or call[0] == "make" else (total - stores_made(s),)
        getattr(s, call[0])(*call[1:], *left)
        ends.append(s.w.rec["end"])
    s.sums()
    made = (calls, [answer for _, answer in s.answered[1:]], stores_made(s), ends)
    if any(name == "close" and answer[0] == "accepted" for name, answer in s.answered):
        return Run(*made, *read_back(s))
    s.refused(3)
    return Run(*made)


def read_back(s):
    """The file, what is in it, and what the program prints of it: as `listall`, and by every reading call."""
    file, before = bytes(s.w.buffer[:s.w.size()]), len(s.out)
    s.listed()
    s.opened()
    return file, *tree_in(s.edition, file), s.out[before:]


def exchanged(items, k):
    """The items with k and k + 1 exchanged."""
    return [*items[:k], items[k + 1], items[k], *items[k + 2:]]


def both_orders(s, title, buffer, calls, k, total=None):
    """A run, and the same with its calls k and k + 1 exchanged."""
    return run(s, title, buffer, calls, total), run(s, title + ", exchanged", buffer, exchanged(calls, k), total)


def without_allowance(call):
    return call[:{"make": 3, "put": 4, "close": 1}[call[0]]]


def accepted(answers):
    return [answer[0] == "accepted" for answer in answers]


def one_tree(one, other, k):
    """What request C-23 claims of two runs with the same calls but for allowances, where the puts k and k + 1 of the one are exchanged in the other: if the
    same calls are accepted, both puts and a close among them, both files show one tree, and all answers but the stores of accepted puts are the same."""
    assert [without_allowance(call) for call in one.calls] == exchanged([without_allowance(call) for call in other.calls], k)
    answers, same = exchanged(other.answers, k), accepted(one.answers)
    assert same == accepted(answers) and same[k] and same[k + 1] and one.file and other.file
    assert one.nodes == other.nodes and one.printed == other.printed
    for call, first, second in zip(one.calls, one.answers, answers):
        assert first == second or call[0] == "put" and first[0] == "accepted", (call, first, second)
    data_places(one, other, k)


def data_places(one, other, k):
    """Where the data of these two runs are. Those of every node but the two begin at the same place. After the two puts the data end at the same place exactly
    where the lengths agree modulo 8, else at most 7 apart with the same next multiple of 8. From the next accepted put on all ends and answers are the same."""
    moved = [call[1] for call in one.calls[k:k + 2]]
    assert all(first == second for n, (first, second) in enumerate(zip(one.offsets, other.offsets), 1) if n not in moved)
    assert one.answers[:k] == other.answers[:k] and one.ends[:k + 1] == other.ends[:k + 1]
    agree = len(one.calls[k][3]) % 8 == len(one.calls[k + 1][3]) % 8
    first, second = one.ends[k + 2], other.ends[k + 2]
    assert (first == second) == agree and abs(first - second) <= 7 and -first // 8 == -second // 8, (first, second)
    later = [i for i in range(k + 2, len(one.calls)) if one.calls[i][0] == "put" and one.answers[i][0] == "accepted"]
    same = k + 2 if agree else min(later, default=len(one.calls)) + 1
    assert one.ends[same:] == other.ends[same:] and one.answers[same:] == other.answers[same:]
    assert len(one.file) - len(other.file) == (0 if agree or later else first - second)


def put_orders(s):
    one_pair(s)
    total_allowances(s)
    three_puts(s)
    made_before(s)
    later_puts(s)
    refused_calls(s)
    same_remainder(s)
    pairs_of_lengths(s)


def one_pair(s):
    calls = [*PAIR, ("close",)]
    one, other = both_orders(s, "order: abc, then a Double, in a buffer of 238", 238, calls, 2)
    one_tree(one, other, 2)
    assert [md5(r.file).hex() for r in (one, other)] == [ALIGNED[s.edition], DOUBLE_FIRST[s.edition]]
    assert (one.offsets, other.offsets) == ([168, 176], [176, 168]) and (len(one.file), len(other.file)) == (238, 233)
    assert (one.stores, other.stores) == (239, 234)
    one, other = both_orders(s, "order: abc, then a Double, in a buffer of 237", 237, calls, 2)
    assert one.answers[3] == no(21) and all(accepted(other.answers)) and one.nodes != other.nodes


def total_allowances(s):
    """One total allowance for all calls: abc first takes 239 stores in all, the Double first 234."""
    for total, first, second in ((233, no(23, 216), no(23, 221)), (234, no(23, 217), yes(222)), (238, no(23, 221), yes(222)), (239, yes(222), yes(222))):
        one, other = both_orders(s, "order: abc, then a Double, with %d stores in all" % total, 238, [*PAIR, ("close",)], 2, total)
        assert (one.answers[-1], other.answers[-1]) == (first, second) and all(accepted(one.answers[:-1] + other.answers[:-1]))
    one_tree(one, other, 2)


def three_puts(s):
    """Puts of 3, 8 and 5 bytes in every order. The last one begins at 184."""
    puts = [*PAIR[2:], ("put", 3, CHAR, b"12345")]
    makes = [*PAIR[:2], ("make", 0, b"c")]
    runs = {}
    for order in itertools.permutations(range(3)):
        calls = [*makes, *(puts[i] for i in order), ("close",)]
        runs[order] = run(s, "order: 3, 8 and 5 bytes, node %d first, then %d, then %d" % tuple(i + 1 for i in order), 300, calls)
        assert runs[order].ends[-1] == 184 + len(calls[-2][3])
    for order, k in itertools.product(runs, range(2)):
        one_tree(runs[order], runs[tuple(exchanged(order, k))], len(makes) + k)


def made_before(s):
    """The last make before the two puts makes one of the nodes, below the other."""
    calls = [("make", 0, b"c"), ("put", 1, CHAR, b"12345"), ("make", 0, b"a"), ("make", 2, b"b"), ("put", 2, CHAR, ABC), ("put", 3, DOUBLE, ONE), ("close",)]
    one, other = both_orders(s, "order: abc in a node, then a Double in its child made just before", 300, calls, 4)
    one_tree(one, other, 4)
    assert (one.offsets, other.offsets) == ([168, 176, 184], [168, 184, 176]) and (one.ends[-1], other.ends[-1]) == (192, 187)


def later_puts(s):
    """A later put begins and ends at the same place in both orders. It needs 4 stores or, where the Double was put first, 5 zeros more: if its allowance is
    between, it is refused in that order only, and request C-23 claims nothing."""
    for allowance in (9, 8, 4):
        calls = [*PAIR, ("make", 0, b"c"), ("put", 3, INT, INT70, allowance), ("close",)]
        one, other = both_orders(s, "order: abc, then a Double, then an Int with an allowance of %d" % allowance, 300, calls, 2)
        assert one.answers[5] == yes(4) and one.offsets == [168, 176, 184] and one.ends[-1] == 188
        if allowance == 9:
            one_tree(one, other, 2)
            assert other.answers[5] == yes(9) and other.offsets == [176, 168, 184] and other.ends[-1] == 188 and len(one.file) == len(other.file)
        else:
            assert other.answers[5:] == [no(23, allowance), no(22)] and not other.file


def refused_calls(s):
    """Calls before and after the two puts that are refused in both orders, and calls after close."""
    before = [
        ("make", 0, b"a"), ("make", 0, b"a"), ("make", 0, b"b"), ("make", 1, b"bad/"), ("put", 0, CHAR, ABC), ("put", 3, CHAR, ABC), ("put", 2, DOUBLE, ABC),
    ]
    later = [
        ("make", 2, b"a"), ("make", 2, b"a"), ("make", 9, b"a"), ("make", 0, b"/"), ("put", 1, CHAR, ABC), ("put", 2, DOUBLE, ONE), ("put", 3, 6, ABC),
        ("put", 3, CHAR, bytes(300)), ("put", 3, COMPLEX, ONE * 2), ("close",), ("make", 0, b"d"), ("put", 3, CHAR, ABC), ("close",),
    ]
    one, other = both_orders(s, "order: abc, then a Double, among refused calls", 300, [*before, *PAIR[2:], *later], len(before))
    one_tree(one, other, len(before))
    assert one.answers[:7] == [yes(1), no(17), yes(2), no(14, 3), no(18), no(15), no(19)]
    assert one.answers[9:17] == [yes(3), no(17), no(15), no(14, 0), no(18), no(18), no(19), no(21)]
    assert one.answers[17:] == [yes(16), yes(168 + 4 + 75), no(22), no(22), no(22)] and other.answers[17] == yes(5 + 16)


def same_remainder(s):
    """Lengths of 3 and 11, which agree modulo 8: every later answer is the same in both orders, accepted or not."""
    pair = [*PAIR[:3], ("put", 2, CHAR, b"hello world")]
    # The data end at 187. With four nodes, two of them with data, and four strings the file has 271 bytes; 12 for the entry, 5 zeros and 12 bytes fill the 300.
    later = [("make", 0, b"c"), ("make", 1, b"d"), ("make", 1, b"d"), ("put", 3, CHAR, bytes(13))]
    answers = [yes(3), yes(4), no(17), no(21)]
    for allowance, more in ((17, [yes(17), no(21), yes(168 + 8 + 88), no(22)]), (16, [no(23, 16), no(22), no(22), no(22)])):
        calls = [*pair, *later, ("put", 3, CHAR, bytes(range(12)), allowance), ("make", 0, b"e"), ("close",), ("make", 0, b"e")]
        one, other = both_orders(s, "order: 3 and 11 bytes, then 12 with an allowance of %d" % allowance, 300, calls, 2)
        assert one.answers[4:] == other.answers[4:] == answers + more and one.ends[4:] == other.ends[4:] and one.ends[4] == 187
        if allowance == 17:
            one_tree(one, other, 2)
            assert len(one.file) == len(other.file) == 300


def pairs_of_lengths(s):
    """Puts of so many bytes: one before the pair, and the pair; where the data end in both orders."""
    kind = {8: DOUBLE, 16: COMPLEX}
    makes = [("make", 0, name) for name in (b"a", b"b", b"c")]
    for before, left, right, first, second in (
        (0, 8, 16, 192, 192), (0, 0, 8, 176, 176), (1, 9, 1, 193, 193), (3, 0, 5, 181, 184), (4, 4, 7, 191, 188), (7, 1, 8, 192, 185), (8, 0, 7, 183, 184),
    ):
        lengths = (before, left, right)
        puts = [("put", k, kind.get(n, CHAR), bytes(range(k, k + n))) for k, n in enumerate(lengths, 1)]
        one, other = both_orders(s, "order: %d bytes, then the pair of %d and %d" % lengths, 300, [*makes, *puts, ("close",)], 4)
        one_tree(one, other, 4)
        assert (one.ends[-1], other.ends[-1]) == (first, second)


def main():
    top = destination(__doc__)
    s = Script()
    for s.edition in WRITTEN:
        for part in (whole_files, every_kind, no_bytes, limits, begin_refusals, make_refusals, put_refusals, close_refusals, altered, padding, ends, offsets):
            part(s)
    unwritten_editions(s)
    for s.edition in WRITTEN:
        put_orders(s)
    write(top, "crates/test_write/stdin", b"".join(s.stdin))
    write(top, "crates/test_write/stdout", "".join(s.out).encode("latin-1"))
    print(s.cases, "cases,", len(s.stdin), "steps")


if __name__ == "__main__":
    main()
