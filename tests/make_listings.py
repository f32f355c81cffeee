#!/usr/bin/env python3
"""Makes the images of the test program test_list, the inputs of list, listall, test_list_blocks and test_list_limit, and the samples of the README, with
what must be printed.

What `list` and `listall` print is worked out here from the description of each tree, with no code of the library; the answers at the limits are written
by hand. It writes crates/test_list/stdin (each image after its length in 4 bytes) and stdout, stdin and stdout of crates/list and crates/listall (65,536
bytes), of crates/test_list_blocks (a text of more than two blocks) and of crates/test_list_limit (65,537 bytes), the files of samples/ and
tests/test_list.txt.

    tests/make_listings.py [FOLDER]      FOLDER: where these are written, the repository where none is given
"""
import os
import struct

from make_images import (
    CHAR, COMPLEX, COUNTED, DOUBLE, EDITIONS, HEADER, HEADERS, INT, MANY, VOID, WIDE, WRITTEN, Image, aligned, changed, destination, entry, md5, wide_names,
)

WORD = {VOID: b"void", CHAR: b"char", INT: b"int", DOUBLE: b"double", COMPLEX: b"complex"}
SIZE = {CHAR: 1, INT: 4, DOUBLE: 8, COMPLEX: 16}
LIMIT = 65536
# The bytes of a block of text in crates/test_list_brief: as many as the longest line can have.
BLOCK = 4 * LIMIT + 20
BRIEF = 1024


def make(ed, nodes, ended=True, after=None):
    """The image of a tree: a node is (parent, name, kind, count), numbered from 1. Its data follow each other without padding, as a reader allows and our
    writer does not write them (request C-22). Where `ended` is false, the last string has no zero (request C-13).
    `after`: bytes of no section that follow the symbol section, which is then the last; where it is not given, the tree table follows it."""
    strings, data, entries = [], b"", []
    for parent, name, kind, count in nodes:
        if name not in strings:
            strings.append(name)
        entries.append(entry(kind, parent, strings.index(name), count, HEADER[ed] + len(data)))
        if kind != VOID:
            data += b"\xff\xff\xff\xba" * (count * SIZE[kind] // 4) + b"x" * (count * SIZE[kind] % 4)
    image = Image(ed, strings=strings, entries=entries, data=data, ended=ended)
    image.count = {"data": sum(kind != VOID for _, _, kind, _ in nodes)}
    if after is not None:
        image.order, image.tail = ("data", "tree", "symbol"), after
    return image.bytes()


def walked(nodes):
    """Path, type and count of a node, then its children in number order, each followed by its subtree; a path is the parent's, a slash and the name."""
    children = {}
    for k, node in enumerate(nodes, 1):
        children.setdefault(node[0], []).append(k)
    left = [(0, b"")]
    while left:
        k, path = left.pop()
        kind, count = nodes[k - 1][2:] if k else (VOID, 0)
        yield path or b"/", kind, count
        left += [(c, path + b"/" + nodes[c - 1][1]) for c in reversed(children.get(k, []))]


def shown(path):
    """A path as it is printed (request C-15): a byte below 33, above 126 or equal to 92, the backslash, by \\x and two small hex digits."""
    return b"".join(b"%c" % x if 33 <= x <= 126 and x != 92 else b"\\x%02x" % x for x in path)


def lines(nodes, void=True):
    """A line for each node, as `listall` prints them; without those of the Void nodes, as `list` does."""
    return [b"%s %s %d\n" % (shown(path), WORD[kind], count) for path, kind, count in walked(nodes) if void or kind != VOID]


def brief(rows):
    """The lines in blocks, as many whole lines in each as fit; a block above 1,024 bytes by its length and sum."""
    blocks = [b""]
    for row in rows:
        if len(blocks[-1]) + len(row) > BLOCK:
            blocks.append(b"")
        blocks[-1] += row
    return b"".join(b if len(b) <= BRIEF else b"%d bytes, MD5 %s\n" % (len(b), md5(b).hex().encode()) for b in blocks)


def chain(n, name, last=None, kind=VOID):
    """Each node below the one before, Void but for the last, which has one element where it is of another type."""
    nodes = [(k, name, VOID, 0) for k in range(n)]
    nodes[-1] = (n - 1, last or name, kind, int(kind != VOID))
    return nodes


def padded(image, size):
    """An image with zeros after its last section: bytes of no section are ignored."""
    return image + bytes(size - len(image))


WORKED = [(0, b"a", VOID, 0), (1, b"n", INT, 1)]
# What `list` and `listall` print of it, by hand.
WORKED_SHORT, WORKED_FULL = [b"/a/n int 1\n"], [b"/ void 0\n", b"/a void 0\n", b"/a/n int 1\n"]
# Parents above their children, every type, count 0, siblings in number order.
MIXED = [(3, b"x", CHAR, 3), (3, b"y", DOUBLE, 2), (0, b"b", VOID, 0), (0, b"a", COMPLEX, 1), (4, b"x", INT, 0), (1, b"deep.er", VOID, 0), (0, b"_:", CHAR, 10)]
# Void nodes above, between and below nodes with data, and parents above their children.
BETWEEN = [
    (5, b"x", INT, 1), (1, b"v", VOID, 0), (2, b"d", DOUBLE, 2), (0, b"e", CHAR, 4), (6, b"f", VOID, 0),
    (0, b"g", VOID, 0), (6, b"y", COMPLEX, 1), (2, b"w", VOID, 0), (8, b"z", INT, 3), (9, b"last", VOID, 0),
]
VOIDS = [(2, b"a", VOID, 0), (0, b"b", VOID, 0), (0, b"a", VOID, 0), (3, b"a", VOID, 0)]
# Types with no element are no Void nodes.
EMPTY = [(0, b"c", CHAR, 0), (0, b"i", INT, 0), (0, b"f", VOID, 0), (3, b"d", DOUBLE, 0), (3, b"z", COMPLEX, 0)]
# A path of 65,536 bytes, and one of 65,537; both again with bytes that are printed as four.
EXACT, ABOVE = (16, b"s" * 4095), (16, b"s" * 4095, b"t" * 4096)
WIDE_EXACT, WIDE_ABOVE = (16, b"\1" * 4095), (16, b"\1" * 4095, b"\1" * 4096)
REFUSED_21, TOO_LONG = [b"refused 21 0\n"], [b"too long\n"]
# The tree of samples/wide_names.aff, and what is printed of it, by hand.
NAMED = [(0, b"9a", VOID, 0), (1, b"p x=\xff\\", DOUBLE, 1), (1, b"\n", CHAR, 2)]
NAMED_SHORT = [b"/9a/p\\x20x=\\xff\\x5c double 1\n", b"/9a/\\x0a char 2\n"]
NAMED_FULL = [b"/ void 0\n", b"/9a void 0\n", *NAMED_SHORT]
# The tree of samples/aligned.aff, and what is printed of it, by hand.
PADDED = [(0, b"a", CHAR, 3), (0, b"b", DOUBLE, 1)]
PADDED_SHORT = [b"/a char 3\n", b"/b double 1\n"]
PADDED_FULL = [b"/ void 0\n", *PADDED_SHORT]
# Bytes on both sides of each limit of what is printed as it is, and how each is printed, by hand.
ESCAPES = {
    1: b"\\x01", 31: b"\\x1f", 32: b"\\x20", 33: b"!", 34: b'"', 46: b".", 48: b"0", 91: b"[", 92: b"\\x5c", 93: b"]", 125: b"}", 126: b"~", 127: b"\\x7f",
    128: b"\\x80", 255: b"\\xff",
}


def below(folders, name, nodes):
    """A chain of folders of one name, and nodes below its end: (name, type, count)."""
    return chain(folders, name) + [(folders, *node) for node in nodes]


def full_block(size, count, folder):
    """So many Ints below eight folders of one name, each with a line of `size` bytes."""
    length = size - len(b" int 1\n") - 8 * len(shown(b"/" + folder)) - 1
    return below(8, folder, [(b"n" * (length - 1) + b"%c" % (97 + k), INT, 1) for k in range(count)])


def trees():
    """What a tree is, its edition, its nodes, and what `list` and `listall` print where that is written by hand."""
    for ed in EDITIONS:
        yield "document 01's worked file", ed, WORKED, WORKED_SHORT, WORKED_FULL
        yield "every type, a parent above its children", ed, MIXED
        yield "no node", ed, [], [], [b"/ void 0\n"]
        yield "all nodes Void", ed, VOIDS, [], [b"/ void 0\n", b"/b void 0\n", b"/b/a void 0\n", b"/a void 0\n", b"/a/a void 0\n"]
        yield "Void nodes between nodes with data, parents above their children", ed, BETWEEN
        yield "no element, of each type", ed, EMPTY
        yield "a chain of 2,048 nodes, an Int at its end", ed, chain(2048, b"n", kind=INT)
        yield "a path of 65,536 bytes, all nodes Void", ed, chain(*EXACT)
        yield "a path of 65,536 bytes, an Int at its end", ed, chain(*EXACT, kind=INT)
        yield "a path of 65,537 bytes, all nodes Void", ed, chain(*ABOVE), [], REFUSED_21
        yield "a path of 65,537 bytes, an Int at its end", ed, chain(*ABOVE, kind=INT), REFUSED_21, REFUSED_21
        beside = chain(*ABOVE) + [(0, b"n", INT, 1)]
        yield "a Void node with a path of 65,537 bytes, and an Int with a short one", ed, beside, [b"/n int 1\n"], REFUSED_21
    halfway = [(0, b"n", INT, 1)] + [(k + 1, *node) for k, *node in chain(*ABOVE)]
    yield "a Void node with a path above 65,536 bytes below an Int", 2, halfway, [b"/n int 1\n"], REFUSED_21
    up = [(2, b"n", INT, 1)] + [((k + 1) % 2049, b"n", VOID, 0) for k in range(2, 2049)]
    yield "a chain of 2,048 nodes, each parent above its child, an Int at its end", 2, up
    yield "1,500 children of the root", 2, [(0, b"k%d" % k, CHAR, k % 10) for k in range(1500)]
    yield "1,500 children of the root, every third Void", 2, [(0, b"k%d" % k, CHAR if k % 3 else VOID, k % 3) for k in range(1500)]
    several = below(3, b"s" * 8000, [(b"n%d" % k, INT if k % 3 else VOID, k % 3) for k in range(30)])
    yield "lines of 24,000 bytes in several blocks, every third Void", 2, several
    yield "five lines of a quarter of a block: four fill it", 2, full_block(BLOCK // 4, 5, b"s" * 8000)
    yield "five lines of one byte more: three in a block", 2, full_block(BLOCK // 4 + 1, 5, b"s" * 8000)
    yield "2,048 nodes, paths up to 206,848 bytes, all Void", 2, chain(2048, b"s" * 100), [], REFUSED_21
    yield "2,048 nodes, paths up to 206,848 bytes, an Int at the end", 2, chain(2048, b"s" * 100, kind=INT), REFUSED_21, REFUSED_21
    yield from wide_trees()


def wide_trees():
    """Trees of edition 3 whose names have bytes that are printed as four."""
    ints = [b"/%s int 1\n" % text for text in ESCAPES.values()]
    yield "bytes on both sides of what is printed as it is", 3, [(0, b"%c" % x, INT, 1) for x in ESCAPES], ints, [b"/ void 0\n", *ints]
    one = b"/a%sb" % b"".join(ESCAPES.values())
    nodes, char = [(0, b"a%sb" % bytes(ESCAPES), VOID, 0), (1, b" ", CHAR, 0)], one + b"/\\x20 char 0\n"
    yield "the same bytes in one name, a space below it", 3, nodes, [char], [b"/ void 0\n", one + b" void 0\n", char]
    yield "every byte but zero and the slash, each a name", 3, [(0, b"%c" % x, CHAR if x % 2 else VOID, x % 2) for x in WIDE]
    yield "a chain of three names of every byte but zero and the slash", 3, chain(3, WIDE, kind=INT)
    alike = [(0, b" ", VOID, 0), (0, b"x20", VOID, 0), (0, b"\\x20", VOID, 0)]
    full = [b"/ void 0\n", b"/\\x20 void 0\n", b"/x20 void 0\n", b"/\\x5cx20 void 0\n"]
    yield "names that look like what is printed of others", 3, alike, [], full
    yield "a path of 65,536 bytes 01, all nodes Void", 3, chain(*WIDE_EXACT)
    yield "a path of 65,536 bytes 01, an Int at its end", 3, chain(*WIDE_EXACT, kind=INT)
    yield "a path of 65,537 bytes 01, all nodes Void", 3, chain(*WIDE_ABOVE), [], REFUSED_21
    yield "a path of 65,537 bytes 01, an Int at its end", 3, chain(*WIDE_ABOVE, kind=INT), REFUSED_21, REFUSED_21
    yield "three lines of half a block: two fill it", 3, full_block(BLOCK // 2, 3, b"\1" * 4000)
    yield "three lines of one byte more: one in a block", 3, full_block(BLOCK // 2 + 1, 3, b"\1" * 4000)


def unterminated():
    """Trees whose last string has no zero: what it is, its edition, its nodes, what follows the symbol section (by default the tree table), and what
    `list` and `listall` print. No byte after the section belongs to the name."""
    deep = [(0, b"x.y", CHAR, 3), (1, b"last:one", VOID, 0), (2, b"last:one", DOUBLE, 1), (0, b"last:one", INT, 0)]
    for ed in EDITIONS:
        yield "document 01's worked file", ed, WORKED, None, WORKED_SHORT, WORKED_FULL
        for after in (b"", b"bc", b"\0", b"/x", b"n\0"):
            yield f"the worked file, the symbol table before {after!r} at the end", ed, WORKED, after, WORKED_SHORT, WORKED_FULL
        yield "several nodes of that name, before letters", ed, deep, b"one"
    yield "one node", 2, [(0, b"n", INT, 1)], b"nn\0", [b"/n int 1\n"], [b"/ void 0\n", b"/n int 1\n"]
    yield "2,048 strings", 2, [(0, b"k%d" % k, INT if k % 7 == 5 else VOID, int(k % 7 == 5)) for k in range(100, 2148)], b"0"


def refusals():
    """What an input is, its bytes, and the line that both programs print."""
    yield "no byte", b"", [b"refused 2 0\n"]
    for ed in COUNTED:
        worked, front = make(ed, WORKED), f"edition {ed}: "
        yield front + "a wrong header sum", worked[:40] + b"\1" + worked[41:], [b"refused 5 0\n"]
        yield front + "a wrong sum of the tree table", worked[:-1] + b"\1", [b"refused 7 2\n"]
        yield front + "strings a, n, a", changed(ed, strings=[b"a", b"n", b"a"]).bytes(), [b"refused 27 2\n"]
        yield front + "a string count of 3 for 2", changed(ed, count={"symbol": 3}).bytes(), [b"refused 26 0\n"]
        yield front + "2,049 strings", changed(ed, strings=MANY[:2049]).bytes(), [b"refused 25 2048\n"]
        yield front + "strings a, n, a, the last without its zero", changed(ed, strings=[b"a", b"n", b"a"], ended=False).bytes(), [b"refused 27 2\n"]
        yield front + "a string count of 1 for 2, the last without its zero", changed(ed, ended=False, count={"symbol": 1}).bytes(), [b"refused 26 0\n"]
        yield front + "a name with a slash, without its zero", make(ed, [(0, b"a", VOID, 0), (1, b"9/n", INT, 1)], ended=False), [b"refused 10 2\n"]
        yield front + "its own parent", make(ed, [(1, b"a", VOID, 0)]), [b"refused 11 1\n"]
    yield "edition 2: the name 9n", make(2, [(0, b"a", VOID, 0), (1, b"9n", INT, 1)]), [b"refused 10 2\n"]
    yield "edition 3: section headers in the order of edition 2", changed(3, headers=HEADERS[2]).bytes(), [b"refused 26 0\n"]
    yield "65,537 bytes", padded(make(2, WORKED), LIMIT + 1), TOO_LONG
    yield "65,537 bytes of no text", bytes(LIMIT + 1), TOO_LONG


def answers(places):
    """What the listing call answers for an output with a place for each node listed, and with one place fewer."""
    fewer = b"%d places: refused 21 0\n" % (places - 1) if places else b""
    return b"%d places: %d\n" % (places, places) + fewer


def calls(nodes):
    """The answers of the listing call, for the nodes that are not Void and for all."""
    return answers(sum(kind != VOID for _, _, kind, _ in nodes)), answers(len(nodes) + 1)


def cases():
    """What an image is, its bytes, the lines that `list` and `listall` print of it, and the answers of the listing call where it opens."""
    for what, ed, nodes, *by_hand in trees():
        yield f"edition {ed}: {what}", make(ed, nodes), *(by_hand or (lines(nodes, False), lines(nodes))), *calls(nodes)
    for what, ed, nodes, after, *by_hand in unterminated():
        image = make(ed, nodes, ended=False, after=after)
        yield f"edition {ed}, no last zero: {what}", image, *(by_hand or (lines(nodes, False), lines(nodes))), *calls(nodes)
    yield "edition 3: names that editions 1 and 2 refuse, 253 bytes", wide_names().bytes(), NAMED_SHORT, NAMED_FULL, *calls(NAMED)
    yield "65,536 bytes", padded(make(2, WORKED), LIMIT), lines(WORKED, False), lines(WORKED), *calls(WORKED)
    for what, image, line in refusals():
        yield what, image, line, line, b"", b""
    for ed in WRITTEN:
        yield f"edition {ed}: a padded Double, 238 bytes", aligned(ed).bytes(), PADDED_SHORT, PADDED_FULL, *calls(PADDED)


def write(top, path, content):
    path = os.path.join(top, *path.split("/"))
    os.makedirs(os.path.dirname(path), exist_ok=True)
    with open(path, "wb") as f:
        f.write(content)


def main():
    top = destination(__doc__)
    stdin, out, index = b"", b"", "The images of crates/test_list/stdin, made by tests/make_listings.py.\n\n"
    for k, (name, image, short, full, by_short, by_full) in enumerate(cases()):
        stdin += struct.pack(">I", len(image)) + image
        out += b"%d list\n%s%s%d listall\n%s%s" % (k, brief(short), by_short, k, brief(full), by_full)
        index += "%d %s\n" % (k, name)
    write(top, "crates/test_list/stdin", stdin)
    write(top, "crates/test_list/stdout", out)
    write(top, "tests/test_list.txt", index.encode())
    for program, void in (("list", False), ("listall", True)):
        write(top, f"crates/{program}/stdin", padded(make(2, WORKED), LIMIT))
        write(top, f"crates/{program}/stdout", b"".join(lines(WORKED, void)))
    several = below(2, b"\1" * 8000, [(b"n%d" % k, INT, 1) for k in range(7)])
    assert 2 * BLOCK < sum(map(len, lines(several)))
    write(top, "crates/test_list_blocks/stdin", make(3, several))
    write(top, "crates/test_list_blocks/stdout", b"".join(lines(several)))
    write(top, "crates/test_list_limit/stdin", padded(make(2, WORKED), LIMIT + 1))
    write(top, "crates/test_list_limit/stdout", b"".join(TOO_LONG))
    write(top, "samples/worked.aff", make(2, WORKED))
    write(top, "samples/worked3.aff", make(3, WORKED))
    write(top, "samples/wide_names.aff", wide_names().bytes())
    write(top, "samples/unterminated.aff", make(2, WORKED, ended=False))
    write(top, "samples/aligned.aff", aligned(2).bytes())
    print(k + 1, "images")


if __name__ == "__main__":
    main()
