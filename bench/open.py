#!/usr/bin/env python3
"""The processor time of `open` beside that of `md5` over the three sections of the same image, in one run.

Measured are a large image, images with no data and how their time grows with nodes and strings, and images that are made to be slow. Every
image is of edition 2 and is made here, with sums by hashlib. The run fails where an opening does not hand back the expected number. Samples
of the two functions take turns; bench/tools.py says how times are taken.

Use, from anywhere: bench/open.py [ROUNDS].
It needs rt, a C compiler as cc, Linux on x86-64, 300 MB of memory, and 70 MB of disk below target/ in a folder that it removes again.
"""
import hashlib
import os
import random
import struct
import tempfile

from tools import OUT, Table, figure, in_turns, measured, program, rounds, shown

FORM = bytes([0, 64, 2, 53, 4, 0, 3, 253, 0, 0, 0, 168])
HEADER = 168
SIZES = (256, 512, 1024, 2048)
MANY = SIZES[-1]
LONG = 16 * 2**10


def void(parent, string):
    return struct.pack(">BQI", 1, parent, string)


def chars(parent, string, count, offset):
    return struct.pack(">BQIIQ", 2, parent, string, count, offset)


def write_image(path, symbols, strings, tree, nodes, zeros=0):
    """An image of edition 2 whose data section is so many zeros; `tree` is the tree table, or a function that makes it of the place of the data."""
    if callable(tree):
        tree = tree(HEADER + len(symbols) + len(tree(0)))
    data = hashlib.md5()
    for _ in range(zeros // 2**20):
        data.update(bytes(2**20))
    data.update(bytes(zeros % 2**20))
    header, at = b"LHPC AFF version 2.0" + FORM, HEADER
    for size, records, digest in (
        (len(symbols), strings, hashlib.md5(symbols).digest()),
        (len(tree), nodes, hashlib.md5(tree).digest()),
        (zeros, nodes, data.digest()),
    ):
        header += struct.pack(">QQQ", at, size, records) + digest
        at += size
    with open(path, "wb") as file:
        file.write(header + hashlib.md5(header).digest() + symbols + tree)
        file.truncate(at)


def table(strings):
    return b"".join(string + b"\0" for string in strings)


def ending(i):
    """Two letters for a number below 2,704, in its order."""
    letters = b"ABCDEFGHIJKLMNOPQRSTUVWXYZabcdefghijklmnopqrstuvwxyz"
    return bytes([letters[i // 52], letters[i % 52]])


def plain(count):
    """Names in no order, and a tree in which a node has up to eight children."""
    order = list(range(count))
    random.Random(1).shuffle(order)
    names = [b"key." + str(i).encode() for i in order]
    return table(names), count, b"".join(void(k // 8, k) for k in range(count)), count


def large(path):
    share = 2**28 // MANY
    symbols, strings, _, nodes = plain(MANY)
    write_image(path, symbols, strings, lambda at: b"".join(chars(k // 8, k, share, at + k * share) for k in range(MANY)), nodes, 2**28)


def chain(parents):
    return b"".join(void(parent, 0) for parent in parents)


def long_names():
    return [b"a" * (LONG - 3) + ending(i) for i in range(MANY)]


SHORT_NAMES = [b"key." + ending(i) for i in range(MANY)]
UPWARD = list(range(2, MANY + 1)) + [0]

# What an image is, the expected number, and its maker.
LARGE = ("2,048 nodes, 256 MiB of data", 0, large)
PLAIN = [(f"{count:,} nodes and strings, no data", 0, lambda path, count=count: write_image(path, *plain(count))) for count in SIZES]
HOSTILE = [
    ("2,048 strings of 16 KiB that differ in the last two bytes", 0, lambda path: write_image(path, table(long_names()), MANY, b"", 0)),
    ("the same in falling order", 0, lambda path: write_image(path, table(long_names()[::-1]), MANY, b"", 0)),
    (
        "2,048 names in falling order, children of the root in falling order",
        0,
        lambda path: write_image(path, table(SHORT_NAMES[::-1]), MANY, b"".join(void(0, MANY - 1 - k) for k in range(MANY)), MANY),
    ),
    ("a chain of 2,048 nodes, each parent above its child", 0, lambda path: write_image(path, b"a\0", 1, chain(UPWARD), MANY)),
    ("such a chain that ends in a ring", 11, lambda path: write_image(path, b"a\0", 1, chain(UPWARD[:-1] + [MANY - 1]), MANY)),
    (
        "2,048 strings, and all 2,048 nodes have the longest, of 32 MiB",
        0,
        lambda path: write_image(path, table([b"a" * 2**25] + SHORT_NAMES[1:]), MANY, chain(range(MANY)), MANY),
    ),
    ("one string of 64 MiB, the name of one node", 0, lambda path: write_image(path, b"a" * 2**26 + b"\0", 1, void(0, 0), 1)),
    ("64 MiB of symbol table, all zeros", 25, lambda path: write_image(path, bytes(2**26), 2**26, b"", 0)),
    ("64 MiB of tree table, all zeros", 9, lambda path: write_image(path, b"", 0, bytes(2**26), 2**26)),
]


def compared(rounds, table, what, number, maker):
    """Adds an image's row, and hands back the times of the digests and of an opening."""
    with tempfile.TemporaryDirectory(dir=OUT) as folder:
        path = os.path.join(folder, "image")
        maker(path)
        both = in_turns(rounds, measured(program("open"), "both", path, str(number)))
    table.add(what, f"refused, {number}" if number else "accepted", shown(both.second), shown(both.first), both.spread())
    return both


def tables(rounds):
    heads = "Image", "Answer", "`open`", "`md5`", "Ratio"
    opening = Table("opening", *heads)
    program("open")
    compared(rounds, opening, *LARGE)
    few, *_, many = [compared(rounds, opening, *image) for image in PLAIN]
    made = Table("slow images", *heads)
    hostile = [compared(rounds, made, *image) for image in HOSTILE]
    bounds = Table("bounds of opening", "What", "Measured")
    bounds.add("time of `open` with 2,048 nodes and strings over that with 256; 8 would be linear", figure(many.second / few.second))
    bounds.add("highest ratio of an image with more than a millisecond of `md5`", figure(max(both.ratio for both in hostile if 1e-3 < both.first)))
    small = [both for both in (*hostile, many) if both.first <= 1e-3]
    bounds.add("highest ratio of one with less", figure(max(both.ratio for both in small)))
    bounds.add("longest `open` of one with less", shown(max(both.second for both in small)))
    return [opening, made, bounds]


if __name__ == "__main__":
    tables(rounds())
