#!/usr/bin/env python3
"""The processor time of one reading call on an opened image, by its number of nodes: `lookup`, `view`, `element`, the decoding of a held view, and
listing order of all nodes and of those that are not Void.

Two shapes of tree, each of 256 and of 2,048 nodes: all nodes children of the root, with a name each; and three levels, whose names come again below
each parent. Besides, lookups in images that are made to be slow, and 24 with a large symbol section. Nodes with data hold 64 Doubles. Keys are taken at random, the last among
them. The run fails where an answer is not the expected one. In a round the two sizes take turns; bench/tools.py says how times are taken.

Use, from anywhere: bench/read.py [ROUNDS].
It needs rt, a C compiler as cc, Linux on x86-64, and 70 MB of disk below target/ in folders that it removes again.
"""
import os
import random
import tempfile

from tools import OUT, Table, in_turns, measured, program, rounds, shown
from trees import SIZES, chain, flat, levels, one_string

DRAWN = 1000
LONG = 2**13


class Bench:
    """The image of a tree, in a folder of its own."""

    def __init__(self, tree):
        os.makedirs(OUT, exist_ok=True)
        self.tree, self.folder = tree, tempfile.TemporaryDirectory(dir=OUT)
        with open(self.file("image"), "wb") as file:
            file.write(tree.image())

    def file(self, name):
        return os.path.join(self.folder.name, name)

    def measured(self, command, call, keys):
        """A function that measures a call for keys in turn; `keys` are a function of the tree."""
        with open(self.file(keys.__name__), "wb") as file:
            file.write(b"".join(b"%d %s\n" % key for key in keys(self.tree)))
        return measured(*command, call, self.file("image"), self.file(keys.__name__))


def drawn(tree):
    nodes = random.Random(1).choices(tree.full, k=DRAWN - 1) + tree.full[-1:]
    return [(node, tree.path(node)) for node in nodes]


def last(tree):
    return drawn(tree)[-1:]


def absent(tree):
    return [(0, path[:-1] + b"x") for _, path in drawn(tree)]


def with_data(tree):
    """The nodes that are not Void, in listing order, which is that of their numbers in these trees."""
    return [(node, tree.path(node)) for node in tree.full]


def long_absent(tree):
    return [(0, b"/x/" + b"a" * LONG)]


def root(tree):
    return [(0, b"/")]


JUDGED = "24 alone: `view` of the root"

# What is called, and for which keys.
USUAL = [
    (JUDGED, "judge", last),
    ("`lookup`, keys at random", "lookup", drawn),
    ("`lookup`, the last key", "lookup", last),
    ("`lookup`, no such key", "lookup", absent),
    ("`view`", "view", drawn),
    ("`element`", "element", drawn),
    ("decoding of a held view", "decode", drawn),
    ("listing order, all nodes", "order", last),
    ("listing order, nodes that are not Void", "short", with_data),
]

# Lookups that are made to be slow: what they are, the name of each node of the chain, and the key.
SLOW = [
    ("a chain of one name, `a`; `lookup` of its end, a path of two bytes a node", b"a", last),
    ("a chain of one name of 8 KiB; `lookup` of `/x/` and that name, no such key", b"a" * LONG, long_absent),
]

# Bytes of a symbol section that is one string without its zero.
SECTIONS = (2**10, 2**26)


def grown(rounds, benches, call, keys):
    """Cells: the times of a call at the two sizes, and the growth."""
    both = in_turns(rounds, *(bench.measured([program("read")], call, keys) for bench in benches))
    return shown(both.first), shown(both.second), both.spread()


def tables(rounds):
    usual = Table("reading", "Call", "Flat, 256 nodes", "2,048", "Growth", "Three levels, 256 nodes", "2,048", "Growth")
    shapes = [[Bench(shape(nodes)) for nodes in SIZES] for shape in (flat, levels)]
    for what, call, keys in USUAL:
        usual.add(what, *(cell for benches in shapes for cell in grown(rounds, benches, call, keys)))
    slow = Table("slow lookups", "Image and key", "256 nodes", "2,048", "Growth")
    for what, name, keys in SLOW:
        slow.add(what, *grown(rounds, [Bench(chain(nodes, name)) for nodes in SIZES], "lookup", keys))
    large = Table("large symbol sections", "Call", "1 KiB", "64 MiB", "Growth")
    large.add(JUDGED, *grown(rounds, [Bench(one_string(size)) for size in SECTIONS], "judge", root))
    return [usual, slow, large]


if __name__ == "__main__":
    tables(rounds())
