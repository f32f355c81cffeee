#!/usr/bin/env python3
"""The processor time of building a file by the writer's calls, and of one call, by the number of nodes.

The trees are those of bench/read.py, of 256 and of 2,048 nodes: all nodes children of the root, with a name each; and three levels, whose names come
again below each parent. Nodes with data get 64 Doubles. The files are of edition 2; a whole file is also made in edition 3. The run fails where an answer is
not the expected one, or where the file that was written is not the one that tests/make_images.py lays out. In a round the two sizes take turns;
bench/tools.py says how times are taken.

Use, from anywhere: bench/write.py [ROUNDS].
It needs rt, a C compiler as cc, Linux on x86-64, and 3 MB of disk below target/ in a folder that it removes again.
"""
import os
import sys
import tempfile

from tools import OUT, Table, in_turns, measured, program, rounds, shown
from trees import SIZES, flat, levels

# What is called.
CALLS = [
    ("24 alone: `put` to the root", "judge"),
    ("`make`, the last node", "make"),
    ("`put`, the last node", "put"),
    ("`close`", "close"),
    ("a whole file: `begin`, `make` and `put` for each node, `close`", "build"),
    ("the same in edition 3", "build3"),
]


class Bench:
    """A tree and the file that is built of it, in a folder of their own."""

    def __init__(self, tree):
        os.makedirs(OUT, exist_ok=True)
        self.tree, self.folder = tree, tempfile.TemporaryDirectory(dir=OUT)
        with open(self.file("tree"), "wb") as file:
            file.write(b"".join(b"%d %s %d\n" % node for node in tree.nodes))

    def file(self, name):
        return os.path.join(self.folder.name, name)

    def measured(self, command, call):
        found = measured(*command, call, self.file("tree"), self.file("image"))
        with open(self.file("image"), "rb") as file:
            if file.read() != self.tree.image(3 if call.endswith("3") else 2):
                sys.exit(f"{' '.join(command)}: another file than expected")
        os.remove(self.file("image"))
        return found


def tables(rounds):
    table = Table("writing", "Call", "Flat, 256 nodes", "2,048", "Growth", "Three levels, 256 nodes", "2,048", "Growth")
    shapes = [[Bench(shape(nodes)) for nodes in SIZES] for shape in (flat, levels)]
    for what, call in CALLS:
        found = [in_turns(rounds, *(bench.measured([program("write")], call) for bench in benches)) for benches in shapes]
        table.add(what, *(cell for both in found for cell in (shown(both.first), shown(both.second), both.spread())))
    return [table]


if __name__ == "__main__":
    tables(rounds())
