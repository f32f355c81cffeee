"""The trees that are read and written, and their images by tests/make_images.py."""
import os
import struct
import sys

from tools import ROOT

SIZES = (256, 2048)
COUNT = 64

sys.path.insert(0, os.path.join(ROOT, "tests"))
from make_images import DOUBLE, HEADER, INT, VOID, Image, entry  # noqa: E402


class Tree:
    """Nodes are added parents first. The bytes of an image are made at the end, of edition 2 where no other is named; where `ended` is false, the last
    string has no zero."""

    def __init__(self, ended=True):
        self.strings, self.nodes, self.full, self.ended = {}, [], [], ended

    def add(self, parent, name, full):
        self.strings.setdefault(name, len(self.strings))
        self.nodes.append((parent, name, full))
        if full:
            self.full.append(len(self.nodes))
        return len(self.nodes)

    def path(self, node):
        parts = []
        while node:
            node, name, _ = self.nodes[node - 1]
            parts.append(b"/" + name)
        return b"".join(reversed(parts))

    def image(self, edition=2):
        """A node with data has 64 Doubles: element j of node n is n + j / 1024. Their bytes are a multiple of 8, so our writer, which begins each put at such
        a multiple (request C-22), makes this file without padding."""
        return self.laid_out(edition, DOUBLE, COUNT, lambda node: struct.pack(f">{COUNT}d", *(node + j / 1024 for j in range(COUNT))))

    def small_image(self):
        """A node with data has one Int, its number. The Ints follow each other without padding: a file that is only read."""
        return self.laid_out(2, INT, 1, lambda node: struct.pack(">i", node))

    def laid_out(self, edition, kind, count, data_of):
        entries, data = [], b""
        for node, (parent, name, full) in enumerate(self.nodes, 1):
            string = self.strings[name]
            if full:
                entries.append(entry(kind, parent, string, count, HEADER[edition] + len(data)))
                data += data_of(node)
            else:
                entries.append(entry(VOID, parent, string))
        image = Image(edition, strings=list(self.strings), data=data, entries=entries, ended=self.ended)
        image.count = {"data": len(self.full)}
        return image.bytes()


def flat(nodes, full=True):
    """Every node is a child of the root."""
    tree = Tree()
    for i in range(nodes):
        tree.add(0, b"correlat%04d" % i, full)
    return tree


def levels(nodes):
    """Three levels, as of ensemble, momentum and source time, whose names come again below each parent."""
    wide = {256: (4, 7, 8), 2048: (8, 15, 16)}[nodes]
    tree = Tree()
    for a in range(wide[0]):
        top = tree.add(0, b"ensemble%04d" % a, False)
        for b in range(wide[1]):
            middle = tree.add(top, b"momentum%04d" % b, False)
            for c in range(wide[2]):
                tree.add(middle, b"source_t%04d" % c, True)
    assert len(tree.nodes) == nodes
    return tree


def one_string(size):
    """One node, whose name is the whole symbol section: `size` bytes and no zero."""
    tree = Tree(ended=False)
    tree.add(0, b"a" * size, False)
    return tree


def chain(nodes, name):
    """Each node below the one before; all have one name, and the last has data."""
    tree = Tree()
    for k in range(nodes):
        tree.add(k, name, k + 1 == nodes)
    return tree
