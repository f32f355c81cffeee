#!/usr/bin/env python3
"""Draws docs/worked.svg: the layout of the worked file, and what each of its 216 stopping points leaves.

    (cd crates/cut_drill && rt run) | python3 docs/make_picture.py samples/worked.aff > docs/worked.svg

The file's parts are read off its own header, the outcomes are the lines of `cut_drill`. Nothing of the library is used.
"""
import argparse
import struct
import sys
from xml.sax.saxutils import escape

# Colours of the parts, each with its word. The outcomes have colours of their own.
PARTS = {
    "signature": "#4c78a8",
    "form": "#72b7b2",
    "symbol header": "#f58518",
    "tree header": "#e8a34c",
    "data header": "#b279a2",
    "header sum": "#9d755d",
    "data": "#54a24b",
    "strings": "#d6604d",
    "entries": "#eeca3b",
}
OUTCOMES = {"refused 3 0": ("#bdbdbd", "opening answers 3"), "opened": ("#1b7837", "it opens and shows the tree")}
CELL, ROW, LEFT, TOP = 26, 20, 64, 66


def parts_of(file):
    """The part that each byte of the file belongs to, by its own header."""
    where = ["signature"] * 20 + ["form"] * 12 + ["symbol header"] * 40 + ["tree header"] * 40 + ["data header"] * 40 + ["header sum"] * 16
    where += [None] * (len(file) - len(where))
    for at, part in ((32, "strings"), (72, "entries"), (112, "data")):
        offset, size = struct.unpack(">QQ", file[at:at + 16])
        where[offset:offset + size] = [part] * size
    if None in where:
        sys.exit("a byte of the file is in no part")
    return where


def stores_of(file, where):
    """The places that a run stores to, in document 01's order: begin, the put, then close: strings, entries, header from byte 1, the first byte."""
    section = lambda part: [i for i, p in enumerate(where) if p == part]
    header = [i for i, p in enumerate(where) if p not in ("data", "strings", "entries")]
    return [0] + section("data") + section("strings") + section("entries") + header[1:] + [0]


def outcomes_of(lines, count):
    """The outcome of each stopping point, by the drill's lines."""
    told = {}
    for line in lines:
        number, _, outcome = line.strip().partition(" ")
        told[int(number)] = outcome
    if sorted(told) != list(range(count + 1)) or not set(told.values()) <= set(OUTCOMES):
        sys.exit("these are not the lines of the drill")
    return [told[k] for k in range(count + 1)]


def box(x, y, width, height, colour, title, more=""):
    return f'<rect x="{x:g}" y="{y:g}" width="{width:g}" height="{height:g}" fill="{colour}"{more}><title>{escape(title)}</title></rect>'


def text(x, y, words, size=12, more=""):
    return f'<text x="{x:g}" y="{y:g}" font-size="{size}"{more}>{escape(words)}</text>'


def layout(file, where):
    """The file, 16 bytes a row, each byte in the colour of its part."""
    out = [text(LEFT, 24, "The worked file: 214 bytes", 17, ' font-weight="bold"')]
    out.append(text(LEFT, 44, "child a of the root, child n of it, one Int -70 put there"))
    for i, byte in enumerate(file):
        x, y = LEFT + i % 16 * CELL, TOP + i // 16 * ROW
        if i % 16 == 0:
            out.append(text(LEFT - 8, y + 14, str(i), 11, ' text-anchor="end" fill="#555"'))
        out.append(box(x, y, CELL - 1, ROW - 1, PARTS[where[i]], f"byte {i}: {where[i]}", ' fill-opacity="0.75"'))
        out.append(text(x + 12.5, y + 14, f"{byte:02X}", 11, ' text-anchor="middle"'))
    return out


def legend(where, x, y):
    out = []
    for part, colour in PARTS.items():
        size = where.count(part)
        out.append(box(x, y, 14, 14, colour, part, ' fill-opacity="0.75"'))
        out.append(text(x + 20, y + 12, f"{part}, {size} bytes"))
        y += 21
    return out


def stops(where, stores, outcomes, y):
    """A column for each stopping point: above, the part that its last store is in; below, what opening answers."""
    width = 3.9
    out = [text(LEFT, y, f"Killed after K of its {len(stores)} byte stores, K from 0 to {len(stores)}", 17, ' font-weight="bold"')]
    y += 16
    for k, outcome in enumerate(outcomes):
        x = LEFT + k * width
        if k:
            part = where[stores[k - 1]]
            out.append(box(x, y, width - 0.4, 30, PARTS[part], f"store {k}: place {stores[k - 1]}, {part}", ' fill-opacity="0.85"'))
        else:
            out.append(box(x, y, width - 0.4, 30, "#ffffff", "no store", ' stroke="#999" stroke-width="0.4"'))
        colour, words = OUTCOMES[outcome]
        words = "the room is as it was; " + words if k == 0 else words
        out.append(box(x, y + 36, width - 0.4, 30, colour, f"K = {k}: {words}"))
    marks = [(0, "0: none made, the room is as it was"), (1, "1: begin"), (2, "2: the put"), (6, "6: close: strings, entries, header from byte 1")]
    for row, (k, words) in enumerate(reversed(marks)):
        x, low = LEFT + (k + 0.5) * width, y + 80 + 15 * row
        out.append(f'<polyline points="{x:g},{y + 67} {x:g},{low} {LEFT + 36:g},{low}" fill="none" stroke="#777" stroke-width="0.6"/>')
        out.append(text(LEFT + 40, low + 4, words, 11))
    end = LEFT + len(stores) * width
    out.append(text(end + width, y + 84, f"{len(stores)}  last the L at place 0: it opens", 11, ' text-anchor="end"'))
    out.append(text(end + width, y + 99, f"1 to {len(stores) - 1}: opening answers 3", 11, ' text-anchor="end"'))
    return out


def main():
    parser = argparse.ArgumentParser(description=__doc__, formatter_class=argparse.RawDescriptionHelpFormatter)
    parser.add_argument("file", metavar="FILE", type=argparse.FileType("rb"))
    file = parser.parse_args().file.read()
    where = parts_of(file)
    stores = stores_of(file, where)
    outcomes = outcomes_of(sys.stdin, len(stores))
    rows = (len(file) + 15) // 16
    body = layout(file, where) + legend(where, LEFT + 17 * CELL, TOP) + stops(where, stores, outcomes, TOP + rows * ROW + 40)
    width, height = LEFT + int((len(stores) + 1) * 3.9) + 40, TOP + rows * ROW + 40 + 170
    print(f'<svg xmlns="http://www.w3.org/2000/svg" width="{width}" height="{height}" viewBox="0 0 {width} {height}" font-family="sans-serif">')
    print('<rect width="100%" height="100%" fill="#ffffff"/>')
    print("\n".join(body))
    print("</svg>")


if __name__ == "__main__":
    main()
