#!/usr/bin/env python3
"""Makes the images and paths of the test program test_lookup: lookups of well-formed and of malformed paths, in every edition.

It shares no code with the library: it is written from document 01 and requests C-15 and C-18. Where a path breaks is computed as the length of the longest
beginning that can be continued to a path; the requests' own cases are written by hand besides. It writes crates/test_lookup/stdin (an image, its paths, each
after a `p`, and an empty part, each after its length in 4 bytes) and crates/test_lookup/stdout.

    tests/make_lookups.py [FOLDER]      FOLDER: where these are written, the repository where none is given
"""
import os
import re
import struct

from make_images import EDITIONS, SUBKEY, Image, destination, wide_names

WORKED = {b"/": 0, b"/a": 1, b"/a/n": 2}
WIDE = {b"/": 0, b"/9a": 1, b"/9a/p x=\xff\\": 2, b"/9a/\n": 3}

# Written by hand: the place at which each breaks in every edition.
BREAKS = {
    b"": 0, b"a": 0, b"a/n": 0, b"9": 0, b" /a": 0, b"\0": 0, b"\xff": 0, b"//": 1, b"//a": 1, b"///": 1, b"/\0": 1, b"/a\0": 2, b"/a\0/n": 2, b"/a/": 3,
    b"/a//": 3, b"/a//n": 3, b"/a/\0": 3, b"/a/n\0": 4, b"/a/n/": 5, b"/a/n//": 5,
}
# The same for editions 1 and 2; paths of edition 3.
NARROW = {
    b"/9a": 1, b"/9": 1, b"/-a": 1, b"/.": 1, b"/ ": 1, b"/\xff": 1, b"/a b": 2, b"/a b/9": 2, b"/a ": 2, b"/a\xff": 2, b"/a/9": 3, b"/a/ n": 3, b"/a/n ": 4,
    b"/a/n b": 4, b"/a/n\xff": 4, b"/momentum,1": 9, b"/momentum,1/x": 9, b"/a" * 32767 + b"/ ": 65535,
}
# The same for edition 3.
BROAD = {b"/ //": 3, b"/\xff/\n/": 5, b"/9a/\0": 4, b"/ /\\//n": 5, b"/. /\0/": 4, b"/\x01" * 1000 + b"//": 2001}
SOUND = [b"/", b"/a", b"/a/n", b"/b", b"/a/m", b"/n", b"/a/n/n", b"/_", b"/:.-9", b"/A/Z/z"]


def grammar(ed):
    """A path of the edition, and the front of one."""
    keys = b"(/" + SUBKEY[ed].pattern + b")+"
    return re.compile(b"(/|" + keys + rb")\Z"), re.compile(b"(|/|" + keys + rb"/?)\Z")


def place(front, path):
    """The first place p such that the bytes up to it, itself included, are the front of no path; the length where there is none."""
    return next((p for p in range(len(path)) if not front.match(path[:p + 1])), len(path))


def by_hand(ed):
    return {**BREAKS, **(BROAD if ed == 3 else NARROW)}


def answer(ed, nodes, path):
    whole, front = grammar(ed)
    if whole.match(path):
        return "node %d" % nodes[path] if path in nodes else "refused 15 0"
    breaks = by_hand(ed)
    return "refused 14 %d" % (breaks[path] if path in breaks else place(front, path))


def by_bytes():
    """Each byte at the front, at the front of a subkey, and after it; the last of these also with more faults after it."""
    for x in range(256):
        byte = bytes([x])
        yield from (byte + b"a", b"/" + byte, b"/a" + byte, b"/a/n" + byte + b"/ /")


def images():
    """Edition, image, its nodes by their paths, and the paths that are looked up."""
    for ed in EDITIONS:
        sound = list(NARROW)[:-1] if ed == 3 else []
        yield ed, Image(ed), WORKED, [*by_hand(ed), *SOUND, *sound, *by_bytes()]
    beside = [b"/9", b"/9a/p", b"/9a/p x=\xff", b"/9a/p x=\xff\\\n", b"/9a/P x=\xff\\", b"/9a/\r", b"/9a ", b"/ 9a", b"/9a/p\\x20x=\\xff\\x5c", b"/9a/\\x0a"]
    yield 3, wide_names(), WIDE, [*WIDE, *beside, b"/9a/", b"/9a/\n/", b"/9a//\n", b"/9a/\n\0"]


def part(b):
    return struct.pack(">I", len(b)) + b


def main():
    for ed in EDITIONS:
        whole, front = grammar(ed)
        for path, p in by_hand(ed).items():
            assert not whole.match(path) and (len(path) > 10000 or place(front, path) == p), path[:20]
        assert all(whole.match(path) for path in SOUND)
    assert all(grammar(3)[0].match(path) for path in NARROW)
    stdin, out, count = b"", [], 0
    for ed, image, nodes, paths in images():
        stdin += part(image.bytes()) + b"".join(part(b"p" + path) for path in paths) + part(b"")
        out += ["opened"] + [answer(ed, nodes, path) for path in paths]
        count += len(paths)
    crate = os.path.join(destination(__doc__), "crates", "test_lookup")
    os.makedirs(crate, exist_ok=True)
    with open(os.path.join(crate, "stdin"), "wb") as f:
        f.write(stdin)
    with open(os.path.join(crate, "stdout"), "w") as f:
        f.write("\n".join(out) + "\n")
    print(count, "lookups in four images")


if __name__ == "__main__":
    main()
