#!/usr/bin/env python3
"""The speed of crates/aff_md5 beside the machine's md5sum, in one run, on one file of 64 MiB that is in the page cache.

Elapsed times of alternating runs, the least of three in a round:
- the digest alone: the call of our function, beside md5sum's time less that of a program that only reads the file as md5sum does.
- whole programs: process start, the file, and the digest. Ours maps the file or reads it into newly allocated memory, md5sum reads it.

Then the size of the compiled function: the bytes of code and of constants that `size -A` reports of crates/md5_c/out/libmd5_c.a.

The run fails where the two digests differ. Use, from anywhere: bench/md5.py [ROUNDS].
It needs rt, a C compiler as cc, size (binutils), md5sum, and Linux on x86-64.
"""
import contextlib
import os
import sys
import tempfile
import time

from tools import OUT, Compared, Table, library, printed, program, rounds

SIZE = 64 * 2**20
RUNS = 3

# What is compared: our time and md5sum's, of the times that `turns` hands back.
COMPARED = [
    ("the digest alone: the call; `md5sum`'s time less that of only reading the file", lambda call, maps, loads, sums, reads: (call, sums - reads)),
    ("whole programs; ours maps the file", lambda call, maps, loads, sums, reads: (maps, sums)),
    ("whole programs; ours reads it into newly allocated memory", lambda call, maps, loads, sums, reads: (loads, sums)),
]


@contextlib.contextmanager
def message():
    """A file of 64 MiB."""
    os.makedirs(OUT, exist_ok=True)
    with tempfile.NamedTemporaryFile(dir=OUT) as file:
        file.write(os.urandom(SIZE))
        file.flush()
        yield file.name


def timed(*words):
    """The words that a command prints, and its elapsed time in seconds."""
    begin = time.perf_counter()
    words = printed(*words)
    return words, time.perf_counter() - begin


def turns(file):
    """The least elapsed times of one round: of the call, of our programs, of md5sum, and of reading."""
    found, digests = [], set()
    for _ in range(RUNS):
        mapping, maps = timed(program("md5"), "map", file)
        loading, loads = timed(program("md5"), "load", file)
        summing, sums = timed("md5sum", file)
        _, reads = timed(program("md5"), "read", file)
        digests |= {mapping[0], loading[0], summing[0]}
        found.append((float(mapping[1]), maps, loads, sums, reads))
    if len(digests) != 1:
        sys.exit(f"the digests differ: {sorted(digests)}")
    return [min(times) for times in zip(*found)]


def section_bytes(kind):
    """The bytes of all sections of one kind, `.text` or `.rodata`, in the static library of crates/md5_c."""
    words = printed("size", "-A", library("md5_c"))
    found = sum(int(size) for name, size in zip(words, words[1:]) if name == kind or name.startswith(kind + "."))
    return found or sys.exit(f"size -A reports no byte of {kind}")


def size_table():
    table = Table("md5 size", "What", "Bytes")
    table.add("code: `.text` sections", f"{section_bytes('.text'):,}")
    table.add("constants: `.rodata` sections", f"{section_bytes('.rodata'):,}")
    return table


def tables(rounds):
    table = Table("md5", "What is timed", "Ours", "`md5sum`", "Ratio")
    program("md5")
    with message() as file:
        found = [turns(file) for _ in range(rounds)]

    for what, pair in COMPARED:
        both = Compared([pair(*times) for times in found])
        table.add(what, f"{SIZE / both.first / 1e6:.0f} MB/s", f"{SIZE / both.second / 1e6:.0f} MB/s", both.spread())
    return [table, size_table()]


if __name__ == "__main__":
    tables(rounds())
