#!/usr/bin/env python3
"""The times of the library's functions beside those of the second reader's, tests/second_reader, on the same files.

Both take processor time by the same clock, in the same way (bench/timing.h, tests/second_reader/src/times.rs); those of the programs `list` and `listall`
are elapsed times, from the start of the process to its end. The run fails where a digest, an opening's number, a looked up node, an
element, a built file or a listing is another than expected. The two take turns; bench/tools.py says how times are taken.

Use, from anywhere: bench/second.py [ROUNDS].
It needs rt, cargo, a C compiler as cc, Linux on x86-64, 600 MB of memory, and 70 MB of disk below target/ in a folder that it removes again.
"""
import hashlib
import os
import statistics
import sys
import tempfile
import time

import md5
import open as opening
import read
import write
from tools import OUT, Table, batched, in_turns, lister, measured, printed, program, rounds, second_reader, shown
from trees import flat, levels

MANY = 2048
# The most bytes that `list` and `listall` take.
LISTED = 65536

# What an image is, the expected number, and its maker.
OPENED = [opening.LARGE, opening.PLAIN[0], opening.PLAIN[-1]]

# What is called, and for which keys.
READ = [
    ("`lookup`, keys at random", "lookup", read.drawn),
    ("`lookup`, the last key", "lookup", read.last),
    ("`view` and the decoding of its 64 Doubles", "whole", read.drawn),
    ("listing order, all nodes", "order", read.last),
    ("listing order, nodes that are not Void", "short", read.with_data),
]

SHAPES = [("flat", flat), ("three levels", levels)]


def theirs():
    return [second_reader(), "time"]


def digest(rounds):
    """The digest of 64 MiB."""
    with md5.message() as file:
        with open(file, "rb") as message:
            expected = hashlib.md5(message.read()).hexdigest()

        def run(*command):
            def samples(count, batch):
                found, seconds = printed(*command, "digest", file, str(count), str(batch))
                if found != expected:
                    sys.exit(f"{' '.join(command)}: the digest is {found}, not {expected}")
                return [float(seconds)]

            return batched(samples)

        return in_turns(rounds, run(program("md5")), run(*theirs()))


def opened(rounds, number, maker):
    with tempfile.TemporaryDirectory(dir=OUT) as folder:
        path = os.path.join(folder, "image")
        maker(path)
        return in_turns(rounds, *(measured(*command, "open", path, str(number)) for command in ([program("open")], theirs())))


def called(rounds, bench, call, keys):
    return in_turns(rounds, *(bench.measured(command, call, keys) for command in ([program("read")], theirs())))


def built(rounds, tree):
    bench = write.Bench(tree)
    return in_turns(rounds, *(bench.measured(command, "build") for command in ([program("write")], theirs())))


def launched(words, image, output):
    """The elapsed time of a program from its start to its end, with an image on standard input."""
    files = [(os.POSIX_SPAWN_OPEN, 0, image, os.O_RDONLY, 0), (os.POSIX_SPAWN_OPEN, 1, output, os.O_WRONLY | os.O_CREAT | os.O_TRUNC, 0o600)]
    begin = time.perf_counter()
    _, status = os.waitpid(os.posix_spawn(words[0], words, os.environ, file_actions=files), 0)
    if status:
        sys.exit(f"{' '.join(words)} failed")
    return time.perf_counter() - begin


def lines(tree, program):
    """What `list` or `listall` prints of a tree whose numbers are in listing order."""
    nodes = [(b"/", False)] + [(tree.path(number), full) for number, (_, _, full) in enumerate(tree.nodes, 1)]
    return [b"%s %s\n" % (path, b"int 1" if full else b"void 0") for path, full in nodes if full or program == "listall"]


def listed(rounds, tree, program):
    """Our program `list` or `listall` and the second reader's, on one image."""
    expected = b"".join(lines(tree, program))
    with tempfile.TemporaryDirectory(dir=OUT) as folder:
        image, output = os.path.join(folder, "image"), os.path.join(folder, "output")
        with open(image, "wb") as file:
            assert file.write(tree.small_image()) <= LISTED

        def run(*words):
            def samples(count, batch):
                found = [sum(launched(words, image, output) for _ in range(batch)) / batch for _ in range(count)]
                with open(output, "rb") as file:
                    if file.read() != expected:
                        sys.exit(f"{' '.join(words)}: another listing than expected")
                return [statistics.median(found)]

            return batched(samples)

        return in_turns(rounds, run(lister(program)), run(second_reader(), program, image))


def tables(rounds):
    os.makedirs(OUT, exist_ok=True)
    table = Table("second reader", "What is timed", "Ours", "Second reader", "Ratio")

    def add(what, both):
        table.add(what, shown(both.first), shown(both.second), both.spread())

    add("`md5` of 64 MiB", digest(rounds))
    for what, number, maker in OPENED:
        add(f"`open`, {what}", opened(rounds, number, maker))
    for shape, make in SHAPES:
        bench = read.Bench(make(MANY))
        for what, call, keys in READ:
            add(f"{what}; 2,048 nodes, {shape}", called(rounds, bench, call, keys))
    for shape, make in SHAPES:
        add(f"a whole file of 2,048 nodes, {shape}: `begin`, `make` and `put` for each node, `close`", built(rounds, make(MANY)))
    for what, tree in (("flat, all Void", flat(MANY, False)), ("three levels, an Int in each of the last", levels(MANY))):
        for name in ("list", "listall"):
            add(f"the programs `{name}`; 2,048 nodes, {what}", listed(rounds, tree, name))
    return [table]


if __name__ == "__main__":
    tables(rounds())
