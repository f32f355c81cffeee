#!/usr/bin/env python3
"""All the evidence from outside the proofs in one run: the library in C and C++, its stack, the library beside the second reader, the programs
`list` and `listall`, runs of the writer, two orders of puts, real kills.

    tests/evidence.py [SEED [PART]]

SEED is 6000 where none is given; every image and run of a seed is the same each time, only the moments of the kills are not. PART divides the
numbers of images, runs, pairs of runs and kills, for a short try. The last line is 'nothing differs', or names the parts that differ, and the exit status is then
1. docs/EVIDENCE.md says what is compared.

It needs rt, cargo, a C compiler as cc, a C++ compiler as c++, and Linux on x86-64, and works below target/. The listers and the library are proved
and built, in the out/ of their crates, where these are not up to date.
"""
import argparse
import os
import subprocess
import sys
import time

import make_chains
from make_images import DOUBLE, changed
from make_listings import WORKED, make

ROOT = os.path.dirname(os.path.dirname(os.path.abspath(__file__)))
TARGET = os.path.join(ROOT, "target")
FOLDER = os.path.join(TARGET, "evidence")
SECOND = os.path.join(TARGET, "second_reader", "release", "second_reader")
CRATES = os.path.join(ROOT, "crates")
LIBRARY = os.path.join(CRATES, "aff_c", "out", "libaff_c.a")
LISTERS = ("list", "listall")
WORKED_FILE, WORKED3_FILE, UNTERMINATED_FILE, WIDE_FILE, ALIGNED_FILE = (
    os.path.join(ROOT, "samples", f"{name}.aff") for name in ("worked", "worked3", "unterminated", "wide_names", "aligned"))
WARNINGS = ["-Wall", "-Wextra", "-pedantic", "-Werror", "-Wconversion", "-Wshadow", "-I", os.path.join(ROOT, "include")]

# What is compared by the second reader, the command, how many, and what follows these on the command line.
COMPARED = [
    ("images in memory: opening, every reading call, altered memory", "agree", 20_000, []),
    ("images through the programs `list` and `listall`", "lists", 500, [os.path.join(CRATES, name, "out", name) for name in LISTERS]),
    ("runs of the writer, whole and cut, altered memory", "writes", 5_000, []),
    ("runs of the writer with puts in different orders", "orders", 100_000, []),
    ("processes killed while they write into a mapped file", "kills", 2_000, [FOLDER]),
    ("runs stopped after each instruction", "steps", 20, [FOLDER]),
]


# Malformed paths, and what the sample program prints: the path with the place in it, and a caret below the path.
POINTED = [
    ("/a b", "/a b: refused 14 2: the path or name is malformed at this place, counted from 0; a path is / or /name/name\n/a b\n  ^\n"),
    ("/a/n/", "refused 14 5: "),
    ("/a/n/", "\n/a/n/\n     ^\n"),
    ("//a", "\n//a\n ^\n"),
    ("a", "\na\n^\n"),
    ("", "\n\n^\n"),
    ("/a\t/n", "\n/a?/n\n  ^\n"),
    ("/x\u00e9/9", "\n/x??/9\n  ^\n"),
]

# Paths in samples/wide_names.aff, and what the sample program prints: where it ends with 0, the elements, else something on standard error.
WIDE_PATHS = [
    (b"/9a/p x=\xff\\", 0, "3.5\n", ""),
    (b"/9a/\n", 0, "104\n105\n", ""),
    (b"/9a", 0, "", "a Void node, which has no data"),
    (b"/9a/p", 1, "", "refused 15 0"),
    (b"/9a/\n/", 1, "", "refused 14 6: "),
    (b"/9a//\n", 1, "", "\n/9a//?\n    ^\n"),
]


def built(command, folder, **more):
    """Runs a command that builds something; what it printed is shown where it fails."""
    done = subprocess.run(command, cwd=folder, stdin=subprocess.DEVNULL, stdout=subprocess.PIPE, stderr=subprocess.STDOUT, text=True, **more)
    if done.returncode:
        sys.exit(f"{done.stdout}\n{' '.join(command)} failed")


def build():
    """The listers, the static library, and the second reader with it."""
    # `rt run` also runs a lister, here on no byte at all.
    for name in LISTERS:
        built(["rt", "run"], os.path.join(CRATES, name))
    built(["rt", "lib"], os.path.join(CRATES, "aff_c"))
    folders = {"CARGO_TARGET_DIR": os.path.join(TARGET, "second_reader"), "AFF_LIBRARY": os.path.dirname(LIBRARY)}
    cargo = ["cargo", "build", "--release", "--offline", "--features", "library"]
    built(cargo, os.path.join(ROOT, "tests", "second_reader"), env={**os.environ, **folders})


def program(name, *more, language="c", standard="c99"):
    """The command that compiles a program of the repository with the library, and the program's path."""
    path = os.path.join(FOLDER, os.path.basename(name) + "." + standard)
    compiler = {"c": "cc", "c++": "c++"}[language]
    source = ["-x", language, os.path.join(ROOT, name), "-x", "none", LIBRARY]
    return [compiler, f"-std={standard}", "-O2", *WARNINGS, *source, *more, "-o", path], path


def ends(command, status=0, out="", err=""):
    """Whether a command ends with a status, prints exactly `out`, and on standard error something with `err` in it (nothing where that is empty)."""
    done = subprocess.run(command, stdout=subprocess.PIPE, stderr=subprocess.PIPE, text=True, errors="backslashreplace")
    right = done.returncode == status and done.stdout == out and (err in done.stderr if err else not done.stderr)
    if not right:
        print(f"{' '.join(map(repr, command))}: status {done.returncode}\n{done.stdout}{done.stderr}")
    return right


def image_file(name, image):
    path = os.path.join(FOLDER, name)
    with open(path, "wb") as file:
        file.write(image)
    return path


def content(path):
    """The bytes of a file; None where there is none."""
    if not os.path.exists(path):
        return None
    with open(path, "rb") as file:
        return file.read()


def written(write):
    """samples/write.c in both written editions, over what is there, each beside the sample that was made without the library; then refused, which leaves
    what is there."""
    path = os.path.join(FOLDER, "written.aff")
    runs = []
    for edition, sample in (("2", WORKED_FILE), ("3", WORKED3_FILE)):
        runs.append(ends([write, path, edition]) and content(path) == content(sample))
    for words, status, err in (
        (["1"], 1, "begin: refused 3 0"), (["0"], 1, "no edition 0"), (["4"], 1, "no edition 4"), (["4294967298"], 2, "usage"), ([], 2, "usage"),
    ):
        runs.append(ends([write, path, *words], status, err=err) and content(path) == content(WORKED3_FILE) and not os.path.exists(path + ".part"))
    runs.append(ends([write, os.path.join(FOLDER, "no such folder", "x"), "3"], 1, err="No such file"))
    return runs


def sources():
    """The header alone in C and C++, and the sample programs in both, whose output is compared."""
    header = os.path.join(ROOT, "include", "aff.h")
    right = []
    for compiler, language, standards in (("cc", "c", ("c99", "c11")), ("c++", "c++", ("c++98", "c++11", "c++17"))):
        for standard in standards:
            right.append(ends([compiler, f"-std={standard}", *WARNINGS, "-fsyntax-only", "-x", language, header]))
    print(f"   include/aff.h: {sum(right)} of {len(right)} compilations without a warning")
    worked = make(2, WORKED)
    unfinished = image_file("unfinished.aff", b"\0" + worked[1:])
    first = image_file("first.aff", make(1, WORKED))
    empty = image_file("empty.aff", make(2, [(0, b"e", DOUBLE, 0)]))
    repeated = image_file("repeated.aff", changed(2, strings=[b"a", b"n", b"a"]).bytes())
    runs = []
    for language, standard in (("c", "c99"), ("c++", "c++11")):
        compile_it, read = program("samples/read.c", language=language, standard=standard)
        runs += [
            ends(compile_it),
            ends([read, WORKED_FILE, "/a/n"], out="-70\n"),
            ends([read, UNTERMINATED_FILE, "/a/n"], out="-70\n"),
            ends([read, first, "/a/n"], out="-70\n"),
            ends([read, WORKED3_FILE, "/a/n"], out="-70\n"),
            ends([read, ALIGNED_FILE, "/a"], out="97\n98\n99\n"),
            ends([read, ALIGNED_FILE, "/b"], out="1\n"),
            *(ends([read, WIDE_FILE, os.fsdecode(path)], status, out, err) for path, status, out, err in WIDE_PATHS),
            ends([read, WORKED_FILE, "/a"], err="a Void node, which has no data"),
            ends([read, empty, "/e"], err="an empty array"),
            ends([read, WORKED_FILE, "/b"], 1, err="refused 15 0"),
            *(ends([read, WORKED_FILE, path], 1, err=err) for path, err in POINTED),
            ends([read, unfinished, "/a"], 1, err="refused 3 0"),
            ends([read, repeated, "/a"], 1, err="refused 27 2: this string, numbered from 0, equals an earlier one"),
            ends([read], 2, err="usage"),
        ]
    print(f"   samples/read.c: {sum(runs)} of {len(runs)} compilations and runs as expected")
    writes = []
    for language, standard in (("c", "c99"), ("c++", "c++11")):
        compile_it, write = program("samples/write.c", language=language, standard=standard)
        writes += [ends(compile_it), *written(write)]
    print(f"   samples/write.c: {sum(writes)} of {len(writes)} compilations and runs as expected")
    return all(right + runs + writes)


def calls():
    """tests/c_calls.c prints its own counts."""
    compile_it, path = program("tests/c_calls.c")
    return ends(compile_it) and subprocess.run([path, WORKED_FILE, WORKED3_FILE, UNTERMINATED_FILE, WIDE_FILE, ALIGNED_FILE]).returncode == 0


def stack():
    """tests/stack.c prints the bytes of stack that each call needs."""
    compile_it, path = program("tests/stack.c", "-pthread", "-Wl,-z,now")
    return ends(compile_it) and subprocess.run([path, *make_chains.write(os.path.join(FOLDER, "chains"))]).returncode == 0


def second_reader(words):
    return subprocess.run([SECOND, *words], cwd=FOLDER).returncode == 0


def parts(seed, part):
    """Each part: its name, what is compared, what runs, and the function that does it."""
    yield "sources", "the header and the sample programs in C and C++", "include/aff.h, samples/read.c, samples/write.c", sources
    yield "calls", "every call through the header: allowances, padding, refusals, editions, null pointers, numbers", "tests/c_calls.c", calls
    yield "stack", "the stack of every call on chains of 2,048 nodes in every edition, at most 262,144 bytes", "tests/stack.c", stack
    for what, command, count, more in COMPARED:
        words = [command, str(seed), str(max(1, count // part)), *more]
        shown = [os.path.relpath(word, ROOT) if os.path.isabs(word) else word for word in words]
        yield command, what, f"second_reader {' '.join(shown)}", lambda words=words: second_reader(words)


def number(word):
    if not word.isdecimal() or not int(word):
        raise argparse.ArgumentTypeError(f"{word} is no number from 1 on")
    return int(word)


def main():
    parser = argparse.ArgumentParser(description=__doc__, formatter_class=argparse.RawDescriptionHelpFormatter)
    parser.add_argument("seed", metavar="SEED", nargs="?", type=number, default=6000)
    parser.add_argument("part", metavar="PART", nargs="?", type=number, default=1)
    given = parser.parse_args()
    build()
    os.makedirs(FOLDER, exist_ok=True)
    different = []
    for name, what, shown, run in parts(given.seed, given.part):
        print(f"== {what}: {shown}", flush=True)
        begin = time.monotonic()
        right = run()
        print(f"   {time.monotonic() - begin:.0f} s", flush=True)
        if not right:
            different.append(name)
    print(f"something differs: {', '.join(different)}" if different else "nothing differs")
    sys.exit(1 if different else 0)


if __name__ == "__main__":
    main()
