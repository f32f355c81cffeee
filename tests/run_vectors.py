#!/usr/bin/env python3
"""Runs the program `list` or `listall` over a folder of images NAME.aff, and compares what it prints, byte for byte.

    tests/run_vectors.py PROGRAM FOLDER [CHANGED]

PROGRAM is list or listall. What it must print is NAME.list or NAME.listall, where the folder has that file. Else it is NAME.out, which has a line for every
node, as `listall` prints; for `list` the lines of the Void nodes are taken out of it.

CHANGED is a file of the outputs that requests have changed since the folder was made: lines 'NAME PROGRAM OUTPUT', each in place of the folder's file.
PROGRAM is then list, listall or both; ' | ' is between two lines of an OUTPUT; where there is no OUTPUT, nothing is printed. For the sample images made
elsewhere it is tests/vectors_changed.txt.

`rt run` in crates/list and in crates/listall builds the programs. The last line is 'N agree, M differ'; the exit status is 0 only if there is an image, each
NAME of CHANGED is one, and none differs.
"""
import argparse
import os
import subprocess
import sys

PROGRAMS = ("list", "listall")
CRATES = os.path.join(os.path.dirname(os.path.abspath(__file__)), "..", "crates")


def changes(path):
    """The lines of CHANGED as (name, program, output); a line that begins with # is a comment."""
    with open(path, encoding="ascii") as file:
        lines = [line.split(maxsplit=2) for line in file if line.strip() and not line.startswith("#")]
    for words in lines:
        if len(words) < 2 or words[1] not in (*PROGRAMS, "both"):
            sys.exit(f"{path}: {' '.join(words)} is no line 'NAME PROGRAM OUTPUT'")
    outputs = ["".join(line + "\n" for line in words[2].strip().split(" | ")) if words[2:] else "" for words in lines]
    return [(words[0], words[1], output.encode()) for words, output in zip(lines, outputs)]


def content(path):
    with open(path, "rb") as file:
        return file.read()


def is_void(line):
    """Whether a line is that of a Void node: path, space, type word, space, count. A path has no space as it is printed: a space in a name is \\x20."""
    return line.split(b" ")[1:2] == [b"void"]


def expected(folder, name, program):
    """What the folder says that a program prints of an image."""
    own = os.path.join(folder, f"{name}.{program}")
    if os.path.exists(own):
        return content(own)
    lines = content(os.path.join(folder, f"{name}.out")).splitlines(keepends=True)
    return b"".join(line for line in lines if program == "listall" or not is_void(line))


def main():
    parser = argparse.ArgumentParser(description=__doc__, formatter_class=argparse.RawDescriptionHelpFormatter)
    parser.add_argument("program", metavar="PROGRAM", choices=PROGRAMS)
    parser.add_argument("folder", metavar="FOLDER")
    parser.add_argument("changed", metavar="CHANGED", nargs="?")
    given = parser.parse_args()
    program = os.path.join(CRATES, given.program, "out", given.program)
    if not os.path.isdir(given.folder):
        parser.error(f"{given.folder} is no folder")
    if not os.path.exists(program):
        parser.error(f"there is no crates/{given.program}/out/{given.program}: run `rt run` in crates/{given.program}")
    changed = changes(given.changed) if given.changed else []
    names = sorted(f[:-4] for f in os.listdir(given.folder) if f.endswith(".aff"))
    if not {name for name, _, _ in changed} <= set(names):
        parser.error(f"{given.changed} names an image that is not in {given.folder}")
    instead = {name: output for name, whose, output in changed if whose in (given.program, "both")}
    agree = 0
    for name in names:
        right = instead[name] if name in instead else expected(given.folder, name, given.program)
        with open(os.path.join(given.folder, name + ".aff"), "rb") as image:
            run = subprocess.run([program], stdin=image, stdout=subprocess.PIPE)
        if run.returncode == 0 and run.stdout == right:
            agree += 1
        else:
            print(name, "differs:", run.stdout[:80])
    print("%d agree, %d differ" % (agree, len(names) - agree))
    return 0 if names and agree == len(names) else 1


if __name__ == "__main__":
    sys.exit(main())
