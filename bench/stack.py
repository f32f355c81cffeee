#!/usr/bin/env python3
"""The stack that each call of include/aff.h needs, by tests/stack.c, on chains of 2,048 nodes.

The chains are those of tests/make_chains.py, in every edition, and those that the writer makes. The run fails where a call needs more than 262,144 bytes.

Use, from anywhere: bench/stack.py [ROUNDS]; the figures are the same in each round, so ROUNDS is not used.
It needs rt, a C compiler as cc, and Linux on x86-64.
"""
import functools
import os
import subprocess
import sys
import tempfile

from tools import OUT, ROOT, Table, build, library, rounds

sys.path.insert(0, os.path.join(ROOT, "tests"))
from make_chains import write  # noqa: E402


@functools.cache
def program():
    os.makedirs(OUT, exist_ok=True)
    path = os.path.join(OUT, "stack")
    source = os.path.join(ROOT, "tests", "stack.c")
    build("cc", "-O2", "-I", os.path.join(ROOT, "include"), source, library("aff_c"), "-pthread", "-Wl,-z,now", "-o", path)
    return path


def tables(_):
    measure = program()
    table = Table("stack", "Call", "Bytes of stack")
    with tempfile.TemporaryDirectory(dir=OUT) as folder:
        done = subprocess.run([measure, *write(folder)], stdout=subprocess.PIPE, text=True)
    if done.returncode:
        sys.exit(f"{done.stdout}tests/stack.c failed")
    for line in done.stdout.splitlines():
        call, most = line.rsplit(maxsplit=1)
        name, *choice = call.split(", ")
        table.add(", ".join([f"`{name}`", *choice]), f"{int(most):,}")
    return [table]


if __name__ == "__main__":
    tables(rounds())
