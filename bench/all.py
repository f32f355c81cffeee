#!/usr/bin/env python3
"""Measures all that docs/SPEED.md reports, in one run, prints it, and writes it there.

Each table stands in docs/SPEED.md between a line `<!-- NAME: written by bench/all.py -->` and `<!-- end -->`, and so does the sentence on the machine
and the run. The run fails, and writes nothing, where an answer of the library, of md5sum or of the second reader is another than expected, or where a call needs more
stack than include/aff.h allows.

Use, from anywhere: bench/all.py [ROUNDS].
It needs rt, cargo, a C compiler as cc, size (binutils), md5sum, Linux on x86-64, 600 MB of memory, and 70 MB of disk below target/. Where the library has not been proved
before, that takes some minutes more.
"""
import os
import platform
import re
import subprocess
import sys
import time

import md5
import open as opening
import read
import second
import stack
import tools
import write

SPEED = os.path.join(tools.ROOT, "docs", "SPEED.md")
PLACE = re.compile(r"<!-- ([a-z0-9 ]+): written by bench/all\.py -->\n.*?<!-- end -->", re.DOTALL)
STEPS = [("MD5", md5), ("Opening", opening), ("Reading", read), ("Writing", write), ("Stack", stack), ("Second reader", second)]


def step(name, work):
    """Does some work, and prints how long it took."""
    print(f"\n{name}", flush=True)
    begin = time.monotonic()
    found = work()
    print(f"\n{name}: {time.monotonic() - begin:.0f} s", flush=True)
    return found


def build():
    for name in ("md5", "open", "read", "write"):
        tools.program(name)
    stack.program()
    tools.lister("list")
    tools.lister("listall")
    tools.second_reader()


def version(command):
    """What a program says of itself in its first line, without numbers in brackets (of a distribution, a date)."""
    line = subprocess.run([command, "--version"], stdout=subprocess.PIPE, check=True, text=True).stdout.splitlines()[0]
    return re.sub(r" \([^)]*\d[^)]*\)", "", line)


def run_facts(rounds, load):
    """The sentences on the machine and the run, in which nothing names the machine."""
    versions = ", ".join(version(command) for command in ("md5sum", "cc", "rustc"))
    return (
        f"Measured by `bench/all.py {rounds}` on {platform.machine()} with {os.cpu_count()} cores; {versions}. The load of the machine,\n"
        f"the average number of running programs over the minute before the run, was {load:.2f}: 0 is an idle machine."
    )


def places():
    """The text of docs/SPEED.md, and the names of its places."""
    with open(SPEED, encoding="utf-8") as file:
        text = file.read()
    return text, [found[1] for found in PLACE.finditer(text)]


def main():
    rounds, load, begin = tools.rounds(), os.getloadavg()[0], time.monotonic()
    step("Building", build)
    facts = run_facts(rounds, load)
    print(f"\n{facts}")
    tables = [table for name, module in STEPS for table in step(name, lambda module=module: module.tables(rounds))]
    found = {"run": facts, **{table.name: "\n".join(table.lines) for table in tables}}
    text, names = places()
    if sorted(names) != sorted(found):
        sys.exit(f"docs/SPEED.md has places for {sorted(names)}, and measured were {sorted(found)}: not written")
    text = PLACE.sub(lambda place: f"<!-- {place[1]}: written by bench/all.py -->\n\n{found[place[1]]}\n\n<!-- end -->", text)
    with open(SPEED, "w", encoding="utf-8") as file:
        file.write(text)
    print(f"\ndocs/SPEED.md is written; all together: {time.monotonic() - begin:.0f} s")


main()
