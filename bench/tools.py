"""What the scripts of bench/ share: the building of what they time, the taking of times, and tables.

A sample is a batch of calls that takes 10 ms at least. In a round two things that are compared take turns, with the median of seven samples each
(three, where a sample takes long); a time is the median of the rounds' medians, and a ratio the median of the rounds' ratios.
"""
import argparse
import functools
import os
import statistics
import subprocess
import sys

ROOT = os.path.dirname(os.path.dirname(os.path.abspath(__file__)))
OUT = os.path.join(ROOT, "target", "bench")
ROUNDS = 7
SAMPLE = 0.01
LONG_SAMPLE = 0.1


def build(*words, folder=ROOT, **environment):
    """Runs a command that builds something; what it prints is shown only where it fails."""
    streams = {"stdin": subprocess.DEVNULL, "stdout": subprocess.PIPE, "stderr": subprocess.STDOUT}
    done = subprocess.run(words, cwd=folder, env={**os.environ, **environment}, text=True, **streams)
    if done.returncode:
        sys.exit(f"{done.stdout}\n{' '.join(words)} failed")


@functools.cache
def library(crate):
    folder = os.path.join(ROOT, "crates", crate)
    build("rt", "lib", folder=folder)
    return os.path.join(folder, "out", f"lib{crate}.a")


@functools.cache
def program(name):
    """The program of bench/NAME.c, with the library's functions for C."""
    os.makedirs(OUT, exist_ok=True)
    path = os.path.join(OUT, name)
    build("cc", "-O2", os.path.join(ROOT, "bench", f"{name}.c"), library("aff_c"), library("md5_c"), "-o", path)
    return path


@functools.cache
def lister(name):
    """The program `list` or `listall`, which `rt run` also runs, here on no byte at all."""
    folder = os.path.join(ROOT, "crates", name)
    build("rt", "run", folder=folder)
    return os.path.join(folder, "out", name)


@functools.cache
def second_reader():
    target = os.path.join(ROOT, "target", "second_reader")
    build("cargo", "build", "--release", "--offline", folder=os.path.join(ROOT, "tests", "second_reader"), CARGO_TARGET_DIR=target)
    return os.path.join(target, "release", "second_reader")


def printed(*words):
    """The words that a command prints."""
    return subprocess.run(words, stdout=subprocess.PIPE, check=True, text=True).stdout.split()


def measured(*words):
    """A function that takes so many samples of so many calls in a row by a program, which prints median times in seconds."""
    return batched(lambda samples, batch: [float(word) for word in printed(*words, str(samples), str(batch))])


def batched(run):
    """A function that takes samples by `run(samples, batch)`, with a batch that takes 10 ms at least; `run` and it hand back a list of times."""
    batch = 1
    while (least := min(found := run(3, batch))) * batch < SAMPLE:
        batch = max(batch * 2, min(batch * 1000, int(1.2 * SAMPLE / max(least, 1e-9))))
    samples = 3 if LONG_SAMPLE < sum(found) * batch else 7
    return lambda: run(samples, batch)


class Compared:
    """Two things' times, in a pair for each round; a ratio is the second's time over the first's."""

    def __init__(self, pairs):
        self.first, self.second = (statistics.median(times) for times in zip(*pairs))
        self.ratios = [second / first for first, second in pairs]
        self.ratio = statistics.median(self.ratios)

    def spread(self):
        """The ratio, and the lowest and highest of the rounds."""
        return f"{figure(self.ratio)} ({figure(min(self.ratios))} to {figure(max(self.ratios))})"


def in_turns(rounds, *measures):
    """Compares what two functions hand back, or the two times of one."""
    return Compared([[time for measure in measures for time in measure()] for _ in range(rounds)])


def figure(ratio):
    """A ratio with two figures or three."""
    return f"{ratio:.{3 if ratio < 0.1 else 2 if ratio < 3 else 1 if ratio < 30 else 0}f}"


def shown(seconds):
    for unit, part in (("ns", 1e-9), ("µs", 1e-6), ("ms", 1e-3), ("s", 1)):
        if seconds < 999.5 * part:
            break
    return f"{seconds / part:.0f} {unit}" if 99.95 * part <= seconds else f"{seconds / part:.1f} {unit}"


class Table:
    """A table in Markdown, printed as it grows; its name is that of its place in docs/SPEED.md."""

    def __init__(self, name, *heads):
        self.name, self.lines = name, []
        print()
        self.add(*heads)
        self.line("|---" * len(heads) + "|")

    def line(self, line):
        self.lines.append(line)
        print(line, flush=True)

    def add(self, *cells):
        self.line("| " + " | ".join(cells) + " |")


def rounds():
    """The number of rounds: the script's one argument, if any."""
    def number(word):
        if not word.isdecimal() or not int(word):
            raise argparse.ArgumentTypeError(f"{word} is no number from 1 on")
        return int(word)

    parser = argparse.ArgumentParser(description=sys.modules["__main__"].__doc__, formatter_class=argparse.RawDescriptionHelpFormatter)
    parser.add_argument("rounds", metavar="ROUNDS", nargs="?", type=number, default=ROUNDS)
    return parser.parse_args().rounds
