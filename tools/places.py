#!/usr/bin/env python3
"""Counts what docs/DESIGN-PASS.md counts, where a grep does not do. Run it at the top of a checkout.

usage: places.py groups         sets of two to four parameters that stand together in five or more functions; exports for C aside
       places.py facts          facts that stand in the `requires` of three or more functions
       places.py joined         functions with a clause that joins facts by a cross
       places.py dead           names of lemma files and specs/ that nothing cites: neither a proof, a clause, an attribute, an edit nor a page
       places.py unedited       public functions of the library that no must-fail edit touches in their own body
       places.py gone COMMIT    names of specs/ and lemma files that stood at COMMIT and stand nowhere in that crate now
"""

import collections
import glob
import itertools
import os
import re
import subprocess
import sys

FN = re.compile(
    r'^( *)((?:pub )?(?:extern "C" )?)fn (\w+)(?:<[^(]*>)?\s*\((.*?)\)(?:\s*->\s*[^\n{]*?)?\n?((?:^\1    (?:requires|ensures|    ).*?\n)*?)^\1\{',
    re.S | re.M,
)
NAME = re.compile(r"^\s*(?:(?:abbrev|unfoldable|opaque|record|data) )*pub (?:(?:abbrev|unfoldable|opaque|record|data) )*([^\s:(){}]+)")


def sources():
    return sorted(glob.glob("crates/*/src/*.rt"))


def functions():
    """Each function: file, whether it is public, name, its parameters' names, its clauses, its text."""
    for path in sources():
        text = open(path).read()
        for m in FN.finditer(text):
            params = re.split(r",\s*(?![^<\[(]*[>\])])", m.group(4))
            names = [p.split(":")[0].strip() for p in params if p.strip()]
            end = text.find("\n" + m.group(1) + "}", m.end())
            yield path, m.group(2), m.group(3), names, m.group(5), text[m.start() : end]


def groups():
    count = collections.Counter()
    for path, public, _, names, _, _ in functions():
        if "extern" in public:
            continue
        for size in (2, 3, 4):
            for group in itertools.combinations(sorted(set(names)), size):
                count[group] += 1
    for group, n in count.most_common():
        if n >= 5:
            print(n, ", ".join(group))


def clauses(text, kind):
    for m in re.finditer(kind + r" (?:\w+ )?\{(.*?)\}\s*$", text, re.S | re.M):
        yield " ".join(m.group(1).split())


def facts():
    count = collections.Counter()
    for _, _, _, _, spec, _ in functions():
        for clause in clauses(spec, "requires"):
            for fact in clause.split(" × "):
                count[re.sub(r"\.(now|old|new)\b", "", fact.strip())] += 1
    for fact, n in count.most_common():
        if n >= 3:
            print(n, fact)


def joined():
    n = 0
    for path, _, name, _, spec, _ in functions():
        hits = [c for k in ("requires", "ensures") for c in clauses(spec, k) if " × " in c]
        n += len(hits)
        for hit in hits:
            print(path, name, hit[:110])
    print(n, "clauses")


def answers(path):
    return "/proofs/" in path and os.path.basename(path) in ("Answers.antt", "Invariants.antt")


def lemma_files(top="."):
    for path in glob.glob(top + "/crates/*/specs/**/*.antt", recursive=True) + glob.glob(top + "/crates/*/proofs/**/*.antt", recursive=True):
        if not answers(path):
            yield path


def declared(text):
    return [m.group(1) for m in (NAME.match(line) for line in text.split("\n")) if m and m.group(1) != "use"]


def dead():
    words = collections.Counter()
    paths = glob.glob("crates/**/*.antt", recursive=True) + sources() + glob.glob("crates/*/must-fail/*.edit")
    pages = ["README.md"] + glob.glob("docs/**/*.md", recursive=True)
    for path in paths + pages:
        words.update(re.findall(r"[^\s(){}.,;`:\"|\[\]]+", open(path).read()))
    total = 0
    for path in sorted(lemma_files()):
        text = open(path).read()
        own = collections.Counter(re.findall(r"[^\s(){}.,;`:\"|\[\]]+", text))
        for name in declared(text):
            # its signature and its equations: as often as it begins a line, and no more
            lines = len(re.findall(r"^\s*(?:[\w ]*pub )?" + re.escape(name) + r"(?=[\s:])", text, re.M))
            if words[name] <= lines:
                print(path, name)
                total += 1
    print(total, "names")


def unedited():
    edits = collections.defaultdict(list)
    for path in glob.glob("crates/*/must-fail/*.edit"):
        crate = path.split("/")[1]
        target = None
        for line in open(path).read().split("\n"):
            if line.startswith("file: "):
                target = f"crates/{crate}/{line[6:]}"
            elif line.startswith("old: "):
                edits[target].append(line[5:])
    programs = ("console", "test_", "list", "cut_drill")
    total = 0
    for path, public, name, _, _, text in functions():
        if "pub" not in public or path.split("/")[1].startswith(programs):
            continue
        if not any(old in text for old in edits[path]):
            print(path, name)
            total += 1
    print(total, "functions")


def gone(commit):
    tree = subprocess.run(["git", "ls-tree", "-r", "--name-only", commit, "crates"], capture_output=True, text=True, check=True).stdout.split("\n")
    now = collections.defaultdict(set)
    for path in lemma_files():
        now[path.split("/")[2]].update(declared(open(path).read()))
    total = 0
    for path in tree:
        if not path.endswith(".antt") or answers(path):
            continue
        text = subprocess.run(["git", "show", f"{commit}:{path}"], capture_output=True, text=True, check=True).stdout
        for name in declared(text):
            if name not in now[path.split("/")[1]]:
                print(path, name)
                total += 1
    print(total, "names")


if __name__ == "__main__":
    if len(sys.argv) < 2 or sys.argv[1] not in ("groups", "facts", "joined", "dead", "unedited", "gone"):
        sys.exit(__doc__)
    if sys.argv[1] == "gone":
        if len(sys.argv) != 3:
            sys.exit(__doc__)
        gone(sys.argv[2])
    else:
        globals()[sys.argv[1]]()
