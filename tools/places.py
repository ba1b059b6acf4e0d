#!/usr/bin/env python3
"""Lists, by text alone, the lines of src/ at which docs/DESIGN-PASS.md looks.

    python3 tools/places.py [REVISION] [POINT]

REVISION is a commit, or `.` for the files as they lie here (the default). POINT is one of 1 to 7; without it all are listed.
A line that is listed is a line to look at, and need not be a place: the page says which are.
"""

import collections
import itertools
import pathlib
import re
import subprocess
import sys

PATTERNS = {
    "1": [r": bool\b", r"-> bool\b", r"Result<bool", r", u(8|16|32|64)>", r"-> u(8|16|32|64)\b"],
    "3": [r"\b(while|loop)\b", r"\bfor\b.*\bin\b", r"\.enumerate\(\)", r"\+= 1;", r"saturating_add\(1\)"],
    "4": [
        r"fn (eq|ne|cmp|partial_cmp|clone|fmt|from|try_from|number|layer)\b",
        r"fn (put|print|to|from|as|into)_?\w*\(",
        r"#\[derive",
        r"\bas u(8|16|32|64|size)\b",
    ],
    "6": [r"Vec<", r"\[[A-Za-z0-9_:]+; [A-Za-z0-9_]+\]", r"\.binary_search", r"\bBox<"],
    "7": [r"\bdyn\b", r"\bfn\(", r"\bFn(Once|Mut)?\(", r"\bmatch\b"],
}


def files(revision):
    if revision == ".":
        for path in sorted(pathlib.Path("crates").glob("*/src/**/*.rt")):
            yield str(path), path.read_text()
        return
    listing = subprocess.run(["git", "ls-tree", "-r", "--name-only", revision, "crates"], capture_output=True, text=True, check=True)
    for name in sorted(listing.stdout.split()):
        if re.fullmatch(r"crates/\w+/src/.*\.rt", name):
            yield name, subprocess.run(["git", "show", f"{revision}:{name}"], capture_output=True, text=True, check=True).stdout


def code(text):
    for number, line in enumerate(text.split("\n"), 1):
        bare = line.split("//")[0]
        if bare.strip() and not re.match(r"\s*(ghost use|use|pub use|requires|ensures|ghost )", bare):
            yield number, bare.strip()


def lines(revision, point):
    for name, text in files(revision):
        for number, line in code(text):
            if any(re.search(pattern, line) for pattern in PATTERNS[point]):
                yield f"{name}:{number}: {line}"


def functions(text):
    for match in re.finditer(r"\bfn (\w+)(?:<.*?>)?\((.*?)\)(?= ->|\s*\n|\s*\{|\s*where| \{)(.*?)(?=\n\s*\{|\{\}|;\n)", text, re.S):
        yield match.group(1), match.group(2), match.group(3)


def clauses(revision):
    """Facts that are required in three functions or more of a crate, and parameters that stand together in three or more."""
    facts, together = collections.defaultdict(set), collections.defaultdict(set)
    for name, text in files(revision):
        crate = name.split("/")[1]
        for function, parameters, contract in functions(text):
            where = f"{name}: {function}"
            for clause in re.findall(r"requires(?: \w+)? \{(.*?)\}", contract, re.S):
                for fact in clause.split("×"):
                    facts[crate, " ".join(fact.split())].add(where)
            names = re.findall(r"(\w+): ([^,]+)", re.sub(r"\s+", " ", parameters))
            for pair in itertools.combinations(sorted(n for n, _ in names), 2):
                together[crate, " and ".join(pair)].add(where)
    for title, table in (("fact", facts), ("parameters", together)):
        for (crate, what), places in sorted(table.items()):
            if len(places) >= 3:
                yield f"{title} in {len(places)} functions of {crate}: {what}"


def twins(revision, least=4):
    """Runs of lines that stand twice in src/ with other names and numbers."""
    shapes = collections.defaultdict(list)
    for name, text in files(revision):
        body = list(code(text))
        for start in range(len(body) - least + 1):
            run = body[start : start + least]
            shape = tuple(re.sub(r"b?\"[^\"]*\"|\b\w+\b", "_", line) for _, line in run)
            if sum(len(line) for line in shape) >= 60:
                shapes[shape].append(f"{name}:{run[0][0]}")
    seen = set()
    for places in shapes.values():
        if len(places) > 1 and not any(place in seen for place in places):
            yield "one shape at " + ", ".join(places)
        seen.update(re.sub(r":(\d+)$", lambda m: f":{int(m.group(1)) + k}", place) for place in places for k in range(least))


def main():
    arguments = sys.argv[1:]
    revision = arguments[0] if arguments and arguments[0] not in list("1234567") else "."
    points = [a for a in arguments if a in list("1234567")] or list("1234567")
    for point in points:
        found = list({"2": twins, "5": clauses}.get(point, lambda r, p=point: lines(r, p))(revision))
        print(f"== point {point}: {len(found)} to look at")
        for line in found:
            print(line)


main()
