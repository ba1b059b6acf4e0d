#!/usr/bin/env python3
"""Brings the repository's own names to today's spelling, once: snake case for functions, lemmas, fields and local names, camel case
for types. A dash stays where it joins a name to an operator (`power-*`), in the names that Rattle makes for goals and their parts,
and in what is imported from the standard library.

usage: python3 tools/respell.py      at the top of a checkout in which port.py has run; prints what it renamed
"""
import glob
import re
import sys

NAME = r"[^\s(){}\[\],;:.λ\"`⟨⟩]+"
WORD = re.compile(r"^[\w']+(-[\w']+)+\??$")
LOWER_FACTS = re.compile(r"^(X|Y|XY|Length|Symbol|NoCodeWord|None)-(in|is|nonzero|due)$")


def own_files(kind):
    """specs/ and the lemma files of proofs/, or else the proofs of functions, or else the sources."""
    for path in sorted(glob.glob("crates/*/**/*", recursive=True)):
        part = path.split("/")[2:]
        if not path.endswith((".antt", ".rt")):
            continue
        lemma = part[0] == "specs" or part[0] == "proofs" and len(part) == 2
        if kind == ("source" if part[0] == "src" else "lemma" if lemma else "function"):
            yield path


def turned(name):
    """The name in today's spelling."""
    if name[0].isupper() and not LOWER_FACTS.match(name):
        return "".join(part[0].upper() + part[1:] for part in name.split("-"))
    return name.replace("-", "_")


def foreign(text):
    """The names that a file takes from elsewhere than this repository."""
    found = set()
    for module, names in re.findall(r"use ([\w.']+)\.\{([^}]*)\}", text):
        if module.startswith("Rattle.std.") or not module.startswith("Rattle."):
            for item in names.split(","):
                found |= set(item.split())
    return found


def split_comments(text, mark):
    """Pieces of the text, each with whether it is a comment."""
    at = 0
    for m in re.finditer(re.escape(mark) + r"(?![^\s\w`\-]).*", text) if mark == "--" else re.finditer(r"//.*", text):
        before = text[m.start() - 1] if m.start() else "\n"
        if not before.isspace():
            continue
        yield text[at : m.start()], False
        yield m.group(0), True
        at = m.end()
    yield text[at:], False


def rewrite(text, mark, change):
    out = []
    for piece, comment in split_comments(text, mark):
        if comment:
            out.append(re.sub(r"`(" + NAME + ")`", lambda m: "`" + change(m.group(1), " ", " ") + "`", piece))
            continue
        # strings stay
        for i, part in enumerate(re.split(r'("[^"\n]*")', piece)):
            if i % 2:
                out.append(part)
                continue
            out.append(re.sub(NAME, lambda m, p=part: change(m.group(0), (" " + p[: m.start()])[-2:], p[m.end() :]), part))
    return "".join(out)


def fields_and_names():
    names, fields = set(), set()
    for path in own_files("lemma"):
        text = open(path, encoding="utf-8").read()
        taken = foreign(text)
        for piece, comment in split_comments(text, "--"):
            if comment:
                continue
            for token in re.findall(NAME, piece):
                if WORD.match(token) and token not in taken:
                    names.add(token)
        for indent, token in re.findall(r"^( +)(?:pub )?(" + NAME + r") :", text, re.M):
            if WORD.match(token):
                fields.add(token)
                names.add(token)
    return names, fields


def main():
    names, fields = fields_and_names()
    spelled = {}
    for name in sorted(names):
        spelled.setdefault(turned(name), []).append(name)
    together = {new: old for new, old in spelled.items() if len(old) > 1}
    if together:
        sys.exit(f"fall together: {together}")
    existing = set()
    for kind in ("lemma", "function", "source"):
        for path in own_files(kind):
            existing |= set(re.findall(NAME, open(path, encoding="utf-8").read()))
    for new, old in sorted(spelled.items()):
        if new in existing:
            print(f"look: {old[0]} becomes {new}, which is there")
    for kind in ("lemma", "function", "source"):
        for path in own_files(kind):
            text = open(path, encoding="utf-8").read()
            taken = foreign(text)

            def change(token, before, after, taken=taken, kind=kind):
                field = before[-1:] == "." or re.match(r"\s*=\s", after) is not None
                if before.endswith("N."):  # the kit's lemmas on numbers, under a short name
                    return token
                before = before[-1:]
                if token not in names or token in taken and not (field and token in fields):
                    return token
                if kind == "function" and before == "." and token not in fields:
                    return token
                return turned(token)

            new = rewrite(text, "--" if path.endswith(".antt") else "//", change)
            if new != text:
                open(path, "w", encoding="utf-8").write(new)
    for path in ["README.md"] + sorted(glob.glob("docs/*.md")):
        text = open(path, encoding="utf-8").read()
        new = re.sub(r"`(" + NAME + ")`", lambda m: "`" + (turned(m.group(1)) if m.group(1) in names else m.group(1)) + "`", text)
        if new != text:
            open(path, "w", encoding="utf-8").write(new)
    for name in sorted(names):
        print(f"{name} -> {turned(name)}")


if __name__ == "__main__":
    main()
