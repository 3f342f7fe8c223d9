#!/usr/bin/env python3
"""Spells this repository's own definitions, lemmas, fields and bound names as Rattle does: words in snake case, facts and types in camel case.

usage: tools/respell-names.py [--look] [FOLDER]

The crate that was called bytes becomes byte_text, since the kit has a library of the old name.

It goes over the crates of FOLDER, else of this repository, once, right after the kit's own port.py. A name with a dash is respelled wherever it
stands in a specs/ or proofs/ file or in a clause. It stays where the file has it from the kit's library, and where Rattle made it: the goals of a function
and the steps that an answer reads of its argument. With --look nothing is written: the names that would fall together are listed.
"""

import os
import re
import sys

# Where plain spelling would meet another name: the fact or record on the left is told apart from a type or a function of src/.
TOLD_APART = {
    "Commodity-name": "IsCommodityName",
    "Account-name": "IsAccountName",
    "Given-amount": "AmountGiven",
    "Given-braces": "BracesGiven",
    "Given-cost": "CostGiven",
}
TOKEN = re.compile(r"(?<![\w'\-])[A-Za-z][\w']*(?:-[\w']+)+(?![\w'\-])")
USE = re.compile(r"\buse\s+([\w.'·\-]+?)\.\{([^}]*)\}")
ALIAS = re.compile(r"\buse\s+([\w.'·\-]+)\s+as\s+([\w'\-]+)")
DECLARED = re.compile(r"(?m)^\s*(?:(?:unfoldable|abbrev|pub|data|record)\s+)*([A-Za-z][\w'\-]*)\s*(?:\{[^}\n]*\}\s*|\([^)\n]*\)\s*)*:\s*(.*)$")
MADE = re.compile(r"(?:Goals|Given|Needs)$")


def spelled(name):
    if name in TOLD_APART:
        return TOLD_APART[name]
    if name[0].isupper():
        return "".join(p[:1].upper() + p[1:] for p in name.split("-"))
    return name.replace("-", "_")


def files(top, *endings):
    for folder, dirs, names in os.walk(os.path.join(top, "crates")):
        dirs[:] = sorted(d for d in dirs if d != "out")
        for n in sorted(names):
            if n.endswith(endings):
                yield os.path.join(folder, n)


def read(path):
    with open(path, encoding="utf-8") as f:
        return f.read()


def own(path, crates):
    steps = path.split(".")
    return len(steps) > 1 and steps[0] == "Rattle" and steps[1] in crates


def staying(text, crates):
    """The names that stay in this file, the short names of library modules, and those of the modules that Rattle makes."""
    stay, far, made = set(), set(), set()
    for path, items in USE.findall(text):
        if not own(path, crates) or MADE.search(path):
            stay |= {w for it in items.split(",") for w in re.split(r"\s+as\s+", it.strip())}
    for path, short in ALIAS.findall(text):
        if MADE.search(path):
            made.add(short)
        elif not own(path, crates):
            far.add(short)
    for name, rest in DECLARED.findall(text):
        if any(rest.startswith(m + ".") for m in made):
            stay.add(name)
    return stay, far, made


def chain(text, at):
    """The dotted path before the word at `at`, its first step first."""
    m = re.search(r"([\w'\-]+(?:\.[\w'\-]+)*)\.$", text[max(0, at - 200):at])
    return m[1].split(".") if m else []


def in_comment(comment, declared):
    """A comment is prose, and speaks of a definition only in backticks."""
    return re.sub(r"`[^`\n]*`", lambda m: TOKEN.sub(lambda k: spelled(k[0]) if k[0] in declared else k[0], m[0]), comment)


def turned(text, declared, crates):
    stay, far, made = staying(text, crates)

    def one(m):
        if m["comment"]:
            return in_comment(m[0], declared)
        name = m[0]
        if name in stay:
            return name
        if m.start() and text[m.start() - 1] == ".":
            path = chain(text, m.start())
            if name not in declared or path and (path[0] in far | made or made and path[-1] == "c"):
                return name
        return spelled(name)

    return re.sub(rf"(?m)(?P<comment>(?:(?<=\s)|^)--.*)|{TOKEN.pattern}", one, text)


def uncommented(line):
    at = line.find("//")
    return (line, "") if at < 0 else (line[:at], line[at:])


def turned_source(text, declared, crates):
    """Code has no word with a dash, so each such word outside strings and comments is of a clause."""
    out = []
    for line in text.split("\n"):
        code, comment = uncommented(line)
        parts = re.split(r'(b?"(?:\\.|[^"\\])*")', code)
        out.append("".join(p if i % 2 else TOKEN.sub(lambda m: spelled(m[0]) if m[0] in declared else m[0], p) for i, p in enumerate(parts)) + in_comment(comment, declared))
    return "\n".join(out)


def renamed_crate(top):
    """The crate bytes under its new name, wherever code, paths and the list of crates speak of it."""
    crates = os.path.join(top, "crates")
    if os.path.isdir(os.path.join(crates, "bytes")):
        os.rename(os.path.join(crates, "bytes"), os.path.join(crates, "byte_text"))
    for p in [*files(top, ".antt", ".rt"), os.path.join(top, "crates.txt")]:
        old = read(p)
        if p.endswith("crates.txt"):
            new = re.sub(r"\bbytes\b", "byte_text", old)
        else:
            new = re.sub(r"\bRattle\.bytes\.", "Rattle.byte_text.", old)
        if p.endswith(".rt"):
            new = re.sub(r"\bbytes::", "byte_text::", new)
        if new != old:
            with open(p, "w", encoding="utf-8") as f:
                f.write(new)


def main(argv):
    look = "--look" in argv
    rest = [a for a in argv if a != "--look"]
    top = rest[0] if rest else os.path.dirname(os.path.dirname(os.path.realpath(__file__)))
    if not look:
        renamed_crate(top)
    crates = set(os.listdir(os.path.join(top, "crates")))
    declared = set()
    for p in files(top, ".antt"):
        declared |= {n for n, _ in DECLARED.findall(read(p)) if "-" in n}
    for p in files(top, ".antt", ".rt"):
        old = read(p)
        new = turned(old, declared, crates) if p.endswith(".antt") else turned_source(old, declared, crates)
        if look:
            before = set(re.findall(r"[A-Za-z][\w']*", old))
            changed = {m[0] for m in TOKEN.finditer(old)} - {m[0] for m in TOKEN.finditer(new)}
            met = sorted((n, spelled(n)) for n in changed if spelled(n) in before)
            if met:
                print(os.path.relpath(p, top), met)
        elif new != old:
            with open(p, "w", encoding="utf-8") as f:
                f.write(new)
    return 0


if __name__ == "__main__":
    raise SystemExit(main(sys.argv[1:]))
