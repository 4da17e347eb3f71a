#!/usr/bin/env python3
"""Brings this repository's own definitions, fields, lemmas and variables to snake case, after the toolchain's script has turned the rest.

usage: python3 tools/spelling.py [--list]      at the top of the repository; --list prints old and new names and changes nothing

A name is one's own where it stands in specs/ or in a lemma file of proofs/, and no library and no function of src/ brings it in.
It is turned in code everywhere, in must-fail edits too; in comments and in README.md and docs/ only where it stands in a list of a
file's names or between back quotes.
"""

import os
import re
import sys

NAME = r"[A-Za-z][A-Za-z0-9_]*(?:-[A-Za-z0-9_]+)*['′]*[₀-₉]*(?![A-Za-z0-9_-])"
TOKEN = re.compile(r"(?<![A-Za-z0-9_'′₀-₉-])" + NAME)
# where two names would fall together, one of them gets another
APART = {
    "exact-cost": "exact_cost_scaled",
    "inOrder": "causes_in_order",
    "planRoom": "plan_length",
    "levelRoom": "level_length",
}
# what the toolchain's script took for the separator of a path
GARBLED = {"V-as-Q": "V·Q"}
CRATES = sorted(c for c in os.listdir("crates") if os.path.isdir(os.path.join("crates", c)))
OWN_USE = re.compile(r"Rattle\.(?:%s)\.(?:specs|proofs)\." % "|".join(CRATES))


def files(under, ends):
    for folder, dirs, names in os.walk(under):
        dirs[:] = sorted(d for d in dirs if d not in ("out", ".git", "target"))
        for n in sorted(names):
            if n.endswith(ends):
                yield os.path.join(folder, n)


def text(path):
    with open(path, encoding="utf-8") as f:
        return f.read()


def lemma_file(path):
    parts = path.split(os.sep)
    return path.endswith(".antt") and parts[2] in ("specs", "proofs") and (parts[2] == "specs" or len(parts) == 4)


def code(line):
    """The part of a line of antt that is no comment."""
    at = line.find("--")
    while at >= 0 and not (at == 0 or line[at - 1].isspace() or line[at - 1] in "([{"):
        at = line.find("--", at + 2)
    return line if at < 0 else line[:at]


def snake(name):
    if name in APART:
        return APART[name]
    out = name.replace("-", "_")
    return re.sub(r"(?<=[a-z0-9])([A-Z])", lambda m: "_" + m.group(1).lower(), out)


def odd(name):
    return name[0].islower() and snake(name) != name


def foreign():
    """Names that come from a library, or that the toolchain makes of the code."""
    found = set()
    for path in list(files("crates", ".antt")) + list(files("crates", ".rt")):
        for m in re.finditer(r"use ([\w.·◌]+)\.\{([^}]*)\}", text(path)):
            if not OWN_USE.match(m.group(1)) or ".declared." in m.group(1):
                found |= {w.strip() for w in m.group(2).split(",")}
    return found


def own():
    names = set()
    for path in files("crates", ".antt"):
        if not lemma_file(path):
            continue
        for line in text(path).splitlines():
            if re.match(r"\s*(pub )?(ghost )?use ", line):
                continue
            names |= {t for t in TOKEN.findall(code(line)) if odd(t)}
    return names - foreign()


def turn(line, names):
    return TOKEN.sub(lambda m: snake(m.group(0)) if m.group(0) in names else m.group(0), line)


def quoted(line, names):
    return re.sub(r"`[^`]*`", lambda m: turn(m.group(0), names), line)


def comment(line, names):
    """A comment's list of names begins five places behind its dashes; the names end where two spaces stand."""
    m = re.match(r"(\s*-- {5,})(\S.*?)(  .*)?$", line)
    if m:
        return m.group(1) + turn(m.group(2), names) + quoted(m.group(3) or "", names)
    return quoted(line, names)


def rewritten(path, names):
    t = text(path)
    for wrong, right in GARBLED.items():
        t = t.replace(wrong, right)
    if path.endswith(".antt"):
        out = []
        for line in t.split("\n"):
            c = code(line)
            out.append(turn(c, names) + comment(line[len(c):], names) if c.strip() else comment(line, names))
        return "\n".join(out)
    if path.endswith(".rt"):
        out = []
        for line in t.split("\n"):
            body, slashes, rest = line.partition("//")
            out.append(turn(body, names) + slashes + quoted(rest, names))
        return "\n".join(out)
    if path.endswith(".edit"):
        return "\n".join(turn(l, names) if re.match(r"(old|new):", l) else quoted(l, names) for l in t.split("\n"))
    return "\n".join(quoted(l, names) for l in t.split("\n"))


def main(argv):
    names = own()
    taken = set()
    for path in files("crates", (".antt", ".rt")):
        for line in text(path).splitlines():
            taken |= set(TOKEN.findall(code(line) if path.endswith(".antt") else line))
    together = {}
    for n in sorted(names):
        together.setdefault(snake(n), []).append(n)
    for s, ns in sorted(together.items()):
        if len(ns) > 1 or s in taken:
            print(f"falls together: {s}: {', '.join(ns)}{' and a name that stands' if s in taken else ''}", file=sys.stderr)
    if argv == ["--list"]:
        for n in sorted(names):
            print(n, snake(n))
        return 0
    changed = 0
    paths = list(files("crates", (".antt", ".rt", ".edit")))
    paths += [p for p in files("tests", (".edit",))] + ["README.md"] + list(files("docs", ".md"))
    for path in paths:
        new = rewritten(path, names)
        if new != text(path):
            with open(path, "w", encoding="utf-8") as f:
                f.write(new)
            changed += 1
    print(f"spelling: {len(names)} names in {changed} files")
    return 0


if __name__ == "__main__":
    raise SystemExit(main(sys.argv[1:]))
