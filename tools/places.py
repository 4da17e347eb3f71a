#!/usr/bin/env python3
"""Lists the places of docs/DESIGN-PASS.md: code in src/ that has a form which the language has a plainer one for.

usage: python3 tools/places.py [CHECKOUT]      the checkout beside this one by default; each point's count, and a line for each place

What it finds is what is written in one of the listed ways; which of it is a place is said in the page. Points 2 and 7 also need reading.
"""

import collections
import glob
import itertools
import os
import re
import sys

top = sys.argv[1] if len(sys.argv) > 1 else os.path.join(os.path.dirname(os.path.abspath(__file__)), "..")
os.chdir(top)
files = sorted(glob.glob("crates/*/src/**/*.rt", recursive=True))
text = {f: re.sub(r"//.*", "", open(f, encoding="utf-8").read()) for f in files}


def show(point, title, found):
    print(f"{point}  {title}: {len(found)}")
    for line in found:
        print("       ", line)


def lines(pattern):
    hits = []
    for f in files:
        for n, line in enumerate(text[f].splitlines(), 1):
            if re.search(pattern, line):
                hits.append(f"{f}:{n}: {line.strip()}")
    return hits


def functions():
    """name, parameters, result and body of each function"""
    for f in files:
        for m in re.finditer(r"\bfn (\w+)(?:<[^(]*>)?\(([^)]*)\)(?:\s*->\s*([^\n{]+))?", text[f]):
            end = re.search(r"^(?:    )?\}", text[f][m.end():], re.M)
            yield f, m.group(1), m.group(2), (m.group(3) or "").strip(), text[f][m.end():m.end() + (end.start() if end else 0)]


# 1
enums = []
for f in files:
    for m in re.finditer(r"enum (\w+) \{([^}]*)\}", text[f]):
        cases = [c.strip() for c in m.group(2).split(",") if c.strip()]
        if len(cases) == 2 and any("(" in c for c in cases):
            enums.append(f"{f}: {m.group(1)} of {' and '.join(cases)}")
show(1, "own enums of two cases, one of which holds a value", enums)
show(1, "functions that answer a number for a kind", [f"{f}: {n}" for f, n, p, r, b in functions() if r in ("u8", "u32") and "u8" not in p.replace("&mut [u8]", "")])
show(1, "functions whose index may be past the end", [f"{f}: {n}" for f, n, p, r, b in functions() if r == "usize" and "&[" in p or r == "usize" and "&self" in p and "unwrap_or" in b])
# 2
seen = collections.defaultdict(list)
for f, n, p, r, b in functions():
    seen[re.sub(r"\b[a-z_]+\b|\s|[0-9]+", "", b.split("{", 1)[-1] if "ensures" not in b else b.rsplit("}\n", 1)[-1])].append(f"{f}: {n}")
twins = [", ".join(v) for k, v in seen.items() if len(v) > 1 and len(k) > 8]
show(2, "functions whose bodies differ in names alone (read the others)", twins)
# 3
show(3, "loops that count an index by hand", lines(r"\bwhile\b|\bloop\b"))
# 4
show(4, "comparisons of what a unit holds", [h for h in lines(r"\w\.0 (<|<=|==|!=|>|>=) |(<|<=|==|!=|>|>=) \w+\.0\b") if " * " not in h and "requires" not in h])


def body(text_after_head):
    """the statements of a function, without its clauses"""
    return re.split(r"^\s*\{\n", text_after_head, maxsplit=1, flags=re.M)[-1].strip()


show(4, "functions of one value that only convert it, by a cast, a constructor or a match, or copy a list by hand", [
    f"{f}: {n}" for f, n, p, r, b in functions()
    if n != "from" and (p.count(":") + ("self" in p) == 1 and r not in ("", "bool")
        and (re.fullmatch(r"\(*(\w+|self)(\.\w+)* as \w+\)?( [-+*] \d+)?", body(b)) or re.fullmatch(r"[A-Z]\w+\([^;]*\)", body(b)) or body(b).startswith("match "))
        or re.search(r"\w+\[[^\]]*\] = \w+\[\w+\];", b))])
# 5
facts = collections.Counter()
for f in files:
    for m in re.finditer(r"^\s*requires(?: \w+)? \{ (.*?) \}$", text[f], re.M):
        for part in m.group(1).split(" × "):
            fact = re.sub(r"\.(now|old)\b", "", part.strip("()"))
            facts[re.sub(r"\b((self|sound|job|positions|bests)\.)+(?=\w)", "", fact)] += 1
show(5, "facts that three or more contracts ask for, whatever value they are a part of", [f"{k} ({v})" for k, v in facts.most_common() if v >= 3])
sets = [(n, frozenset(q.split(":")[0].strip() for q in p.split(",") if ":" in q)) for f, n, p, r, b in functions()]
groups = set()
for some in itertools.combinations(sets, 3):
    shared = frozenset.intersection(*(q for _, q in some))
    if len(shared) >= 3:
        groups.add(shared)
largest = [g for g in groups if not any(g < h for h in groups)]
show(5, "largest groups of three or more parameters that three or more functions take together", sorted(
    f"{', '.join(sorted(g))} ({sum(g <= q for _, q in sets)})" for g in largest))
names = sorted({q for _, qs in sets for q in qs})
takes = {name: {k for k, (_, qs) in enumerate(sets) if name in qs} for name in names}
show(5, "pairs of parameters that two or more functions take, and none takes one without the other", [
    f"{a}, {b} ({len(takes[a])})" for a, b in itertools.combinations(names, 2) if takes[a] == takes[b] and len(takes[a]) >= 2])
# 6
show(6, "functions that take two or more lists", [f"{f}: {n}" for f, n, p, r, b in functions() if len(re.findall(r"&(?:mut )?\[u\d+\]", p)) >= 2])
show(6, "arrays of the largest size, of which a part is used", lines(r"let mut \w+ = \[0u(8|64); Board::PLACES\]|let mut numbers = "))
# 7
show(7, "tables of functions, function pointers and dyn", lines(r"\bdyn\b|: fn\("))
# 8
answers = glob.glob("crates/*/proofs/*/**/Answers.antt", recursive=True)
rules = glob.glob("crates/*/proofs/*/**/Invariants.antt", recursive=True)
given = sum(len(re.findall(r"^(?:abbrev )?pub ", open(a, encoding="utf-8").read(), re.M)) for a in answers + rules)
show(8, "functions with proof files of their own", sorted({os.path.dirname(a) for a in answers + rules}))
print(f"8  answers, invariants and measures in them: {given}")
