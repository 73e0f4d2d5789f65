#!/usr/bin/env python3
"""Brings the names of this repository's own definitions and lemmas to one spelling: words in snake case, facts in camel case.

usage: tools/respell-names.py [--list]      in the repository's top folder, right after the toolchain's port.py

A name is one that a file of specs/ or proofs/ declares. `isKept` and `by-doubled` become `is_kept` and `by_doubled`; a name whose
type ends in `Type 0` is a fact, and becomes `IsKeptSays`. Where two names would fall together, the one that had dashes gets `_lem`.
Names of src/ stay, and so do the names that Rattle makes (goals, steps) and those of the toolchain's library. In comments, in
documents and in strings only what stands between backquotes is turned, and strings of programs not at all.
"""
import collections
import glob
import re
import sys

BREAK = r"\s(){}\[\];,:\"«»⟦⟧`"
DECLARED = re.compile(r"^(\s*)((?:(?:abbrev|pub|unfoldable|opaque)\s+)*)([^%s.]+)\s*:(?=\s|$)" % BREAK)
LET = re.compile(r"\blet\s+([^%s.]+)\s*[:=]" % BREAK)
TOKEN = re.compile(r"[^%s./]+" % BREAK)
USE = re.compile(r"^\s*(?:pub )?(?:ghost )?use ([^;{]+?)(?:\.\{([^}]*)\})?;?\s*$")
WORDS = re.compile(r"^[a-z][\w'₀-₉]*(?:-[\w'₀-₉]+)*$")
# a doc's reference to a definition: `layer/Module.name`
QUOTED = re.compile(r"`[^`\n]+`")


def read(path):
    with open(path, encoding="utf-8") as f:
        return f.read()


def write(path, text):
    with open(path, "w", encoding="utf-8") as f:
        f.write(text)


def files(pattern):
    return sorted(p for p in glob.glob(pattern, recursive=True) if "/out/" not in p)


def own_crates():
    return {p.split("/")[1] for p in files("crates/*/src/*.rt")}


def walks_code(path):
    return re.search(r"/proofs/.+/(Proof|Answers|Invariants)\.antt$", path) is not None and not re.match(r"crates/[^/]+/proofs/Answers\.antt$", path)


def declared(path, text):
    """Each name that the file declares, and whether it is a fact."""
    lines = text.split("\n")
    for i, line in enumerate(lines):
        if line.lstrip().startswith("--"):
            continue
        for m in LET.finditer(line):
            yield m.group(1), False
        m = DECLARED.match(line)
        if not m:
            continue
        rest, j = line[m.end():], i + 1
        while j < len(lines) and lines[j].strip() and len(lines[j]) - len(lines[j].lstrip()) > len(m.group(1)):
            rest += " " + lines[j].strip()
            j += 1
        if walks_code(path) and re.match(r"\s*(tie|goal)\.", rest):
            continue  # a goal's own name
        yield m.group(3), re.search(r"(?:→|^)\s*Type \d+\s*$", rest.split(" where")[0].strip()) is not None


def snake(name):
    parts = re.sub(r"(?<=[a-z0-9])(?=[A-Z])", "_", name).split("-")
    out = parts[0]
    for before, part in zip(parts, parts[1:]):
        out += ("-" if part[:1].isupper() or before[:1].isupper() else "_") + part
    return "_".join(w if w.isupper() and len(w) > 1 else w[:1].lower() + w[1:] for w in out.split("_")) if "-" not in out else out


def camel(name):
    words = re.sub(r"(?<=[a-z0-9])(?=[A-Z])", "_", name).replace("-", "_").split("_")
    return "".join(w[:1].upper() + w[1:] for w in words)


def spelling():
    """Old name to new name."""
    facts, places = {}, collections.defaultdict(set)
    for p in files("crates/*/specs/**/*.antt") + files("crates/*/proofs/**/*.antt"):
        for name, fact in declared(p, read(p)):
            if name in ("_",) or not WORDS.match(name):
                places[name].add(p)
                continue
            facts[name] = facts.get(name, False) or fact
            places[name].add(p)
    new = {n: (camel(n) if facts[n] else snake(n)) for n in facts}
    taken = collections.defaultdict(list)
    for n in places:
        taken[new.get(n, n)].append(n)
    for to, olds in sorted(taken.items()):
        if len(olds) < 2:
            continue
        # the plain name is the definition's: it had no dash
        olds.sort(key=lambda n: ("-" in n, "_" in n and n.lower() == n, n))
        for k, n in enumerate(olds[1:]):
            new[n] = to + "_lem" + (str(k + 1) if k else "")
            print(f"fall together: {olds[0]} and {n}: {n} becomes {new[n]}")
    return {a: b for a, b in new.items() if a != b}


def shielded(text, crates):
    """Names that the file takes from the toolchain's library, which keep their spelling."""
    out = set()
    for line in text.split("\n"):
        m = USE.match(line)
        if not m or not m.group(2):
            continue
        own = re.match(r"\s*Rattle\.(\w+)", m.group(1))
        if own and own.group(1) in crates:
            continue
        out |= {w.strip().split(" as ")[-1].strip() for w in m.group(2).split(",")}
    return out


def turn(text, names, keep):
    return TOKEN.sub(lambda m: m.group(0) if m.group(0) in keep else names.get(m.group(0), m.group(0)), text)


def turn_quoted(text, names, keep):
    return QUOTED.sub(lambda m: turn(m.group(0), names, keep), text)


def turn_line(line, mark, names, keep):
    at = len(line) if mark is None else line.find(mark)
    while 0 <= at < len(line) and line[:at].count('"') % 2:
        at = line.find(mark, at + 1)
    if at < 0:
        at = len(line)
    code = "".join(s if k % 2 else turn(s, names, keep) for k, s in enumerate(re.split(r'("[^"]*")', line[:at])))
    return code + turn_quoted(line[at:], names, keep)


def turn_file(path, names, crates):
    text = read(path)
    if not path.endswith(".antt"):
        # a name in snake case may be a function's of src/, and those stay
        names = {a: b for a, b in names.items() if "-" in a or re.search("[A-Z]", a)}
    if path.endswith(".antt") or path.endswith(".rt"):
        keep, mark = shielded(text, crates), "--" if path.endswith(".antt") else "//"
        out = []
        for line in text.split("\n"):
            m = USE.match(line)
            own = m and re.match(r"\s*Rattle\.(\w+)", m.group(1))
            if m and not (own and own.group(1) in crates):
                out.append(line)
            elif m:
                head, brace, rest = line.partition("{")
                out.append(head + brace + turn(rest, names, set()))
            else:
                out.append(turn_line(line, mark, names, keep))
        new = "\n".join(out)
    elif path.endswith(".edit"):
        new = "\n".join(turn_line(l, None, names, set()) if re.match(r"(old|new):", l) else turn_quoted(l, names, set()) for l in text.split("\n"))
    else:
        new = turn_quoted(text, names, set())
    if new != text:
        write(path, new)
        return True
    return False


def main():
    names, crates = spelling(), own_crates()
    if "--list" in sys.argv:
        for a, b in sorted(names.items()):
            print(a, b)
        return
    paths = files("crates/*/src/**/*.rt") + files("crates/*/specs/**/*.antt") + files("crates/*/proofs/**/*.antt") + files("crates/*/must-fail/*.edit")
    paths += [p for p in files("*.md") + files("docs/**/*.md") + files("pending/*.md") if p != "docs/PORT.md"]
    print(f"{sum(turn_file(p, names, crates) for p in paths)} files, {len(names)} names")


main()
