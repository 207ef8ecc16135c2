#!/usr/bin/env python3
"""Brings the repository's own definitions and lemmas to today's spelling, once, right after port.py.

usage: python3 tools/respell.py [--list]     at the top of the repository

Words are in snake case (maxBytes is max_bytes, sheet-sound is sheet_sound), types in camel case. A name is the
repository's own if a file of specs/ or a lemma file of proofs/ declares it: at the left of a colon, as a field, as a
constructor or as a definition's part. Every use of it follows, in .antt files, in the clauses and `ghost use` lines of
.rt files and in the edits. Names of the library, names that Rattle makes (Need-.., After-..), strings and functions of
src/ keep theirs. --list prints the old and the new names and changes nothing.
"""

import os
import re
import sys

# What a name of antt's is made of; a dot parts the members of a path.
NAME = r"[^\s(){}\[\],;.«»\"`:λ⌜⌝⟦⟧@]+"
TOKEN = re.compile(NAME)
DECLARED = re.compile(r"^\s*(?:(?:pub|abbrev|unfoldable|instance|private)\s+)*(" + NAME + r"(?:\s+" + NAME + r")*)\s*:(?:\s|$)")
BINDER = re.compile(r"[({](" + NAME + r"(?:\s+" + NAME + r")*)\s*:\s")
OWNER = re.compile(r"^\s*(?:(?:pub|abbrev|unfoldable)\s+)*(?:data|record)\s+(" + NAME + r")")
FOREIGN = re.compile(r"^\s*(?:ghost\s+)?use\s+(?!Rattle\.(?!std\.))([\w.+'-]+)\.\{([^}]*)\}")


def files(root, ends):
    for folder, dirs, names in os.walk(os.path.join(root, "crates")):
        dirs[:] = sorted(d for d in dirs if d != "out")
        for name in sorted(names):
            if name.endswith(ends):
                yield os.path.join(folder, name)


def read(path):
    with open(path, encoding="utf-8") as f:
        return f.read()


def of_function(path):
    """Whether a file is a function's proof, whose own names go when it is turned to answers."""
    return "/proofs/" in path and (path.endswith("/Proof.antt") or "/Proof/" in path)


def odd(name):
    letters = re.sub(r"[^A-Za-z-]", "", name)
    return bool(re.search(r"[a-z][A-Z]", letters) and name[0].islower()) or bool(re.search(r"[\w✓~'’]-[\w]", name))


def spelled(name):
    if name[0].isupper() and "-" not in name:
        return name
    out = re.sub(r"(?<=[a-z0-9])(?=[A-Z])", "_", name.replace("-", "_"))
    return "_".join(p[:1].lower() + p[1:] for p in out.split("_"))


def gather(root):
    """The names that the repository declares, those that it takes from the library, and all that files name but for paths."""
    own, foreign, seen = set(), set(), set()
    for path in files(root, (".antt",)):
        if of_function(path):
            continue
        for line in read(path).split("\n"):
            if line.lstrip().startswith("--"):
                continue
            code = re.sub(r"\"(?:[^\"\\]|\\.)*\"", '""', line)
            m = FOREIGN.match(code)
            if m:
                foreign.update(re.sub(r"\s+as\s+.*", "", n).strip() for n in m.group(2).split(","))
                seen.update(foreign)
                continue
            if re.match(r"\s*(?:pub\s+)?use\s", code):
                continue
            seen.update(TOKEN.findall(code))
            m = DECLARED.match(code)
            if m:
                own.update(m.group(1).split())
            m = OWNER.match(code)
            if m:
                own.add(m.group(1))
            for binder in BINDER.findall(code):
                own.update(n for n in binder.split() if odd(n))
    return own, foreign, seen


def table(root):
    """Old name to new. Where a definition and a law about it would fall together, the law's new name ends in `_law`."""
    own, foreign, seen = gather(root)
    names, notes = {}, []
    mine = [n for n in sorted(own) if odd(n)]
    for n in mine:
        if n in foreign:
            notes.append(f"look: {n} is a name of the library too, and stays")
    mine = [n for n in mine if n not in foreign]
    definitions = {spelled(n): n for n in mine if "-" not in n}
    for new, n in definitions.items():
        names[n] = new
        if new in seen:
            names[new] = new + "_law"
            notes.append(f"look: {new} gives way to {n}, and is {new}_law")
    for n in mine:
        if "-" in n:
            new = spelled(n)
            if new in definitions or new in seen:
                new += "_law"
                notes.append(f"look: {n} is {new}")
            names[n] = new
    left = {}
    for n, new in names.items():
        if new in left or new in seen and new not in names:
            notes.append(f"left: {n} and {left.get(new, new)} fall together")
        left[new] = n
    return names, notes


def steps(root):
    """The names of steps in functions' proofs, which Rattle makes of functions' names."""
    out = set()
    for path in files(root, (".rt",)):
        for f in re.findall(r"\bfn (\w+)", read(path)):
            out.add(f.replace("_", "-"))
    return out


def turned(code, names, keep):
    def one(m):
        t = m.group(0)
        if t not in names:
            return t
        if keep is not None and m.start() and code[m.start() - 1] == "." and re.sub(r"\d+$", "", t) in keep:
            return t
        return names[t]

    parts = re.split(r"(\"(?:[^\"\\]|\\.)*\")", code)
    return "".join(p if i % 2 else TOKEN.sub(one, p) for i, p in enumerate(parts)) if keep is None else TOKEN.sub(one, code)


def in_comment(text, names):
    """Names in a comment: those in backticks, and camel case ones anywhere."""
    text = re.sub(r"`[^`\n]*`", lambda m: TOKEN.sub(lambda t: names.get(t.group(0), t.group(0)), m.group(0)), text)
    return re.sub(r"(?<![\w`])[a-z]+(?:[A-Z][a-z0-9]*)+(?![\w`])", lambda m: names.get(m.group(0), m.group(0)), text)


def line_turned(line, names, keep, mark):
    if line.lstrip().startswith(mark):
        return in_comment(line, names)
    return turned(line, names, keep)


def clause_lines(text):
    """Which lines of a .rt file are clauses, ghost items or `ghost use`."""
    out, deep = set(), 0
    for i, line in enumerate(text.split("\n")):
        s = line.strip()
        if deep:
            out.add(i)
        elif s.startswith("ghost ") or re.match(r"(?:requires|ensures|ghost|decreases)\b", s):
            out.add(i)
        else:
            continue
        deep += line.count("{") - line.count("}") if not s.startswith("ghost use") else 0
        deep = max(deep, 0)
    return out


def main(argv):
    root = "."
    names, notes = table(root)
    if argv == ["--list"]:
        print("\n".join(f"{a}\t{b}" for a, b in sorted(names.items())))
        print("\n".join(notes))
        return 0
    made = steps(root)
    for path in files(root, (".antt",)):
        keep = made if of_function(path) else None
        text = read(path)
        new = "\n".join(line_turned(l, names, keep, "--") for l in text.split("\n"))
        if new != text:
            with open(path, "w", encoding="utf-8") as f:
                f.write(new)
    for path in files(root, (".rt",)):
        text = read(path)
        lines = text.split("\n")
        at = clause_lines(text)
        for i, l in enumerate(lines):
            if l.lstrip().startswith("//"):
                lines[i] = in_comment(l, names)
            elif i in at:
                lines[i] = turned(l, names, None)
        new = "\n".join(lines)
        if new != text:
            with open(path, "w", encoding="utf-8") as f:
                f.write(new)
    for path in files(root, (".edit",)):
        text = read(path)
        new = "\n".join(turned(l, names, None) if l.startswith(("old:", "new:")) else l for l in text.split("\n"))
        if new != text:
            with open(path, "w", encoding="utf-8") as f:
                f.write(new)
    print("\n".join(notes))
    print(f"respell: {len(names)} names")
    return 0


if __name__ == "__main__":
    raise SystemExit(main(sys.argv[1:]))
