#!/usr/bin/env python3
"""Brings the repository's own definitions, lemmas, fields and cases to the library's spelling: words in snake case.

usage: python3 tools/respell.py [--list]      at the top of the repository, once, right after port.py

It reads every name that specs/ and proofs/ declare, and each variable or alias in camel case, and renames those that
have a dash or are in camel case, wherever they stand: in specs/, proofs/, and in the clauses, ghost lines and comments of src/. Names of src/ (functions, types,
fields, variants), what the check itself names, types, modules, strings and the files of must-fail/ stay as they are.
It stops, and writes nothing, where two names of one file would fall together. --list prints the table alone.
"""

import collections
import glob
import os
import re
import sys

# What ends a name of antt.
END = r"\s(){};.,«»\"λ"
NAME = re.compile(rf"[^{END}]+")
# A variable in camel case.
CAMEL = re.compile(rf"(?<![^{END}])[a-z][a-z0-9]*[A-Z][A-Za-z0-9]*(?![^{END}])")
DECLARES = re.compile(rf"^\s*(?:(?:pub|abbrev|unfoldable|deriving)\s+)*((?:[^{END}:=]+\s+)*[^{END}:=]+)\s+:\s")
# Names that the check makes and that an answer declares, or that stand for them in a proof by hand.
MADE = re.compile(r"\btie\.|:\s*statement\b|\{M : Type 1\}")
# Words of std that a name may not become in a file that brings them in.
RESERVED = set(
    "data record deriving module where use mod pub package open as unfoldable abbrev axiom unfold unfolding ruleset mutual "
    "infix infixl infixr elim let in do Type coe fcoe tcoe hcom com search simp rw cc omega grind hlevel assumption "
    "ground first_of".split()
)


# Names that snake case would give a word of the library, or a field of src/.
OTHERWISE = {"bit-or": "bit_or_lem", "leEvent": "le_meta_event"}


def snake(name):
    """rowFits and row-fits as row_fits."""
    return OTHERWISE.get(name) or re.sub(r"([a-z0-9])([A-Z])", r"\1_\2", name).replace("-", "_").lower()


def code(path):
    """A file of antt without its comments."""
    with open(path, encoding="utf-8") as f:
        return re.sub(r"(?m)--.*$", "", f.read())


def ghosts(path):
    """The ghost lines of a file of Rattle."""
    with open(path, encoding="utf-8") as f:
        return [line for line in f if line.startswith("ghost use")]


def files(*kinds):
    for kind in kinds:
        yield from sorted(glob.glob(f"crates/*/{kind}", recursive=True))


def declared(path):
    """The names that a file declares, and the line each stands in."""
    with open(path, encoding="utf-8") as f:
        for line in f:
            if line.lstrip().startswith("--"):
                continue
            m = DECLARES.match(line)
            if m and not MADE.search(line) and not line.lstrip().startswith(("let ", "use ", "λ", "in ", "→", "(", "elim ")):
                yield from ((n, line) for n in m.group(1).split())


def table():
    """The old names and the new ones. A lemma that would have the name of a definition gets _lem."""
    specs = {name for path in files("specs/**/*.antt") for name, _ in declared(path)}
    lemmas = {name for path in files("proofs/**/*.antt") for name, _ in declared(path)}
    camel = {n for path in files("specs/**/*.antt", "proofs/**/*.antt") for n in CAMEL.findall(code(path))}
    camel |= {n for path in files("src/**/*.rt") for n in re.findall(r"\bas ([a-z]\w*)", "".join(ghosts(path)))}
    every = {n for n in specs | lemmas | camel if n[0].isalpha() and not n[0].isupper()}
    out = {n: snake(n) for n in every if snake(n) != n}
    meant = {out.get(n, n) for n in specs}
    for name in sorted(lemmas - specs):
        if out.get(name, name) in meant:
            out[name] = out.get(name, name) + "_lem"
    return out


def turn_antt(text, names):
    lines = []
    for line in text.split("\n"):
        # A path of the check's own names is left alone: a step, a need, a module.
        parts = re.split(rf"([^{END}]+)", line)
        for i in range(1, len(parts), 2):
            before = parts[i - 1][-1:] if parts[i - 1] else ""
            after = parts[i + 1][:1]
            # A word in snake case in a path may be a function of src/ or a step of its proof.
            path = "-" not in parts[i] and parts[i].islower() and "." in (before, after)
            if parts[i] in names and not path and not (before == "." and parts[i - 2] in ("tie", "lts")):
                parts[i] = names[parts[i]]
        lines.append("".join(parts))
    return "\n".join(lines)


def turn_rt(text, names):
    """In a file of Rattle: everything but strings, and a name with a dash only in clauses, ghost lines and ticks."""
    out, inside = [], 0
    for line in text.split("\n"):
        stripped = line.lstrip()
        clause = inside > 0 or re.match(r"(requires|ensures|ghost)\b", stripped)
        comment = stripped.startswith("//")
        if clause and not comment:
            inside += line.count("{") - line.count("}")
            inside = max(inside, 0)
            out.append(turn_antt(line, names))
        else:
            ticks = re.split(r"(`[^`]*`)", line)
            for i, part in enumerate(ticks):
                if i % 2 or (comment and not i % 2):
                    ticks[i] = re.sub(
                        rf"[^{END}`:;!?]+",
                        lambda m: names[m.group(0)] if m.group(0) in names and (i % 2 or "-" not in m.group(0)) else m.group(0),
                        part,
                    )
            out.append("".join(ticks))
    return "\n".join(out)


def clashes(names):
    """Two names of one file that fall together, or a new name that the file already has."""
    found = []
    for path in files("specs/**/*.antt", "proofs/**/*.antt"):
        with open(path, encoding="utf-8") as f:
            text = f.read()
        # A path names modules, and functions of src/ by their own names; a field is told by its record.
        words = set(NAME.findall(re.sub(rf"(?m)^\s*--.*$|[^{END}]+(?=\.)|(?<=\.)[^{END}]+|[^{END}]+(?= =)|\w+ :", "", text)))
        seen = collections.defaultdict(set)
        for w in words:
            seen[names.get(w, w)].add(w)
        found += [(path, new, sorted(olds)) for new, olds in seen.items() if len(olds) > 1]
    return found


def main():
    names = table()
    bad = [(o, n) for o, n in names.items() if n in RESERVED]
    if "--list" in sys.argv:
        for old in sorted(names):
            print(old, names[old], sep="\t")
        return 0
    met = clashes(names)
    for path, new, olds in met:
        print(f"{path}: {' and '.join(olds)} would both be {new}")
    for old, new in bad:
        print(f"{old} would be {new}, which is reserved")
    if (met or bad) and "--anyway" not in sys.argv:
        return 1
    for path in files("specs/**/*.antt", "proofs/**/*.antt"):
        with open(path, encoding="utf-8") as f:
            text = f.read()
        new = turn_antt(text, names)
        if new != text:
            with open(path, "w", encoding="utf-8") as f:
                f.write(new)
    for path in files("src/**/*.rt"):
        with open(path, encoding="utf-8") as f:
            text = f.read()
        new = turn_rt(text, {o: n for o, n in names.items() if o != o.lower() or "-" in o})
        if new != text:
            with open(path, "w", encoding="utf-8") as f:
                f.write(new)
    print(f"{len(names)} names")
    return 0


if __name__ == "__main__":
    os.chdir(os.path.dirname(os.path.dirname(os.path.abspath(__file__))))
    raise SystemExit(main())
