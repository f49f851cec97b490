#!/usr/bin/env python3
"""Counts the places in crates/*/src that docs/DESIGN-PASS.md speaks of, point by point.

    python3 tools/places.py [--list] [COMMIT]

With --list it names each place. With COMMIT it counts in that commit and not in the working tree.
"""
import glob
import re
import subprocess
import sys

args = [a for a in sys.argv[1:] if a != "--list"]
listing = "--list" in sys.argv


def sources():
    if not args:
        for path in sorted(glob.glob("crates/*/src/*.rt")):
            yield path, open(path).read()
        return
    names = subprocess.run(["git", "ls-tree", "-r", "--name-only", args[0], "crates"], capture_output=True, text=True, check=True)
    for path in names.stdout.split("\n"):
        if re.match(r"crates/\w+/src/\w+\.rt$", path):
            yield path, subprocess.run(["git", "show", f"{args[0]}:{path}"], capture_output=True, text=True, check=True).stdout


def functions(text):
    """Name and body of each function: the lines after the line that is an opening brace alone, or ends the header, up to its end."""
    lines = text.split("\n")
    i = 0
    while i < len(lines):
        head = re.match(r"^(\s*)(?:pub )?(?:extern \"C\" )?fn (\w+)", lines[i])
        i += 1
        if not head:
            continue
        start = i - 1
        while start < len(lines) and not lines[start].rstrip().endswith("{"):
            if lines[start].rstrip().endswith(";"):
                break
            start += 1
        if start >= len(lines) or not lines[start].rstrip().endswith("{"):
            continue
        body = []
        j = start + 1
        while j < len(lines) and lines[j] != head.group(1) + "}":
            body.append(lines[j])
            j += 1
        yield head.group(2), body


def shape(body):
    """The body with each name, number and string the same."""
    text = " ".join(" ".join(line.split("//")[0].split()) for line in body)
    text = re.sub(r'b?"[^"]*"|b\'[^\']*\'', "S", text)
    text = re.sub(r"\b(?!let|mut|if|else|return|while|for|in|match|fn|true|false|self\b)[A-Za-z_]\w*\b", "N", text)
    return re.sub(r"\b\d\w*\b", "0", text)


def lines_with(pattern, wanted=None):
    found = []
    for path, text in files:
        for number, line in enumerate(text.split("\n"), 1):
            if line.lstrip().startswith("//"):
                continue
            if re.search(pattern, line) and (wanted is None or wanted(path, line)):
                found.append(f"{path}:{number}: {line.strip()}")
    return found


def empty_variants():
    """Enums with a case that says that there is nothing, or why there is none, beside a case that has a value."""
    found = []
    for path, text in files:
        for match in re.finditer(r"^(?:pub )?enum (\w+) \{\n((?:.*\n)*?)\}", text, re.M):
            cases = [c.strip() for c in match.group(2).split("\n") if c.strip() and not c.strip().startswith("//")]
            with_value = [c for c in cases if "(" in c]
            if with_value and len(with_value) < len(cases) or any(re.match(r"No|Nothing", c) for c in cases):
                found.append(f"{path}: {match.group(1)} {{ {' '.join(cases)} }}")
    return found


def twins():
    groups = {}
    for path, text in files:
        for name, body in functions(text):
            body = [line for line in body if line.strip() and not line.strip().startswith("//")]
            if len(body) >= 4:
                groups.setdefault(shape(body), []).append(f"{path}: {name}")
    return [" = ".join(g) for g in groups.values() if len(g) > 1]


def repeated_facts():
    """Facts between the signs of a product in `requires`, with the parameter's name taken away, in three functions or more."""
    facts = {}
    for path, text in files:
        for match in re.finditer(r"^\s*requires(?: \w+)? \{(.*)\}\s*$", text, re.M):
            for part in re.split(r"×", match.group(1)):
                part = part.strip().strip("()").strip()
                part = re.sub(r"\bs\.links\b", "links", part)
                facts.setdefault(part, []).append(path)
    return [f"{len(p)} times: {fact}" for fact, p in sorted(facts.items(), key=lambda x: -len(x[1])) if len(p) >= 3]


files = list(sources())
points = [
    ("1a own enums of the shape of Option or Result", empty_variants()),
    ("1b a flag beside a value (fields of type bool)", lines_with(r"^\s+(?:pub )?\w+: bool,$")),
    ("1c numbers for kinds or refusals", lines_with(r"\b(?:number|kind|family|test|form|now)\b: u8|fn (?:about_\w+|family_of|reason_octet)\(.*-> u8|^\) -> u8$")),
    ("2 functions that are alike but for names (four lines or more)", twins()),
    ("3 loops that count by hand (`while`)", lines_with(r"^\s*while ")),
    ("4a octets of a number by hand", lines_with(r"% 256\) as u8|/ 256\) as u8|256 \* |65536 \* ")),
    ("4b casts that only widen", lines_with(r"\w+ as (?:u16|u32|u64|usize)\b", lambda p, l: "*" not in l.split(" as ")[0][-2:])),
    ("4c copies of a struct's fields one by one (`let f = s.f;` and no more)", lines_with(r"^\s+let (\w+) = \w+\.\1;$")),
    ("5 facts in the `requires` of three functions or more", repeated_facts()),
    ("6 counts beside arrays (fields)", lines_with(r"^\s+(?:pub )?(?:\w+_)?(?:len|count): (?:usize|u8),$")),
    ("7 matches on an opcode or a kind that pick a function", lines_with(r"^\s+match (?:op|kind|part|task)\b")),
]
for name, found in points:
    print(f"{len(found):4}  {name}")
    if listing:
        for place in found:
            print("        " + place)
