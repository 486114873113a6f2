#!/usr/bin/env python3
"""Counts in crates/*/src the places that docs/DESIGN-PASS.md speaks of, point by point.

    python3 tools/places.py [POINT]      all points' counts; with a point, its places, file and line

It reads text, not programs: what a row means is said by the page, place by place.
"""
import re
import sys
from collections import defaultdict
from pathlib import Path

ROOT = Path(__file__).resolve().parent.parent
FILES = sorted(ROOT.glob("crates/*/src/*.rt"))


def lines():
    for path in FILES:
        for i, line in enumerate(path.read_text(encoding="utf-8").splitlines(), 1):
            if not line.lstrip().startswith("//"):
                yield f"{path.parent.parent.name}/{path.name}:{i}", line


def matching(pattern):
    return [(at, line.strip()) for at, line in lines() if re.search(pattern, line)]


def enums():
    """Each enum with its variants."""
    for path in FILES:
        text = path.read_text(encoding="utf-8")
        for m in re.finditer(r"^(?:pub )?enum (\w+)[^{]*\{(.*?)^\}", text, re.M | re.S):
            variants = re.findall(r"^    (\w+)(\([^)]*\)|\s*\{[^}]*\})?[^,\n]*,", m[2], re.M)
            yield f"{path.parent.parent.name}/{path.name}", m[1], variants


def functions():
    """Each function: its place, its name, its parameters, its requires."""
    for path in FILES:
        text = path.read_text(encoding="utf-8")
        for m in re.finditer(r"^ *(?:pub )?(?:extern \"C\" )?fn (\w+)(?:<[^>]*>)?\((.*?)\)(?: -> [^\n{]*)?\n?(.*?)^ *\{?$", text, re.M | re.S):
            head = text[m.start() : text.find("\n{", m.start()) if text.find("\n{", m.start()) > 0 else None]
            line = text[: m.start()].count("\n") + 1
            params = [p.strip() for p in m[2].replace("\n", " ").split(",") if ":" in p]
            needs = re.findall(r"requires(?: \w+)? \{(.*?)\}\n", head + "\n", re.S)
            yield f"{path.parent.parent.name}/{path.name}:{line}", m[1], params, " ".join(needs)


def point1():
    shaped = [
        (place, f"enum {name}: " + ", ".join(v + p for v, p in variants))
        for place, name, variants in enums()
        if len(variants) == 2 and any(p for _, p in variants)
    ]
    flags = matching(r"^    (pub )?\w+: bool,$")
    numbers = matching(r"\b(number|fault|bad|kind)\b(\(\w+\))? (==|!=|<|<=) \d|\d (<|<=) (\w+\.)?kind\b|\bmatch (k|kind|code)\b|kind_of\([^)]*\) == \d|return (\w+::Refused\()?1?\d\)?;|Refused\(")
    return {"enums of two variants, one with a value": shaped, "bool fields and parameters": flags, "numbers for refusals, faults and kinds": numbers}


def bodies():
    """Each function's place, name and body."""
    for path in FILES:
        name, start, body, indent = None, 0, None, ""
        for i, line in enumerate(path.read_text(encoding="utf-8").splitlines(), 1):
            m = re.match(r"^( *)(?:pub )?(?:extern \"C\" )?fn (\w+)", line)
            if m and body is None:
                name, start, indent = m[2], i, m[1]
                if line.endswith("{"):
                    body = []
            elif name and body is None and line == indent + "{":
                body = []
            elif body is not None and line == indent + "}":
                yield f"{path.parent.parent.name}/{path.name}:{start}", name, " ".join(x.strip() for x in body if not x.lstrip().startswith("//"))
                name, body = None, None
            elif body is not None:
                body.append(line)


def point2():
    seen = defaultdict(list)
    for at, name, body in bodies():
        shape = re.sub(r"\bu(8|16|32|64|size)\b", "T", body)
        shape = re.sub(r"\b[a-z_]\w*\b", "x", re.sub(r"\b\d[\d_]*\b", "0", shape))
        if len(shape) > 20:
            seen[shape].append((at, name))
    return {"functions of one shape": [(a[0][0], " = ".join(f"{p} {n}" for p, n in a)) for a in seen.values() if len(a) > 1]}


def point3():
    return {"while and loop": matching(r"^\s*('\w+: )?(while|loop)\b|= '\w+: loop\b")}


def point4():
    return {
        "small functions by hand": matching(r"fn (same\w*|either|one|flag|off_flag|wide|size|larger|smaller|byte|is_digit|is_blank|at_least_one|store|covers|power_of_two|is_marker|code|step_number|to_semitone|raised|byte_at)\b"),
        "calls of wide, size, larger, smaller": matching(r"\b(basics::)?(wide|size|larger|smaller)\((?!.*fn )"),
        "structs copied field by field": matching(r"^ +(\w+): (self|s|p|g|spot|place|counts|x|c|last|r)\.\1,$"),
    }


def point5():
    facts, groups = defaultdict(list), defaultdict(list)
    for at, name, params, needs in functions():
        crate = at.split("/")[0]
        for fact in set(re.findall(r"\b([A-Z]\w+)\b", needs)):
            facts[crate, fact].append(at)
        names = [p.split(":")[0].replace("mut ", "").strip() for p in params]
        for a, b in zip(names, names[1:]):
            groups[a, b].append(at)
    return {
        "facts in the requires of three functions of a crate or more": [(c, f"{f}: {len(v)}") for (c, f), v in sorted(facts.items()) if len(v) > 2],
        "neighbouring parameters of five functions or more": [("", f"{a}, {b}: {len(v)}") for (a, b), v in sorted(groups.items(), key=lambda x: -len(x[1])) if len(v) > 4],
    }


def point6():
    return {
        "a buffer and a place in it": [(at, name) for at, name, params, _ in functions() if re.search(r"&mut \[u(8|32|64)\], (at|from|n|next): usize", ", ".join(params))],
        "a work area and the length of its columns": [(at, name) for at, name, params, _ in functions() if re.search(r"work: &(mut )?\[u64\], n: usize", ", ".join(params))],
        "arrays side by side": [(at, name) for at, name, params, _ in functions() if re.search(r"deltas: &\[u32\], words: &\[u32\]|places: &mut \[u64\], details|starts: &(mut )?\[u64\w*; ?\d*\]?, marks|heads: &(mut )?\[u32\], keys", ", ".join(params))],
    }


def point7():
    return {"a flag or a number that says which step": [(at, name) for at, name, params, _ in functions() if re.search(r"\b(write: bool|group: Group|choice: Choice|kind: Kind|code: usize|label: bool)\b", ", ".join(params))]}


def point8():
    files = list(ROOT.glob("crates/*/proofs/**/*.antt"))
    return {"lines of proofs": [("", "")] * sum(len(p.read_text(encoding="utf-8").splitlines()) for p in files)}


import signal

signal.signal(signal.SIGPIPE, signal.SIG_DFL)

if __name__ == "__main__":
    points = {str(i): f for i, f in enumerate((point1, point2, point3, point4, point5, point6, point7, point8), 1)}
    for point in sys.argv[1:] or points:
        for what, places in points[point]().items():
            print(f"{point}. {what}: {len(places)}")
            if len(sys.argv) > 1 and point != "8":
                for at, line in places:
                    print(f"    {at}  {line}")
