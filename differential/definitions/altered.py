#!/usr/bin/env python3
"""Alters the definitions of crates/rules in one place at a time and sees what refuses each.

    python3 definitions/altered.py [FILE ..]

Run from differential/; a FILE is one of crates/rules/specs, as Bars (default: all but the tables of examples). What is altered: a
number is one more or one less; < for <= and <= for <; "and" for "or" and back; true for false and back; start for end, key
for channel and back; a "not" left out. Each is tried on copies of rules and laws below target/, two at a time: the tables
of examples and the laws on meanings and limits refuse it in rules, or a theorem in laws. Prints each that both let pass, and
how many each refused. One that passes is the same on every admitted piece, or only a contract refuses it: look at each.

A name that is not in scope in its file is counted apart. A check of rules takes 2 seconds, of laws 5.
"""
import pathlib
import queue
import re
import shutil
import subprocess
import sys
from concurrent.futures import ThreadPoolExecutor

HERE = pathlib.Path(__file__).resolve().parent.parent
COPIES = [HERE / "target/altered" / str(number) for number in range(2)]
SPECS = "crates/rules/specs"
SECTIONS = """Lists Standard Meanings Piece RawNotes Changes Bars Grid Voices Values Items Staff Spelling ProofReader
ProofReaderTests Automation Diagnostics Refusals File Calls""".split()
NUMBER = re.compile(r"(?<![\w·₀₁.])(?:0x[0-9a-f]+|\d+)(?!\w)")
EXCHANGED = [("ltb", "leb"), ("true", "false"), ("&&", "||"), (".start", ".end"), (".key", ".channel")]
SIGNATURE = re.compile(r"(?:(?:abbrev|unfoldable) )?pub [^=]*|.*: Type \d where")


def defines(line):
    """A line of a definition's body: no comment, no import, no signature."""
    return line.strip() and not re.match(r"use |\s*--", line) and not SIGNATURE.fullmatch(line)


def alterations(line):
    for found in NUMBER.finditer(line):
        number = int(found.group(), 0)
        written = hex if found.group().startswith("0x") else str
        for other in (number + 1, number - 1):
            if other >= 0:
                yield line[: found.start()] + written(other) + line[found.end() :]
    for pair in EXCHANGED:
        for here, there in (pair, pair[::-1]):
            for found in re.finditer(re.escape(here) + r"(?![\w·])", line):
                yield line[: found.start()] + there + line[found.end() :]
    for found in re.finditer(r"\bnot \(", line):
        yield line[: found.start()] + "(" + line[found.end() :]


def altered(names):
    """Each file's name, the line's number, the line altered, and the file with it."""
    for name in names:
        lines = (HERE.parent / SPECS / f"{name}.antt").read_text(encoding="utf-8").splitlines()
        for place, line in enumerate(lines):
            for other in alterations(line) if defines(line) else ():
                yield name, place + 1, other.strip(), "\n".join(lines[:place] + [other] + lines[place + 1 :]) + "\n"


def refused(folder, crate):
    """What was said where the crate is not proved; nothing where it is."""
    run = subprocess.run(["rt", "check"], cwd=folder / "crates" / crate, capture_output=True, text=True, check=False)
    return run.stdout + run.stderr if run.returncode else ""


def copied():
    free = queue.Queue()
    for folder in COPIES:
        shutil.rmtree(folder, ignore_errors=True)
        for crate in ("rules", "laws"):
            shutil.copytree(HERE.parent / "crates" / crate, folder / "crates" / crate)
        (folder / "crates.txt").write_text("rules:\nlaws: rules\n")
        if refused(folder, "laws"):
            sys.exit("rules and laws are not proved as they stand")
        free.put(folder)
    return free


def main():
    free = copied()

    def tried(alteration):
        name, number, line, text = alteration
        folder = free.get()
        path = folder / SPECS / f"{name}.antt"
        whole = path.read_text(encoding="utf-8")
        path.write_text(text, encoding="utf-8")
        said = refused(folder, "rules")
        by = "rules" if said else "laws" if refused(folder, "laws") else "neither"
        path.write_text(whole, encoding="utf-8")
        free.put(folder)
        if by == "neither":
            print(f"{name}:{number}: {line}", flush=True)
        return "not in scope" if "not in scope" in said else by

    with ThreadPoolExecutor(len(COPIES)) as two:
        outcomes = list(two.map(tried, altered(sys.argv[1:] or SECTIONS)))
    print(", ".join(f"{by} {outcomes.count(by)}" for by in ("rules", "laws", "neither", "not in scope")))


main()
