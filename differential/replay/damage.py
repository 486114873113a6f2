#!/usr/bin/env python3
"""Damages the stored list in many ways and runs the program `replay` on each: what is printed must say so.

    python3 damage.py [TIMES]      in this folder, after `rt run` in crates/replay; so many places for each kind of damage
"""
import random
import re
import subprocess
import sys
from pathlib import Path

ROOT = Path(__file__).resolve().parents[2]
PROGRAM = ROOT / "crates/replay/out/replay"
LIST = (ROOT / "crates/replay/stdin").read_bytes()
# In these places another number may be as right: a velocity that no answer shows, a room that is still enough, a file that
# is refused as before, a staff that gets the same answer.
GIVEN_PIECE = {"sizes given", "deltas given", "words given", "zeros", "bytes given"}
GIVEN_STAFF = {"keys given", "counts given", "heads given"}
MAY_AGREE = {"room", "part", "call number"} | GIVEN_PIECE | GIVEN_STAFF


def run(text):
    """The disagreements that the last line counts; it must agree with the lines before it."""
    done = subprocess.run([PROGRAM], input=text, capture_output=True, timeout=60)
    lines = done.stdout.decode().splitlines()
    found = re.fullmatch(r"\d+ pieces, \d+ calls, (\d+) disagreements", lines[-1] if lines else "")
    if done.returncode or not found or int(found[1]) != len(lines) - 1:
        sys.exit(f"status {done.returncode}, {len(lines)} lines, last {lines[-1:]}")
    return int(found[1])


def numbers(line, begin):
    """Each number of a line from an offset on, as (begin, end)."""
    return [(begin + m.start(), begin + m.end()) for m in re.finditer(rb"\d+", line)]


def places():
    """The places of the numbers by kind."""
    kinds, at, given, name = {}, 0, True, ""
    add = lambda kind, spots: kinds.setdefault(kind, []).extend(spots)
    for line in LIST.splitlines(keepends=True):
        spots = numbers(line, at)
        label = line.split(b" ")[0].decode()
        if label == "pieces":
            add("piece count", spots)
        elif label == "piece":
            given = True
            add("piece number", spots[:1])
            add("zeros", spots[1:])
        elif label == "calls":
            given = False
            add("call count", spots)
        elif b", call " in line:
            add("call number", spots[:1])
            add("part", spots[1:2])
            add("room", spots[2:8])
            add("list length", spots[8:9])
            name = line.split(b",")[0].decode()
            refusal = len(spots) == 10
            add("refusal" if refusal else f"{name} answer", spots[9:])
        elif label == "none":
            add("list length", spots)
        elif label != "\n":
            add("list length", spots[:1])
            add(f"{label} given" if given or name == "proof read" else f"{label} of {name}", spots[1:])
        at += len(line)
    return kinds


def changed(spot, other):
    begin, end = spot
    return LIST[:begin] + other(LIST[begin:end]) + LIST[end:]


def try_all(times):
    pick = random.Random(1)
    for kind, spots in sorted(places().items()):
        chosen = [pick.choice(spots) for _ in range(times)]
        found = sum(run(changed(s, lambda n: b"%d" % (int(n) + 1))) > 0 for s in chosen)
        report(f"{kind} + 1", found, times, kind in MAY_AGREE)
    every = [spot for spots in places().values() for spot in spots]
    words = {"a word": b"x", "a sign": b"-1", "2^64": b"18446744073709551616", "40 nines": b"9" * 40, "nothing": b""}
    for name, word in words.items():
        found = sum(run(changed(pick.choice(every), lambda n: word)) > 0 for _ in range(times))
        report(f"a number replaced by {name}", found, times, name in ("a word", "a sign", "nothing"))
    ends = [i for i, byte in enumerate(LIST) if byte == 10]
    cut = lambda: LIST[: pick.randrange(len(LIST) - 2)]
    line = lambda: pick.randrange(len(ends) - 1)
    dropped = lambda i: LIST[: ends[i] + 1] + LIST[ends[i + 1] + 1 :]
    twice = lambda i: LIST[: ends[i + 1] + 1] + LIST[ends[i] + 1 :]
    solid = [i for i in range(len(ends) - 1) if ends[i + 1] - ends[i] > 1]
    ways = {
        "cut off": cut,
        "a line dropped": lambda: dropped(pick.choice(solid)),
        "a line twice": lambda: twice(pick.choice(solid)),
        "a number more at the end": lambda: LIST + b" 0",
        "noise": lambda: pick.randbytes(pick.randrange(100_000)),
        "noise inside": lambda: (lambda i: LIST[:i] + pick.randbytes(50) + LIST[i:])(pick.randrange(len(LIST))),
        "empty": lambda: b"",
    }
    for name, way in ways.items():
        report(name, sum(run(way()) > 0 for _ in range(times)), times, name == "noise inside")
    if run(LIST) != 0:
        sys.exit("the list itself disagrees")


def report(kind, found, times, may_agree):
    print(f"{kind}: {found} of {times} reported")
    if found < times and not may_agree:
        sys.exit(f"not reported: {kind}")


try_all(int(sys.argv[1]) if len(sys.argv) > 1 else 20)
