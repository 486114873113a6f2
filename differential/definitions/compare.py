#!/usr/bin/env python3
"""Computes the definitions of crates/rules on generated pieces and compares with the reference's answers.

    python3 definitions/compare.py SEED COUNT [MOST_EVENTS]

Run from differential/, after `cargo build --release --offline`. Pieces of at most MOST_EVENTS events (default 45) and 60
bars are taken. Each becomes two theorems, proved by computing both sides: heads, part heads, bars, staffs, automation,
diagnostics and refusals of the definitions equal what the reference gave, leftovers what is told from its bars, voices and
staff; and the proof-reader's answers to each part's staff, as engraved and changed, equal the plain proof-reader's. The
theorems stand in a crate of their own below target/, over a copy of crates/rules; `holdsN` and `readsN` are those of piece
N. Leaves with status 1 where one does not hold, else prints how often each answer of the proof-reader was wanted.
"""
import pathlib
import shutil
import subprocess
import sys

from readings import CHANGES, Readings, listed

HERE = pathlib.Path(__file__).resolve().parent.parent
REFERENCE = HERE / "target/release/differential"
FOLDER = HERE / "target/definitions"

HEADER = """-- Written by differential/definitions/compare.py: the definitions computed on generated pieces.
use Prim.Native.Nat.{ℕ}
use mathlib.Core.Bool.{Bool}
use mathlib.Core.List.{List, [], ◌∷◌, ◌++◌, flat_map, flatten}
use mathlib.Core.Path.{◌≡◌, refl}
use Rattle.rules.specs.Lists.{keep, any, every, position, change_first, insert, sort_by, below, sum, flag}
use Rattle.rules.specs.Piece.{Piece, Event, timed, cut_tracks, sizes_agree, well_formed, ticks_per_quarter}
use Rattle.rules.specs.RawNotes.{without_oldest, pair_one, raw_notes_of, parts, most_notes}
use Rattle.rules.specs.Changes.{part_head, head}
use Rattle.rules.specs.Bars.{bars_from, end_of_piece, bars_up_to, starts, printed_from, marks_from, marks, key_bits}
use Rattle.rules.specs.Grid.{is_off_grid, grid}
use Rattle.rules.specs.Voices.{join_or_open, choose, place, voices}
use Rattle.rules.specs.Values.{values, split_in, twos}
use Rattle.rules.specs.Staff.{pieces, filled, voice_in, filled_left, voice_left}
use Rattle.rules.specs.Items.{StaffArrays, read_items, cut_by, by_fours}
use Rattle.rules.specs.ProofReader.{timed_from, voice_timed, heard_after}
use Rattle.rules.specs.ProofReaderTests.{full?, tied?, ends_meant?, right?, shaped?, even?}
use Rattle.rules.specs.Automation.{cancelled, same_messages, is_dropped, AutomationLists, automation_lists}
use Rattle.rules.specs.Diagnostics.{in_tracks, diagnostics}
use Rattle.rules.specs.Refusals.{Result, refused, given as answer, unless, event_refusals, piece_refusals}
use Rattle.rules.specs.Calls.{part_arrays, part_leftovers, head_call, diagnostics_call, places, details, part_track, proof_read_call}
use Rattle.rules.specs.Examples.{Row, row, given, wanted}

abbrev number_of : {A : Type 0} → Result A → ℕ
number_of (refused n) = n
number_of (answer a) = 0

abbrev head_row : Piece → List ℕ
head_row x = (head x).tempo ∷ (head x).meter.upper ∷ (head x).meter.lower ∷ key_bits ((head x).key) ∷ []

abbrev part_heads : List (List Event) → List ℕ
part_heads [] = []
part_heads (p ∷ ps) = (part_head p).channel ∷ (part_head p).program ∷ part_heads ps

abbrev automation_row : AutomationLists → List ℕ
automation_row a = a.bends ∷ a.controllers ∷ a.programs ∷ a.pressures ∷ (a.ticks ++ a.words)

abbrev staff : List ℕ → List ℕ → List ℕ → StaffArrays
staff counts heads keys = record { counts = counts; heads = heads; keys = keys }

abbrev reading : Result Bool → List ℕ
reading (refused n) = n ∷ 0 ∷ []
reading (answer right) = 0 ∷ flag right ∷ []
"""

UNFOLDED = """keep any every position change_first insert sort_by sum flat_map flatten sizes_agree well_formed timed cut_tracks
    without_oldest pair_one raw_notes_of most_notes join_or_open choose place voices grid is_off_grid values split_in pieces filled
    voice_in filled_left voice_left bars_from end_of_piece bars_up_to printed_from marks_from cancelled same_messages is_dropped
    automation_lists in_tracks diagnostics unless event_refusals piece_refusals"""

READING = """keep any every insert sort_by below sum flat_map sizes_agree well_formed timed cut_tracks without_oldest pair_one
    raw_notes_of most_notes grid is_off_grid twos bars_from end_of_piece bars_up_to read_items cut_by by_fours timed_from voice_timed
    heard_after full? tied? ends_meant? right? shaped? even? unless event_refusals piece_refusals"""

KINDS = ["bend", "controller", "program", "pressure"]


def key_bits(text):
    if text == "-":
        return 0
    return (int(text[:-1]) + 8) << 27 | (text[-1] == "m") << 32


def meter(text):
    upper, lower = text.split("/")
    return [int(upper), int(lower)]


def fields(line):
    """The words after a line's names: `bar 1 start 0` has start 0."""
    words = line.split()
    return words, dict(zip(words, words[1:]))


def bar_mark(words):
    upper, lower = meter(words["meter"])
    tempo = 0 if words["tempo"] == "-" else int(words["tempo"])
    return upper | lower << 8 | int(words["printed"]) << 16 | tempo << 17 | key_bits(words["key"])


def item(words):
    """An item's head and key mask."""
    head = int(words["code"]) | int(words["dots"]) << 4
    if "keys" not in words:
        return head | 256, 0
    head |= (words["ties"][0] == "e") << 5 | (words["ties"][1] == "s") << 6 | int(words["unpitched"]) << 7
    return head, sum(1 << int(k) for k in words["keys"].split(","))


def staff_rows(name, part, bars, lines):
    counts, heads, keys = [0] * (4 * bars), [], []
    for line in lines:
        words, named = fields(line)
        counts[4 * (int(words[2]) - 1) + int(words[3])] += 1
        head, mask = item(named)
        heads.append(head)
        keys += [mask % 2**64, mask >> 64]
    arrays = f"part_arrays {name} {part}"
    return [(f"({arrays}).counts", counts), (f"({arrays}).heads", heads), (f"({arrays}).keys", keys)]


def leftovers_row(name, part, bars, lines):
    left = [0] * (4 * bars)
    for line in lines:
        words, named = fields(line)
        left[4 * (int(words[2]) - 1) + int(words[3])] = int(named["ticks"])
    return f"part_leftovers {name} {part}", left


def automation_row(name, part, lines):
    split = [line.split() for line in lines]
    counts = [sum(words[2] == kind for words in split) for kind in KINDS]
    values = counts + [int(words[4]) for words in split] + [int(words[6]) for words in split]
    return f"automation_row (automation_lists (ticks_per_quarter {name}) (part_track {name} {part}))", values


def diagnostic(line):
    named = fields(line)[1]
    code, track, event, tick, channel, key = (named[k] for k in ["code", "track", "event", "tick", "channel", "key"])
    number = lambda text, absent: absent if text == "-" else int(text)
    place = int(code) << 48 | number(track, 0) << 32 | number(event, 0)
    return place, number(tick, 0) << 16 | number(channel, 255) << 8 | number(key, 255)


def rows(name, text):
    """What the definitions are asked, and what the reference answered."""
    lines = text.splitlines()
    of = lambda word, part=None: [l for l in lines if l.split()[0] == word and (part is None or int(l.split()[1]) == part)]
    number = int(of("refused")[0].split()[1]) if of("refused") else 0
    out = [(f"number_of (head_call {name}) ∷ []", [number])]
    if number == 0:
        named = fields(of("head")[0])[1]
        out.append((f"head_row {name}", [int(named["tempo"])] + meter(named["meter"]) + [key_bits(named["key"])]))
        parts = [fields(l)[1] for l in of("part")]
        out.append((f"part_heads (parts {name})", [int(p[k]) for p in parts for k in ("channel", "program")]))
        bars = [fields(l)[1] for l in of("bar")]
        out.append((f"starts {name}", [int(b["start"]) for b in bars]))
        out.append((f"marks {name}", [bar_mark(b) for b in bars]))
        for part in range(len(parts)):
            out += staff_rows(name, part, len(bars), of("item", part))
            out.append(leftovers_row(name, part, len(bars), of("leftover", part)))
            out.append(automation_row(name, part, of("automation", part)))
    if number in (0, 6):
        found = [diagnostic(l) for l in of("diagnostic")]
        out.append((f"number_of (diagnostics_call {name} 1000000 1000000 100000000) ∷ []", [0]))
        out.append((f"places {name}", [place for place, _ in found]))
        out.append((f"details {name}", [detail for _, detail in found]))
    return out


def equation(name, rows, unfolded):
    """The theorem of a table of rows, computed on both sides."""
    # the table stands in the statement itself: as a definition of its own it computes far longer
    table = "".join(f"row ({g}) ({listed(w)}) ∷ " for g, w in rows) + "[]"
    return f"""
{name} : given ({table}) ≡ wanted ({table})
unfolding {unfolded}
{name} = refl
"""


def theorems(index, piece, text, read):
    """A piece, and its two theorems; `read` gives the rows of its staffs."""
    name = f"piece{index}"
    sizes, deltas, words = (line.split() for line in piece.splitlines()[:3])
    holds = equation(f"holds{index}", rows(name, text), f"{name} {UNFOLDED}")
    reads = equation(f"reads{index}", read(name), f"{name} {READING}")
    return f"""
{name} : Piece
{name} = record {{ sizes = {listed(sizes)}; deltas = {listed(deltas)}; words = {listed(words)} }}
{holds}{reads}"""


def ask(*arguments, given=None):
    return subprocess.run([REFERENCE, *arguments], input=given, capture_output=True, text=True, check=True).stdout


def main():
    seed, count = sys.argv[1], int(sys.argv[2])
    most = int(sys.argv[3]) if len(sys.argv) > 3 else 45
    found, readings = [], Readings()
    for index in range(count):
        piece = ask("piece", seed, str(index))
        arrays = piece.split("\n")
        if len(arrays[1].split()) > most or len(arrays[0].split()) > 40:
            continue
        text = ask("show", given=piece)
        bars = text.count("\nbar ")
        if bars <= 60:
            staffs = ask("staffs", seed, str(index), str(CHANGES))
            found.append(theorems(index, piece, text, lambda name: readings.rows(name, staffs, bars)))
    crate = FOLDER / "crates/computed"
    shutil.rmtree(FOLDER / "crates", ignore_errors=True)
    shutil.copytree(HERE.parent / "crates/rules", FOLDER / "crates/rules")
    (crate / "src").mkdir(parents=True)
    (crate / "specs").mkdir()
    (FOLDER / "crates.txt").write_text("rules:\ncomputed: rules\n")
    (crate / "src/lib.rt").write_text("// No code: specs/ holds computed theorems.\n")
    (crate / "specs/Lib.antt").write_text("pub mod Computed\n")
    (crate / "specs/Computed.antt").write_text(HEADER + "".join(found))
    run = subprocess.run(["rt", "check"], cwd=crate, capture_output=True, text=True)
    if run.returncode != 0:
        print((run.stdout + run.stderr)[:4000])
        sys.exit(1)
    print(f"{len(found)} pieces of seed {seed}: the definitions computed to the reference's answers")
    print(readings)


if __name__ == "__main__":
    main()
