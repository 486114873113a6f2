#!/usr/bin/env python3
"""Holds what docs/TRACE.md and README.md cite against the files.

    python3 docs/check_trace.py

Of TRACE.md: each `crate/edit` is a must-fail edit, each row of Examples is in that table, each definition is in the
file named, each name under "proved by" is a function, a statement or a proof of the crate named, and no cell names one
twice. Of README.md's tables: calls and C entries, statements and maps and the files that they are in, definition files,
crates. Of README.md, CHANGELOG.md and docs/: each path of the repository that is named exists. Prints what is missing
and leaves with status 1; else prints counts and leaves with 0. A form that it cannot read is printed too: a row is in
one of the forms below, or the script is taught it.
"""
import fnmatch
import re
import sys
from functools import lru_cache
from pathlib import Path

ROOT = Path(__file__).resolve().parent.parent
CRATES = ROOT / "crates"
RULES = CRATES / "rules" / "specs"

faults = []
counts = {}


def count(what):
    counts[what] = counts.get(what, 0) + 1


# ---- what the files have


@lru_cache(maxsize=None)
def text(path):
    return path.read_text(encoding="utf-8")


@lru_cache(maxsize=None)
def crate_lines():
    """crates.txt: each crate with the crates that it uses."""
    lines = (line for line in text(ROOT / "crates.txt").splitlines() if line and not line.startswith("#"))
    return {name.split()[0]: rest.split() for name, _, rest in (line.partition(":") for line in lines)}


# A declaration of a .antt file: `abbrev pub name : ..`, `pub record Name (..) ..`, in a module too.
DECLARED = re.compile(r"^ *(?:(?:abbrev|unfoldable) )?pub (?:(?:record|data) )?([^\s:{(]+)(?= *[:{(\n])", re.M)
FUNCTION = re.compile(r"^ *(?:pub )?(?:extern \"C\" )?(?:fn|struct|enum) (\w+)", re.M)


@lru_cache(maxsize=None)
def declared(path):
    """The names that a file declares: of a .rt file its functions and types, of a .antt file what others can cite."""
    names = (FUNCTION if path.suffix == ".rt" else DECLARED).findall(text(path))
    return frozenset(name.strip("«»") for name in names)


@lru_cache(maxsize=None)
def imported(path):
    """The names that a .antt file brings in."""
    return frozenset(name for names in re.findall(r"^use .*\{(.*)\}", text(path), re.M) for name in names.split(", "))


@lru_cache(maxsize=None)
def in_folder(folder):
    files = [path for path in sorted(folder.rglob("*")) if path.suffix in (".rt", ".antt")]
    return frozenset(name for path in files for name in declared(path))


@lru_cache(maxsize=None)
def in_crate(name):
    return frozenset().union(*(in_folder(CRATES / name / part) for part in ("src", "specs", "proofs")))


def has(names, name):
    """`..Called` is every name with that end, `proofread*` every one with that beginning."""
    if name.startswith(".."):
        return any(other.endswith(name[2:]) for other in names)
    return bool(fnmatch.filter(names, name)) if "*" in name else name in names


def ticked(cell):
    return re.findall(r"`([^`]+)`", cell)


# ---- tables


def tables(path):
    """The rows of a page's tables: the line's number, the heads of the columns, the cells."""
    heads = None
    for number, line in enumerate(text(path).splitlines(), 1):
        if not line.startswith("|"):
            heads = None
            continue
        cells = [cell.strip() for cell in line.strip().strip("|").split("|")]
        if heads is None:
            heads = cells
        elif not all(set(cell) <= set("-:") for cell in cells):
            if len(cells) != len(heads):
                yield number, heads, None
            else:
                yield number, heads, dict(zip(heads, cells))


class Row:
    def __init__(self, page, number):
        self.where = f"{page}:{number}"

    def fault(self, said):
        faults.append(f"{self.where}: {said}")

    def unread(self, said):
        self.fault(f"cannot read: {said}")

    def once(self, names, cell):
        for name in sorted({name for name in names if names.count(name) > 1}):
            self.fault(f"named twice in one cell: {name}")
        if not names and cell != "-":
            self.unread(cell)

    # ---- docs/TRACE.md

    def rules_file(self, place):
        """`Piece` is a file of crates/rules/specs; others are named with their folder."""
        named = CRATES / place.removeprefix("crates/") if "/" in place else RULES / place
        path = named.with_suffix(".antt")
        if path.is_file():
            return path
        self.fault(f"no such file of definitions: {place}")

    def definition(self, cell):
        """File: `name`, `name`; `name`; crate/specs/File: `name`. A part without a file goes on with the file before
        it, or with that file's tests."""
        path = None
        for part in [] if cell == "-" else cell.split("; "):
            place, colon, rest = part.partition(": ")
            if not colon and not ticked(part):
                # only files are named: `ProofReader, ProofReaderTests import Grid alone`
                files = re.findall(r"\b[A-Z]\w*", part)
                if not files:
                    self.unread(part)
                for name in files:
                    self.rules_file(name)
                continue
            if colon and re.fullmatch(r"[\w/]*[A-Z]\w*", place):
                path = self.rules_file(place)
            elif colon and re.fullmatch(r"[\w/]*[A-Z]\w*", rest):
                # `computed: agreement/specs/Witnesses`
                self.rules_file(rest)
                continue
            elif colon or path is None:
                self.unread(part)
                continue
            if not ticked(part):
                self.unread(part)
            if path is not None:
                self.defined(path, part, bool(colon))

    def defined(self, path, part, owned):
        """The names listed are declared in the file. Those that the words behind them bring in may be used there."""
        tests = path.with_name(path.stem + "Tests.antt")
        known = declared(path) | (frozenset() if owned or not tests.is_file() else declared(tests))
        listed = re.match(r"(?:.*?: |[a-z]+ )?((?:`[^`]+`(?:, )?)*)", part).group(1)
        for name in ticked(part):
            count("definitions")
            if not has(known, name) and (name in ticked(listed) or not has(imported(path), name)):
                self.fault(f"{path.relative_to(ROOT)} has no {name}")

    def proved(self, cell):
        """crate: `name`, `name`; crate, crate: every .. A crate's name stands before a colon."""
        for part in [] if cell == "-" else cell.split("; "):
            if part.startswith("crates.txt: "):
                self.unused(part)
                continue
            if re.match(r"every call\b|Rattle's check of every function", part):
                continue
            groups = re.split(r"(?:^|, )([a-z]\w*(?:, [a-z]\w*)*): ", part)
            if groups[0] or len(groups) < 3:
                self.unread(part)
                continue
            for crates, rest in zip(groups[1::2], groups[2::2]):
                self.cited(crates.split(", "), rest)

    def cited(self, crates, rest):
        self.once(crates, rest)
        for crate in crates:
            if crate not in crate_lines():
                self.fault(f"no such crate: {crate}")
        crates = [crate for crate in crates if crate in crate_lines()]
        if not ticked(rest):
            self.every(crates, rest)
        for name in ticked(rest):
            count("functions and theorems")
            if crates and not any(has(in_crate(crate), name) for crate in crates):
                self.fault(f"{' and '.join(crates)}: no {name}")

    def every(self, crates, rest):
        """every loop .., every public call: each crate has one."""
        forms = {"every loop": r"^ *(?:'\w+: )?(?:while|for|loop)\b", "every public call": r"^ *pub fn\b"}
        said = next((form for form in forms if rest.startswith(form)), None)
        if said is None:
            self.unread(rest)
            return
        for crate in crates:
            if not re.search(forms[said], sources(crate), re.M):
                self.fault(f"{crate}: {rest}, but it has none")

    def unused(self, part):
        """crates.txt: no crate of the proof-reader has grid, values or staff"""
        said = re.fullmatch(r"crates.txt: no crate of the proof-reader has (.*)", part)
        if not said:
            self.unread(part)
            return
        for name in re.split(r", | or ", said.group(1)):
            if name not in crate_lines():
                self.fault(f"no such crate: {name}")
            for crate, uses in crate_lines().items():
                if crate.startswith("proofread") and name in uses:
                    self.fault(f"crates.txt: {crate} has {name}")

    def noticed(self, cell):
        """crate/edit, crate/edit; Examples: a row; print, print_cases; run"""
        names = []
        for part in [] if cell == "-" else cell.split("; "):
            if part.startswith("Examples: "):
                names.append(part)
                self.example(part.removeprefix("Examples: "))
                continue
            for name in part.split(", "):
                names.append(name)
                if re.fullmatch(r"\w+/\w+", name):
                    count("edits")
                    crate, edit = name.split("/")
                    if not (CRATES / crate / "must-fail" / f"{edit}.edit").is_file():
                        self.fault(f"no such edit: {name}")
                elif name in crate_lines():
                    count("programs")
                    if not (CRATES / name / "src" / "main.rt").is_file():
                        self.fault(f"no program: {name}")
                elif not re.fullmatch(r"run(?: \(\w+\))?", name):
                    self.unread(name)
        self.once(names, cell)

    def example(self, said):
        """A row of the tables of examples: one of their comments has these words and numbers."""
        count("rows of Examples")
        wanted = words(said) - {"a", "an", "the", "and", "of", "at", "in", "that"}
        if not any(wanted <= words(comment) for comment in examples()):
            self.fault(f"no such row of Examples: {said}")

    # ---- README.md

    def call(self, row):
        """`crate::function`, others of that crate, and the C entry, which acorde and the header have."""
        crate = None
        for name in ticked(row["call"]):
            owner, _, function = name.rpartition("::")
            if owner in crate_lines():
                crate = owner
            elif owner and (crate is None or not re.search(rf"^pub (?:enum|struct) {owner}\b", sources(crate), re.M)):
                self.fault(f"{crate}: no type {owner}")
            count("calls")
            if crate is None or not re.search(rf"^ *pub fn {function}\b", sources(crate), re.M):
                self.fault(f"{crate}: no public function {function}")
        for name in ticked(row["C entry"]):
            count("C entries")
            if not re.search(rf"^pub extern \"C\" fn {name}\b", sources("acorde"), re.M):
                self.fault(f"acorde: no entry {name}")
            if not re.search(rf"\b{name}\(", text(ROOT / "include" / "acorde.h")):
                self.fault(f"include/acorde.h: no entry {name}")

    def statement(self, cell):
        """`Name`, `Name`, path: the names before a path are in it. Names behind the last path are in that path's crate,
        names with no path in crates/rules/specs. crates.txt: names are crates."""
        if cell.startswith("crates.txt: "):
            for name in ticked(cell):
                count("crates")
                if not has(crate_lines(), name):
                    self.fault(f"no such crate: {name}")
            return
        pieces = re.split(PATH, cell)
        waiting, last = [], None
        for i, piece in enumerate(pieces):
            if i % 2 == 0:
                waiting += ticked(piece)
                continue
            path = ROOT / piece
            last = path
            if path.is_file():
                self.stated(waiting, declared(path), piece)
            elif path.is_dir():
                self.stated(waiting, in_folder(path), piece)
            waiting = []  # a path that is not there is said once, with the paths
        crate = last.relative_to(CRATES).parts[0] if last and CRATES in last.parents else None
        if crate in crate_lines():
            self.stated(waiting, in_crate(crate), f"crates/{crate}")
        elif last is None:
            self.stated(waiting, in_folder(RULES), "crates/rules/specs")
        elif waiting:
            self.unread(cell)

    def stated(self, names, known, place):
        for name in names:
            if name in crate_lines():
                continue
            count("statements and definitions of README.md")
            if not has(known, name):
                self.fault(f"{place} has no {name}")

    def sections(self, cell):
        for name in re.findall(r"\b[A-Z]\w*", re.sub(r"\([^()]*\)", "", cell)):
            count("files of definitions")
            self.rules_file(name)


def words(said):
    """Numbers whole, words by their first four letters."""
    found = (word.rstrip(".,") for word in re.findall(r"[\w/.,]+", said.lower()))
    return {word if re.search(r"\d", word) else word[:4] for word in found}


@lru_cache(maxsize=None)
def examples():
    pages = sorted(RULES.glob("*Examples.antt"))
    return [comment for page in pages for comment in re.findall(r"^    -- (.*)", text(page), re.M)]


@lru_cache(maxsize=None)
def sources(crate):
    return "\n".join(text(path) for path in sorted((CRATES / crate / "src").rglob("*.rt")))


def trace():
    page = "docs/TRACE.md"
    for number, heads, cells in tables(ROOT / page):
        row = Row(page, number)
        if cells is None:
            row.fault("not as many cells as the table has columns")
            continue
        count("rows")
        if heads == ["rule", "definition", "proved by", "noticed by"]:
            row.definition(cells["definition"])
            row.proved(cells["proved by"])
            row.noticed(cells["noticed by"])
        elif heads == ["example", "where"]:
            where = cells["where"]
            if re.match(r"\w*Examples: ", where):
                row.definition(where)
        elif heads == ["trap", "noticed by"]:
            row.noticed(cells["noticed by"])
        elif heads == ["place", "form", "proved by"]:
            row.proved(cells["proved by"])
        else:
            row.unread(" | ".join(heads))


def readme():
    page = "README.md"
    listed = []
    for number, heads, cells in tables(ROOT / page):
        row = Row(page, number)
        if cells is None:
            row.fault("not as many cells as the table has columns")
        elif heads[:2] == ["call", "C entry"]:
            row.call(cells)
        elif heads[-1] in ("file", "maps, file"):
            row.statement(cells[heads[-1]])
        elif heads == ["section of document 01", "file of crates/rules/specs"]:
            row.sections(cells[heads[1]])
        elif heads == ["crate", "holds"]:
            listed += ticked(cells["crate"])
    for name in crate_lines():
        count("crates of crates.txt")
        if listed.count(name) != 1:
            faults.append(f"{page}: the table of crates has {name} {listed.count(name)} times")
    for name in listed:
        if name not in crate_lines():
            faults.append(f"{page}: the table of crates has {name}, crates.txt does not")


# A path of the repository. What stands in target/ or a crate's out/ is made.
FOLDERS = r"(?:\.\./)?(?:\.ci|crates|differential|docs|examples|include)"
PATH = rf"(?<![\w./-])({FOLDERS}/[\w./-]*\w|crates\.txt|(?:install|print)\.sh)"


def paths():
    pages = [ROOT / "README.md", ROOT / "CHANGELOG.md", *sorted((ROOT / "docs").rglob("*.md"))]
    for page in pages:
        name = page.relative_to(ROOT)
        for number, line in enumerate(text(page).splitlines(), 1):
            row = Row(name, number)
            for link in re.findall(r"\]\(([^()]+)\)", line):
                if not re.match(r"https?:", link):
                    count("paths")
                    if not (page.parent / link).exists():
                        row.fault(f"no such file: {link}")
            for path in re.findall(PATH, re.sub(r"\]\([^()]+\)", "]", line)):
                count("paths")
                if re.match(r"(?:\.\./)?crates/\w+/out/", path):
                    continue
                path = path.removeprefix("../")
                if not (ROOT / path).exists() and not (ROOT / f"{path}.antt").is_file():
                    row.fault(f"no such file: {path}")
            # `crates/heads, bars and diagnostics`
            for first, more in re.findall(r"crates/(\w+)((?:, \w+)* and \w+)(?![\w/])", line):
                for crate in [first, *re.split(r", | and ", more)[1:]]:
                    if crate not in crate_lines():
                        row.fault(f"no such crate: {crate}")


def main():
    trace()
    readme()
    paths()
    for fault in faults:
        print(fault)
    if faults:
        print(f"{len(faults)} missing or not read")
        return 1
    print(", ".join(f"{n} {what}" for what, n in counts.items()) + ": all there")
    return 0


sys.exit(main())
