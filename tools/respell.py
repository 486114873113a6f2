#!/usr/bin/env python3
"""Writes this repository's own definitions and lemmas in today's spelling, once, after port.py of the kit.

usage: respell.py [FOLDER]

Words are in snake case, types and modules in camel case: workFor and work-for become work_for. A dash stays beside a part that begins
with a capital, as in All-append. Names of the kit and functions of src/ keep theirs. A lemma that would get its definition's name gets
_lem behind it. FOLDER is the top of the repository. It rewrites crates/, README.md and docs/ in place: commit first.
"""

import collections
import os
import re
import sys

TOKEN = re.compile(r"[^\s(){}\[\],;.:«»\"]+")
USE = re.compile(r"^\s*(?:pub )?use ([^\s{}]+?)(?:\.\{([^}]*)\})?(?: as (\S+))?\s*$")
DECLARED = re.compile(
    r"^\s*(?:(?:abbrev|unfoldable|pub|record|data|opaque)\s+)*([A-Za-z][^\s(){}\[\],;:.«»]*)(?: [a-z][\w' -]*)?\s*(?:[({].*)? ?:"
)
# A module that went by a name of its own beside its definition's.
SPECIAL = {
    "automation-answer": "declared_answer",
    "bars-answer": "declared_answer",
    "diagnostics-answer": "declared_answer",
}
# The first script of the kit gave these lemmas the name of a definition that the same file cites.
IN_FILES = {
    "crates/replaying/proofs/Claimed.antt": {"one_more": "one_more_lem"},
    "crates/files/proofs/Laws.antt": {"number_behind": "number_behind_lem"},
    "crates/rules/proofs/FileLimits.antt": {"most_bytes": "most_bytes_lem"},
}


def plain(word):
    return re.sub(r"(?<=[a-z0-9'])([A-Z])", lambda m: "_" + m.group(1).lower(), word) if word[:1].islower() else word


def snake(token):
    parts = token.split("-")
    if not all(parts) or not re.match(r"[A-Za-z]", token):
        return token
    out = plain(parts[0])
    for before, part in zip(parts, parts[1:]):
        out += ("-" if before[0].isupper() or part[0].isupper() else "_") + plain(part)
    return out


def read(path):
    with open(path, encoding="utf-8") as f:
        return f.read()


def below(top, ending):
    for folder, folders, files in os.walk(top):
        folders[:] = sorted(it for it in folders if it not in ("out", ".git"))
        yield from (os.path.join(folder, it) for it in sorted(files) if it.endswith(ending))


class File:
    """What a file's names are: declared here, brought in, or a library's."""

    def __init__(self, path, text, crates):
        self.path, self.text = path, text
        self.of_library, self.plain, self.dotted, self.declared = set(), set(), set(), set()
        for line in text.split("\n"):
            line = re.sub(r"--.*", "", line)
            use = USE.match(line)
            if use:
                head = re.match(r"Rattle\.(\w+)", use[1])
                names = {it.split(" as ")[-1].strip() for it in (use[2] or use[3] or "").split(",")}
                if head and head[1] in crates:
                    self.plain |= names
                else:
                    self.of_library |= names
                continue
            named = DECLARED.match(line)
            if named:
                self.declared.add(named[1])
            for m in TOKEN.finditer(line):
                (self.dotted if m.start() and line[m.start() - 1] == "." else self.plain).add(m[0])


def renamed(token, lem):
    return SPECIAL.get(token) or snake(token) + ("_lem" if token in lem else "")


def main():
    top = sys.argv[1] if len(sys.argv) > 1 else "."
    inside = os.path.join(top, "crates")
    crates = {it for it in os.listdir(inside) if os.path.isdir(os.path.join(inside, it, "src"))}
    files = [File(os.path.relpath(p, top), read(p), crates) for p in below(inside, ".antt")]
    declared = set().union(*(f.declared for f in files))
    lem = set()
    for f in files:
        groups = collections.defaultdict(set)
        for token in f.plain:
            groups[snake(token)].add(token)
        for group in groups.values():
            lem |= {it for it in group if len(group) > 1 and "-" in it and it not in f.of_library and it not in SPECIAL}
    used = {}
    for f in files:
        here = IN_FILES.get(f.path, {})

        def turned(m, f=f, here=here):
            token, start = m[0], m.start()
            line = m.string
            if token in here:
                return token if re.match(r" = .*;$", line[m.end() :]) else here[token]
            if token in f.of_library or snake(token) == token:
                return token
            if start and line[start - 1] == "." and token not in declared:
                return token
            used[token] = renamed(token, lem)
            return used[token]

        out = []
        for line in f.text.split("\n"):
            use = USE.match(line)
            code, comment = re.match(r"((?:[^-]|-(?!-))*)(.*)", line).groups()
            if use:
                head = re.match(r"Rattle\.(\w+)", use[1])
                if head and head[1] in crates and use[2] is not None:
                    names = re.sub(r"[^\s,{}]+", lambda m: turned(re.match(TOKEN, m[0])) if m[0] != "as" else m[0], use[2])
                    line = line.replace("{" + use[2] + "}", "{" + names + "}")
                elif use[3] and head and head[1] in crates:
                    line = line[: line.rindex(use[3])] + turned(re.match(TOKEN, use[3]))
                out.append(line)
                continue
            out.append(TOKEN.sub(turned, code) + quoted(comment, lambda it: it))
        f.out = "\n".join(out)
    for f in files:
        f.out = "\n".join(commented(line, used) for line in f.out.split("\n"))
        if f.out != f.text:
            with open(os.path.join(top, f.path), "w", encoding="utf-8") as it:
                it.write(f.out)
    for path in below(inside, ".rt"):
        text = read(path)
        new = "\n".join(source(line, used) for line in text.split("\n"))
        if new != text:
            with open(path, "w", encoding="utf-8") as it:
                it.write(new)
    spelled = set(used.values()) | declared

    def cited(token):
        return used.get(token) or (snake(token) if snake(token) in spelled else token)

    pages = [os.path.join(top, "README.md"), *below(os.path.join(top, "docs"), ".md")]
    pages += below(inside, ".md")
    for path in pages:
        text = read(path)
        new = quoted(text, lambda it: TOKEN.sub(lambda m: cited(m[0]), it))
        if new != text:
            with open(path, "w", encoding="utf-8") as it:
                it.write(new)
    for old, new in sorted(used.items()):
        print(f"{old}\t{new}")


def quoted(text, turn):
    return re.sub(r"`([^`\n]+)`", lambda m: "`" + turn(m[1]) + "`", text)


def commented(line, used):
    """Turns the names that a comment of a proof file has in backticks."""
    at = line.find("-- ")
    if at < 0:
        return line
    return line[:at] + quoted(line[at:], lambda it: TOKEN.sub(lambda m: used.get(m[0], m[0]), it))


def source(line, used):
    """Turns the definitions that clauses and comments of the source cite; a name of Rust's is never in camel case."""
    parts = re.split(r'("(?:[^"\\]|\\.)*")', line)
    turn = lambda m: used.get(m[0], m[0])
    return "".join(it if k % 2 else re.sub(r"(?<![\w'.-])[a-z][a-z0-9]*(?:[A-Z][A-Za-z0-9]*)+(?![\w'])", turn, it) for k, it in enumerate(parts))


if __name__ == "__main__":
    main()
