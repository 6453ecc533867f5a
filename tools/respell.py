#!/usr/bin/env python3
"""Spells this repository's own definitions and lemmas as Rattle does now: words in snake case, types as they were.

usage: tools/respell.py [TOP]

Run once at the top of the repository, right after the kit's port.py. It rewrites names in .antt files, in the clauses
of .rt files and in must-fail edits; edits also get the kit's spelling of projections and clauses. Functions of src/,
exported names, strings, inputs and outputs stay. Where two names fall together the definition keeps the plain name, a
lemma gets `_lem` and a record's field `_holds`; what else falls together is in APART.
It prints the edits whose text does not stand in the file that they name.
"""

import collections
import os
import re
import sys

NAME = re.compile(r"[A-Za-zͰ-Ͽ_][\w'₀-₉-]*")
N = NAME.pattern
OWN_WORDS = re.compile(r"[a-zͰ-Ͽ]")

# Names that port.py had spelled anew already and that now fall together with a definition of this repository.
APART = {
    "windows": {"above_on": "above_on_lem"},
    "sheetpages": {"four_bytes": "four_bytes_lem", "two_bytes": "two_bytes_lem", "rowsPass": "all_rows_pass"},
    "bench": {"taken_step": "taken_step_lem"},
    "benchpages": {"taken_step": "taken_step_lem"},
}
# A constructor and a field that bear one name in two modules, and are never in one scope.
TOGETHER = {"to-release", "toRelease", "toTick"}


def crates_of(top):
    with open(os.path.join(top, "crates.txt"), encoding="utf-8") as f:
        lines = [it for it in f if it.strip() and not it.startswith("#")]
    return [it.split(":")[0].split()[0] for it in lines]


def files(top, crates, ending):
    for crate in crates:
        for folder, dirs, names in os.walk(os.path.join(top, "crates", crate)):
            dirs[:] = sorted(d for d in dirs if d != "out")
            for name in sorted(names):
                if name.endswith(ending):
                    yield crate, os.path.join(folder, name)


def read(path):
    with open(path, encoding="utf-8") as f:
        return f.read()


def without_comments(text):
    return re.sub(r"--[^\n]*", "", text)


def is_walk(path):
    return path.endswith("Proof.antt")


def snake(name):
    return re.sub(r"(?<=[a-z0-9])([A-Z])", lambda m: "_" + m.group(1).lower(), name).replace("-", "_")


class Names:
    """What the .antt files bind, which names they take from the kit, and which are fields of records."""

    def __init__(self, top, crates):
        self.kit, self.bound, self.fields, self.seen, self.declared = set(), set(), set(), set(), set()
        self.walks_alone = collections.defaultdict(lambda: True)
        for _, path in files(top, crates, ".antt"):
            self.look(without_comments(read(path)), path, crates)

    def look(self, text, path, crates):
        body = []
        for line in text.split("\n"):
            use = re.match(r"\s*(?:pub |unfoldable )*use (\S+?)(?:\.\{(.*)\})?(?: as \S+)?\s*$", line)
            if use:
                parts = use.group(1).split(".")
                if not (parts[0] == "Rattle" and len(parts) > 1 and parts[1] in crates):
                    self.kit |= {it.strip() for it in (use.group(2) or "").split(",")}
                    continue
            body.append(line)
        text = "\n".join(body)
        for name in NAME.findall(text):
            self.seen.add(name)
            if not is_walk(path):
                self.walks_alone[name] = False
        marks = r"(?:(?:pattern|unfoldable|abbrev|pub|opaque|axiom) )*"
        for m in re.finditer(rf"^\s*{marks}({N})(?: \{{[^}}]*\}})? :(?=\s)", text, re.M):
            self.bound.add(m.group(1))
            self.declared.add(m.group(1))
        for m in re.finditer(rf"\b(?:record|data) ({N})", text):
            self.bound.add(m.group(1))
        for m in re.finditer(rf"[({{]((?:{N} )*{N}) :(?=\s)", text):
            self.bound |= set(m.group(1).split())
        for pattern in (rf"λ ([^.]*)\.", rf"\blet \(?([^=:]*)[:=]", r"([^\[|\n]*)↦"):
            for m in re.finditer(pattern, text):
                self.bound |= set(NAME.findall(m.group(1)))
        for m in re.finditer(rf"^\s*({N})((?: (?:{N}|\([^=]*?\)|\{{[^}}=]*\}}|\[\]))*) =", text, re.M):
            self.bound |= set(NAME.findall(m.group(2)))
        inside = None
        for line in body:
            opened = re.match(r"(\s*)(?:pub )*record .* where\s*$", line)
            if opened:
                inside = len(opened.group(1))
                continue
            indent = len(line) - len(line.lstrip())
            if line.strip() and inside is not None and indent <= inside:
                inside = None
            field = re.match(rf"\s*(?:pub )?({N}) :(?=\s)", line)
            if inside is not None and field and indent == inside + 2:
                self.fields.add(field.group(1))

    def table(self):
        """The new name of each name."""
        old = [
            name
            for name in self.seen
            if name not in self.kit
            and OWN_WORDS.match(name)
            and (re.search(r"\w-\w", name) or re.search(r"[a-z0-9][A-Z]", name))
            and (name in self.bound or not self.walks_alone[name])
        ]
        to = {}
        plain = {snake(name) for name in old if "-" not in name} | (self.bound & self.seen)
        for name in old:
            new = snake(name)
            if "-" in name and new in plain and name not in TOGETHER:
                new += "_holds" if name in self.fields else "_lem" if name in self.declared else "_"
            if new.endswith("_"):
                new = new + "here"
            to[name] = new
        return to


def respell(text, to, walk, fields):
    """The text with the new names; in a comment only between backticks."""

    def word(m):
        name = m.group(0)
        before = m.string[m.start() - 1 : m.start()]
        if walk and before == "." and name not in fields:
            return name
        return to.get(name, name)

    def line_of(line):
        code, mark, comment = line.partition("--")
        if mark and re.search(r"[\w']$", code):
            code, mark, comment = line, "", ""
        if re.match(r"\s*(?:pub |unfoldable |ghost )*use (?!Rattle\.)", code) is None:
            code = NAME.sub(word, code)
        comment = re.sub(r"`[^`]*`", lambda m: NAME.sub(word, m.group(0)), comment)
        return code + mark + comment

    return "\n".join(line_of(line) for line in text.split("\n"))


def respell_code(text, to):
    """The text of a .rt file: own names have a capital inside, which no name of the code has."""

    def word(m):
        return to[m.group(0)] if m.group(0) in to and "-" not in m.group(0) else m.group(0)

    def line_of(line):
        code, mark, comment = line.partition("//")
        parts = re.split(r'("(?:[^"\\]|\\.)*")', code)
        code = "".join(p if i % 2 else NAME.sub(word, p) for i, p in enumerate(parts))
        comment = re.sub(r"`[^`]*`", lambda m: NAME.sub(word, m.group(0)), comment)
        return code + mark + comment

    return "\n".join(line_of(line) for line in text.split("\n"))


def as_now(text):
    """An edit's line in the kit's spelling: projections are tight, clauses have no brackets."""
    text = re.sub(r"λ r\. ⌜ (.*?) ⌝", lambda m: re.sub(r"\br\b", "result", m.group(1)), text)
    text = re.sub(r"⌜ (.*?) ⌝", r"\1", text)
    text = text.replace("′", "'").replace("Rattle·", "Rattle.").replace(".specs.specs.", ".specs.")
    text = re.sub(r"·specs\.specs", ".specs", text)
    text = re.sub(rf"(?<=[\w')])((?: \.{N})+)", lambda m: m.group(1).replace(" .", "."), text)
    text = re.sub(r"(?<=[\w')])((?: \.\d+)+)", lambda m: m.group(1).replace(" .", "."), text)
    text = re.sub(rf"(?<=[\w')])((?: \.{N})+)", lambda m: m.group(1).replace(" .", "."), text)
    text = re.sub(rf"\((({N})((?:\.(?:{N}|\d+))+))\)", r"\1", text)
    text = re.sub(r"(?<![\w')])_([+*≤<≡∷\-/%&|]+)_", r"◌\1◌", text)
    return text


def edits(top, crates, tables):
    bad = 0
    for crate, path in files(top, crates, ".edit"):
        lines = read(path).split("\n")
        target = next((it[6:].strip() for it in lines if it.startswith("file: ")), None)
        text = read(os.path.join(top, "crates", crate, target))
        out, stands = [], True
        for line in lines:
            m = re.match(r"(old: |new: )(.*)$", line)
            if not m:
                out.append(line)
                continue
            kind, body = m.groups()
            if not (kind == "old: " and text.count(body) == 1):
                new = as_now(body)
                new = NAME.sub(lambda w: tables[crate].get(w.group(0), w.group(0)), new)
                new = NAME.sub(lambda w: said(w.group(0), text), new)
                if kind == "old: " and text.count(new) != 1:
                    stands = False
                body = new
            elif kind == "old: ":
                pass
            out.append(kind + body)
        bad += not stands
        if not stands:
            print(f"by hand: {os.path.relpath(path, top)}")
        with open(path, "w", encoding="utf-8") as f:
            f.write("\n".join(out))
    print(f"{bad} edits by hand")


def said(name, text):
    """A name that port.py had spelled anew: as the text has it."""
    new = snake(name)
    if new != name and not re.search(rf"(?<![\w'-]){re.escape(name)}(?![\w'-])", text):
        if re.search(rf"(?<![\w'-]){re.escape(new)}(?![\w'-])", text):
            return new
    return name


def main():
    top = sys.argv[1] if len(sys.argv) > 1 else "."
    crates = crates_of(top)
    names = Names(top, crates)
    to = names.table()
    tables = {crate: {**APART.get(crate, {}), **{k: v for k, v in to.items() if k not in APART.get(crate, {})}} for crate in crates}
    for crate, path in files(top, crates, ".antt"):
        text = read(path)
        new = respell(text, tables[crate], is_walk(path), names.fields)
        if new != text:
            with open(path, "w", encoding="utf-8") as f:
                f.write(new)
    for crate, path in files(top, crates, ".rt"):
        text = read(path)
        new = respell_code(text, tables[crate])
        if new != text:
            with open(path, "w", encoding="utf-8") as f:
                f.write(new)
    edits(top, crates, tables)
    together = collections.defaultdict(list)
    for old, new in to.items():
        together[new].append(old)
    for new, olds in sorted(together.items()):
        if len(olds) > 1:
            print(f"together: {new}: {' '.join(sorted(olds))}")
    print(f"{len(to)} names")


main()
