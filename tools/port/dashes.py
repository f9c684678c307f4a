#!/usr/bin/env python3
"""Brings the repository's own names with dashes in specs/, proofs/ and must-fail/ to snake case: `seen-write` becomes `seen_write`.

usage: dashes.py [TOP]     at the top of the repository, once, after respell.py, loans.py and edits.py; files are rewritten in place

A word is the repository's own where a file declares it, imports it from a module of the repository, or binds it. Names of the library (imported from
another place) and names that Rattle makes (goals, and labels behind a dot) stay. Fields of the repository's records, and names behind a module of the
repository, are turned behind a dot too. A name whose new spelling is taken in a file where it is used gets `_lem` behind it, and is printed.
In comments words in backquotes are turned.
"""
import pathlib
import re
import sys

TOP = pathlib.Path(sys.argv[1] if len(sys.argv) > 1 else ".")
WORD = re.compile(r"(?<![^\s(){}\[\],;.`])[^\s(){}\[\],;.`]+")
DECLARED = re.compile(r"^([ \t]*)(?:(?:abbrev|pub|unfoldable|opaque|record|data) )*([^\s(){}\[\],;.:]+)(?: [({][^\n]*)? :(?=\s)", re.M)
RECORD = re.compile(r"^([ \t]*)(?:pub )?record [A-Z][^\n]*(?:\n(?:\1[ \t][^\n]*)?)*", re.M)
MODULE = re.compile(r"^[ \t]*use ([^\s{]+?)(?: as (\S+))?$", re.M)
USE = re.compile(r"^[ \t]*(?:pub )?use ([^\s{]+?)\.?\{([^}]*)\}", re.M)
# the modules that Rattle makes for a function's proof
MADE = ("Goals", "Given", "Lts", "Statement", "Tie")
CRATES = {p.parent.name for p in TOP.glob("crates/*/specs")} | {p.parent.name for p in TOP.glob("crates/*/proofs")}


def own_module(path):
    parts = path.split(".")
    return parts[0] == "Rattle" and len(parts) > 1 and parts[1] in CRATES and parts[-1] not in MADE


def is_dashed(word):
    return re.search(r"[^\W\d_]['\w]*-[\w']", word) is not None


def snake(word):
    return word.replace("-", "_")


def behind_dot(text, at):
    return at > 1 and text[at - 1] == "." and not text[at - 2].isspace()


class File:
    def __init__(self, path):
        self.path = path
        self.module = ".".join(("Rattle",) + path.relative_to(TOP / "crates").with_suffix("").parts)
        self.text = path.read_text()
        code = self.code = "\n".join("" if l.lstrip().startswith("--") else l for l in self.text.split("\n"))
        # what Rattle makes for a function's proof
        self.made = set()
        if path.name in ("Answers.antt", "Invariants.antt"):
            self.made = set(re.findall(r"(?<![\w.'-])goal\.([^\s(){}\[\],;.]+)", code))
        if path.name == "Proof.antt":
            self.made = set(re.findall(r"tie\.[A-Za-z]*-?([^\s(){}\[\],;.]+)", code))
        # modules of the repository, by the name that they have here
        self.modules = {alias or m.split(".")[-1]: m for m, alias in MODULE.findall(code) if own_module(m)}
        self.library, self.home = set(), {}
        for m, names in USE.findall(code):
            for name in names.split(","):
                name, _, alias = name.strip().partition(" as ")
                if own_module(m):
                    self.home[name] = m
                else:
                    self.library.add(alias.strip() or name)
        self.home.update({m.group(2): self.module for m in DECLARED.finditer(code) if m.group(2) not in self.made})
        self.plain = {m.group(0) for m in WORD.finditer(code) if not behind_dot(code, m.start())}
        self.fields = {m.group(2) for block in RECORD.finditer(code) for m in DECLARED.finditer(block.group(0)) if is_dashed(m.group(2))}

    def own(self):
        """The words with a dash that stand here and are the repository's."""
        return {w for w in self.plain if is_dashed(w)} - self.library - self.made

    def key(self, word, fields):
        """A field is one in all files; any other word is its module's, or this file's."""
        return (word, "a field" if word in fields else self.home.get(word, self.module))


def clashes(files, fields):
    found = set()
    for f in files:
        here = f.own()
        for w in here:
            if snake(w) in f.plain | f.library or any(v != w and snake(v) == snake(w) for v in here):
                found.add(f.key(w, fields))
    return found


def main():
    files = [File(p) for part in ("specs", "proofs") for p in sorted(TOP.glob(f"crates/*/{part}/**/*.antt"))]
    fields = set().union(*(f.fields for f in files))
    clash = clashes(files, fields)
    for w, home in sorted(clash):
        print(f"taken: {w} of {home} becomes {snake(w)}_lem")

    def new(word, key):
        return snake(word) + ("_lem" if key in clash else "")

    def put(f, line):
        if line.lstrip().startswith("--"):
            return re.sub(r"`([^`\s]+)`", lambda m: f"`{new(m[1], f.key(m[1], fields)) if m[1] in f.own() else m[1]}`", line)

        def one(m):
            w, at = m.group(0), m.start()
            if not is_dashed(w):
                return w
            if behind_dot(line, at):
                base = re.search(r"[^\s(){}\[\],;.`]*$", line[:at - 1]).group(0)
                if base in f.modules:
                    return new(w, (w, f.modules[base]))
                return new(w, (w, "a field")) if w in fields else w
            return w if w in f.library or w in f.made else new(w, f.key(w, fields))

        return WORD.sub(one, line)

    turned = [("\n".join(put(f, l) for l in f.text.split("\n")), f) for f in files]
    by_path = {f.path.resolve(): f for f in files}
    for edit in sorted(TOP.glob("crates/*/must-fail/*.edit")):
        lines, f = edit.read_text().split("\n"), None
        for i, l in enumerate(lines):
            if l.startswith("file: "):
                f = by_path.get((edit.parent.parent / l[6:].strip()).resolve())
            elif f and l.startswith(("old: ", "new: ")):
                lines[i] = l[:5] + put(f, l[5:])
        if "\n".join(lines) != edit.read_text():
            edit.write_text("\n".join(lines))
            print(f"edit: {edit.relative_to(TOP)}")
    for text, f in turned:
        if text != f.text:
            f.path.write_text(text)
    print(f"{len({w for f in files for w in f.own()})} words turned in {sum(text != f.text for text, f in turned)} files")


main()
