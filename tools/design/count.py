#!/usr/bin/env python3
"""Counts the places of docs/DESIGN-PASS.md in a checkout: usage: python3 tools/design/count.py [ROOT] [--table | --list | --twins | --point N]

Reads crates/*/src/*.rt by text and prints a line for each place: point, kind, crate, file:line, function or type, what was found, and `kept` where a comment
that begins with `Kept` stands in the function or type or right above it. --table prints the numbers by point and crate instead, --list the names alone, --twins the groups of point 2.
Nothing is told by the names of this repository's functions and types, so that a place doesn't go by being renamed. A function without a body is no place.

Point 1  option    an enum of two variants, one with a single value and the other with none or one
         carried   an enum with a variant that is built from two or more different numbers
         flag      a struct with a bool beside other fields
         code      a function that answers a number and has two or more different numbers, one above 1, for its answers
         owned     a function that takes, answers or matches such an enum
         coded     a struct with a number beside other fields that is elsewhere tested: against 0 for none, or against other numbers
         answer    a function that fills such a field with a written number or from a parameter, or hands a written number to one that does
         tested    a function that tests a number of a byte's size, or a field, against written numbers or against constants that number kinds
         kind      a function with a parameter that is so tested, there or where it is handed on
         passed    a function that answers at once where a number is not 0
         written   a function that hands a written number of a byte's size, above 8 and no character's, to another
         done      a function that changes what is lent and answers a bool: whether that was done
         const     constants that number kinds: a run of them, one apart
         nowhere   a function that searches and answers the length, or a place behind the list, where it finds nothing
Point 2  same      functions of one text but for the names of their own parameters and locals
         constant  the same but for written numbers, types of numbers, true and false
         shape     the same but for all names, in bodies of more than one statement and at least 28 words (24 without a point)
         near      the same but for what stands in brackets behind names too, in bodies of at least 13 words without these
         block     six lines, one behind the other, that stand in two functions or more
         name      functions of one name with the same parameter and result types
         fields    structs that share three fields or more, by name and type
Point 3  index     a loop with a variable that goes up by one and is compared or used
         down      one with a variable that goes down by one
         tally     one with a variable that goes up by one and is only counted
         unrolled  an array looked at by three or more written places, or one function called four times with only numbers differing
Point 4  equal     two lists compared element by element, or two structs field by field
         copy      elements moved one by one; a struct built with two or more fields of another
         bool      a bool or a test turned into 1 or 0 by if
         enum      an enum turned into numbers by match, or numbers into an enum by if
         bytes     numbers split or joined with written powers of 256
         print     a function that knows characters by their numbers: digits, blanks, line ends
         least     the lesser, one of two by their order, the greater, or a difference that ends at 0, by if
         logic     a function of bools alone: and, or, not
Point 5  clause    a part of a contract that stands in three or more functions
         shape     a predicate or left side of an equation that heads the contracts of three or more functions
         travel    three or more parameters, one behind the other, that three or more functions have
         unpacked  parameters that are all the fields of a struct, one behind the other
         pair      a list and a place or cursor in it, one behind the other, in three or more functions
Point 6  length    a list with its length beside it: an array and a count in a struct, a list that is cut at a number beside it
         parallel  two or more arrays of the same length beside each other
         filled    a local array that is cut at the number of its elements that are in use
         search    a list gone through for an equal element
         indices   an array of places in another
         row       an array of numbers looked at by constants, in the place of fields
Point 7  switch    a parameter that says which of several calls to make
         told      a bool parameter that a caller gives as true or false in writing, or that is handed on to such a one
         table     an array of functions
Point 8           by crate: lines in proofs/ (without blank lines and comments), files and lines of lemmas, invariants, answers, those that are searches alone,
                  and those whose text stands in three answers or more
"""

import collections
import os
import re
import sys

WORD = r"[A-Za-z_][A-Za-z0-9_]*"
INT = r"(?:0x[0-9a-fA-F_]+|0b[01_]+|[0-9][0-9_]*)(?:u8|u16|u32|u64|usize|i32|i64)?"
NUMBERS = {"u8", "u16", "u32", "u64", "usize", "i32", "i64"}
KEYWORDS = {"if", "else", "match", "while", "loop", "for", "in", "let", "mut", "return", "break", "continue", "as", "true", "false", "fn", "pub", "self", "Self", "ref", "move", "struct", "enum", "impl", "const", "type", "use", "where", "dyn"}
CHARACTERS = {9, 10, 13, 32, 35, 40, 41, 48, 57, 58, 61, 77}
POWERS = {"256", "512", "65536", "16777216", "4294967296", "0xff", "0xFF"}
CLAUSE = re.compile(r"\b(requires|ensures)\b(?:\s+(?!\{)[a-z_]+)?\s*\{")


def blank(t):
    """The text with comments, strings and characters blanked, of the same length."""
    out, i, n = list(t), 0, len(t)
    while i < n:
        m = re.compile(r"//[^\n]*|/\*.*?\*/|b?\"(?:\\.|[^\"\\])*\"|b?'(?:\\.[^']*|[^'\\\n])'", re.S).match(t, i)
        if m and not (m[0][0] == "b" and i and (t[i - 1].isalnum() or t[i - 1] == "_")):
            for k in range(i, m.end()):
                if out[k] != "\n":
                    out[k] = " "
            if m[0][0] in "b\"'" and m.end() - i >= 2:
                out[i], out[m.end() - 1] = '"', '"'
            i = m.end()
        else:
            i += 1
    return "".join(out)


def closing(t, i):
    """Behind the bracket that closes the one at i."""
    pairs = {"{": "}", "(": ")", "[": "]"}
    a, b, deep = t[i], pairs[t[i]], 0
    for k in range(i, len(t)):
        deep += (t[k] == a) - (t[k] == b)
        if not deep:
            return k + 1
    return len(t)


def squeeze(s):
    return re.sub(r"\s+", " ", s).strip()


def split(s, sep=","):
    """The parts of s between top-level separators."""
    out, deep, last, prev = [], 0, 0, ""
    for k, c in enumerate(s):
        if c in "([{<":
            deep += 1
        elif c in ")]}" or (c == ">" and prev != "-" and prev != "="):
            deep -= 1
        elif c == sep and deep <= 0:
            out.append(s[last:k])
            last = k + 1
        prev = c
    out.append(s[last:])
    return [squeeze(x) for x in out if x.strip()]


def value(lit):
    lit = re.sub(r"(u8|u16|u32|u64|usize|i32|i64)$", "", lit).replace("_", "")
    return int(lit, 0) if lit.startswith("0x") or lit.startswith("0b") else int(lit)


class Item:
    """A function, struct, enum or constant with its text."""

    def __init__(self, crate, path, name, line):
        self.crate, self.path, self.name, self.line = crate, path, name, line
        self.kept = False


def read(root):
    functions, structs, enums, consts, types = [], [], [], [], {}
    top = os.path.join(root, "crates")
    for crate in sorted(os.listdir(top)):
        base = os.path.join(top, crate, "src")
        for folder, dirs, names in os.walk(base):
            dirs.sort()
            for f in sorted(names):
                if f.endswith(".rt"):
                    path = os.path.join(folder, f)
                    with open(path, encoding="utf-8") as h:
                        parse(crate, os.path.relpath(path, os.path.join(top, crate)), h.read(), functions, structs, enums, consts, types)
    return functions, structs, enums, consts, types


def kept(raw, start, end):
    """Whether a comment that begins with Kept stands between two places, or in the comments right above."""
    above = raw.rfind("\n", 0, start) + 1
    while above > 0:
        before = raw.rfind("\n", 0, above - 1) + 1
        if not re.match(r"\s*(//|#\[)", raw[before:above]):
            break
        above = before
    return bool(re.search(r"//+\s*Kept\b", raw[above:end]))


def parse(crate, path, raw, functions, structs, enums, consts, types):
    t = blank(raw)
    line = lambda i: t.count("\n", 0, i) + 1  # noqa: E731
    traits = [(m.start(), closing(t, m.end() - 1)) for m in re.finditer(r"\bimpl\b[^{};]*\bfor\b[^{};]*\{", t)]
    for m in re.finditer(rf"\b(fn|struct|enum|const|type)\s+({WORD})", t):
        word, name = m[1], m[2]
        before = t[t.rfind("\n", 0, m.start()) + 1 : m.start()]
        if "ghost" in before or "*" in before:
            continue
        it = Item(crate, path, name, line(m.start()))
        if word == "const":
            e = t.find(";", m.end())
            c = re.match(r"\s*:\s*(.*?)\s*=\s*(.*)", t[m.end() : e], re.S)
            if c:
                # an array's type has a ';' of its own
                while t[m.end() : e].count("[") != t[m.end() : e].count("]"):
                    e = t.find(";", e + 1)
                c = re.match(r"\s*:\s*([^=]*?)\s*=\s*(.*)", t[m.end() : e], re.S)
                it.type, it.value, it.kept = squeeze(c[1]), squeeze(c[2]), kept(raw, m.start(), e)
                consts.append(it)
            elif t[m.end() : e].count("[") != t[m.end() : e].count("]"):
                e = t.find(";", e + 1)
                c = re.match(r"\s*:\s*([^=]*?)\s*=\s*(.*)", t[m.end() : e], re.S)
                if c:
                    it.type, it.value, it.kept = squeeze(c[1]), squeeze(c[2]), kept(raw, m.start(), e)
                    consts.append(it)
        elif word == "type":
            c = re.match(r"[^=;{]*=\s*((?:\[[^\]]*\]|[^;])*);", t[m.end() :], re.S)
            if c:
                types[name] = squeeze(c[1])
        elif word in ("struct", "enum"):
            j = m.end()
            while j < len(t) and t[j] not in "{;(":
                j += 1
            if j >= len(t) or t[j] == ";":
                continue
            e = closing(t, j)
            parts = split(t[j + 1 : e - 1])
            parts = [re.sub(r"^(#\[[^\]]*\]\s*)*(pub(\([^)]*\))?\s+)?", "", p) for p in parts]
            it.kept = kept(raw, m.start(), e)
            if word == "struct":
                it.fields = [tuple(squeeze(x) for x in p.split(":", 1)) for p in parts if ":" in p and not p.startswith("ghost")]
                structs.append(it)
            else:
                it.variants = []
                for p in parts:
                    v = re.match(rf"({WORD})\s*(\(.*\)|\{{.*\}})?", p, re.S)
                    if v:
                        it.variants.append((v[1], split(v[2][1:-1]) if v[2] else []))
                enums.append(it)
        else:
            j = m.end()
            if t[j : j + 1] == "<":
                deep = 0
                while j < len(t):
                    deep += (t[j] == "<") - (t[j] == ">" and t[j - 1] != "-")
                    j += 1
                    if not deep:
                        break
            while j < len(t) and t[j] != "(":
                j += 1
            if j >= len(t):
                continue
            p = closing(t, j)
            it.params = []
            for x in split(t[j + 1 : p - 1]):
                a = re.match(rf"(?:mut\s+)?({WORD})\s*:\s*(.*)", x, re.S)
                it.params.append((a[1], squeeze(a[2])) if a else (re.sub(r"\W|mut", "", x), x))
            # clauses, then the body
            i, it.clauses = p, []
            k = p
            while k < len(t) and t[k] not in "{;":
                c = CLAUSE.match(t, k)
                if c and not (t[k - 1].isalnum() or t[k - 1] == "_"):
                    if not it.clauses:
                        i = k
                    e = closing(t, c.end() - 1)
                    it.clauses.append((c[1], squeeze(raw[c.end() : e - 1])))
                    k = e
                elif t[k] in "([":
                    k = closing(t, k)
                else:
                    k += 1
            head = t[p : i if it.clauses else k]
            r = re.search(r"->\s*(.*?)\s*(?:\bwhere\b.*)?$", head.strip(), re.S)
            it.result = squeeze(r[1]) if r else ""
            it.pub = bool(re.search(r"\bpub\b", before))
            e = closing(t, k) if k < len(t) and t[k] == "{" else k
            it.body = t[k + 1 : e - 1] if k < len(t) and t[k] == "{" else ""
            it.end = line(max(e - 1, 0))
            it.kept = kept(raw, m.start(), e)
            it.of_trait = any(a < m.start() < z for a, z in traits)
            it.tests = "test" in t[max(0, m.start() - 120) : m.start()].rsplit("}", 1)[-1]
            functions.append(it)


# ---- small helpers over bodies


def tokens(s):
    return re.findall(rf"{WORD}|{INT}|::|=>|->|==|!=|<=|>=|&&|\|\||\+=|-=|\*=|<<|>>|\.\.=?|[^\s\w]", s)


def locals_of(f):
    names = {n for n, _ in f.params}
    for m in re.finditer(rf"\blet\s+(?:mut\s+)?({WORD})|\bfor\s+({WORD})\s+in\b", f.body):
        names.add(m[1] or m[2])
    for m in re.finditer(rf"\|([^|\n]*)\|", f.body):
        names.update(re.findall(WORD, re.sub(r":[^,]*", "", m[1])))
    for m in re.finditer(rf"\(({WORD}(?:\s*,\s*{WORD})*)\)\s*(?:=>|=(?!=))", f.body):
        names.update(re.findall(WORD, m[1]))
    return names - KEYWORDS


def normal(f, level):
    """The words of a body: locals numbered; from level 1 on numbers, true and false alike; at level 2 all other names numbered too."""
    mine, seen, out = locals_of(f), {}, []
    for w in tokens(f.body):
        if re.fullmatch(INT, w) or w in ("true", "false"):
            out.append(w if level < 1 else "#")
        elif w in NUMBERS and level > 0:
            out.append("T")
        elif re.fullmatch(WORD, w) and w not in KEYWORDS and (w in mine or level > 1):
            out.append("v%d" % seen.setdefault(w, len(seen)))
        else:
            out.append(w)
    return out


def near(f):
    """The words of a body without what stands in brackets behind names, without types of locals, with all names and numbers alike."""
    b, i = f.body, 0
    while i < len(b):
        m = re.compile(rf"(?<=[A-Za-z0-9_>])([(\[])").search(b, i)
        if not m:
            break
        e = closing(b, m.start())
        b = b[: m.end()] + b[e - 1 :]
        i = m.end() + 1
    b = re.sub(rf"(\blet\s+(?:mut\s+)?{WORD})\s*:[^=;]*=", r"\1 =", b)
    seen, out = {}, []
    b = re.sub(rf"(?:{WORD}::)+", "", b)
    for w in tokens(b):
        if re.fullmatch(INT, w) or re.fullmatch(r"[A-Z][A-Z_0-9]*", w) or w in ("true", "false"):
            out.append("#")
        elif re.fullmatch(WORD, w) and w not in KEYWORDS:
            out.append("v%d" % seen.setdefault(w, len(seen)))
        elif w not in ("&", "*", ":"):
            out.append(w)
    return out


def loops(body):
    """The loops of a body: condition, inner text."""
    for m in re.finditer(r"\b(while|loop|for)\b", body):
        j = body.find("{", m.end())
        if j >= 0:
            yield m[1], squeeze(body[m.end() : j]), body[j + 1 : closing(body, j) - 1]


def calls(f):
    """The calls in a body: the function's last name, the path before it, the arguments."""
    for m in re.finditer(rf"((?:\b{WORD}::)*)\b([a-z]\w*)\s*(?:::<[^<>()]*>)?\(", f.body):
        if m[2] not in KEYWORDS and f.body[max(0, m.start() - 3) : m.start()] != "fn ":
            yield m[2], m[1], split(f.body[m.end() : closing(f.body, m.end() - 1) - 1])


def handed_on(functions, seeds, fits):
    """The parameters and locals that reach the seeds, or that the seeds reach, by being handed to a parameter: (function's id, name) of type fits."""
    by_name = collections.defaultdict(list)
    for f in functions:
        by_name[f.name].append(f)
    edges = collections.defaultdict(set)
    for f in functions:
        for name, path, args in calls(f):
            crate = path.split("::")[0]
            for g in by_name[name]:
                if len(g.params) == len(args) and (g.crate == crate or not path and g.crate == f.crate):
                    for a, (p, t) in zip(args, g.params):
                        if fits(t) and re.fullmatch(WORD, a) and a not in KEYWORDS and (a == p or g.crate == f.crate) and dict(f.params).get(a, t) == t:
                            edges[id(g), p].add((id(f), a))
                            if a == p:
                                edges[id(f), a].add((id(g), p))
    seen, new = set(seeds), list(seeds)
    while new:
        for y in edges[new.pop()]:
            if y not in seen:
                seen.add(y)
                new.append(y)
    return seen


def results(body):
    """The plain values that a body answers: those of returns, last lines, branches and arms."""
    out = []
    for m in re.finditer(rf"\breturn\s+({INT}|{WORD})\s*;", body):
        out.append(m[1])
    for m in re.finditer(rf"\{{\s*({INT}|{WORD})\s*\}}", body):
        out.append(m[1])
    for m in re.finditer(rf"=>\s*({INT}|{WORD})\s*(?:,|\}}|$)", body):
        out.append(m[1])
    m = re.search(rf"(?:^|[;}}])\s*({INT}|{WORD})\s*$", body)
    if m:
        out.append(m[1])
    return out


def is_number(w):
    return bool(re.fullmatch(INT, w))


def length_of(ty, types):
    """The length of an array type, through type names; None for another."""
    ty = re.sub(r"^&\s*(mut\s+)?", "", ty).strip()
    for _ in range(5):
        if ty in types:
            ty = types[ty]
    m = re.fullmatch(r"\[(.*);\s*(.*)\]", ty, re.S)
    return squeeze(m[2]) if m else None


def is_list(ty, types):
    return length_of(ty, types) is not None or re.sub(r"^&\s*(mut\s+)?", "", ty).startswith("[")


# ---- the points


def conjuncts(clause):
    """The parts of a clause between its top-level ×, without outer brackets."""
    s = clause.strip()
    while s.startswith("("):
        e = closing(s, 0)
        if e == len(s):
            s = s[1:-1].strip()
        else:
            break
    parts, deep, last = [], 0, 0
    for k, c in enumerate(s):
        deep += (c in "([{") - (c in ")]}")
        if c == "×" and not deep:
            parts.append(s[last:k])
            last = k + 1
    parts.append(s[last:])
    if len(parts) == 1:
        return [squeeze(s)]
    return [x for p in parts for x in conjuncts(p)]


def count(root):
    functions, structs, enums, consts, types = read(root)
    functions = [f for f in functions if not f.tests]
    places = []

    def add(point, kind, it, what):
        places.append((point, kind, it.crate, f"{it.path}:{it.line}", it.name, squeeze(what), it.kept))

    bodied = [f for f in functions if f.body.strip()]
    text = "\n".join(f.body for f in bodied)

    # constants that number kinds: runs of whole numbers one apart, of no array's length
    runs, codes = [], {}
    by_file = collections.defaultdict(list)
    for c in consts:
        if c.type in NUMBERS and is_number(c.value):
            by_file[c.crate, c.path].append(c)
    for (crate, _), cs in by_file.items():
        sizes = set(re.findall(WORD, " ".join(re.findall(r";\s*([A-Z_0-9 *+]+)\]", "\n".join(f.body + f.result + " ".join(t for _, t in f.params) for f in functions if f.crate == crate) + "\n".join(t for s in structs if s.crate == crate for _, t in s.fields)))))
        run = []
        for c in cs + [None]:
            if c and c.name not in sizes and (not run or (abs(value(c.value) - value(run[-1].value)) == 1 and c.type == run[-1].type)):
                run.append(c)
            else:
                if len(run) > 1:
                    runs.append(run)
                run = [c] if c and c.name not in sizes else []
    for run in runs:
        it = run[0]
        add(1, "const", it, f"{len(run)} constants {run[0].name} .. {run[-1].name}: {it.type}")
        for c in run:
            codes[c.name] = value(c.value)
    literal = lambda w: is_number(w) or w.split("::")[-1] in codes  # noqa: E731
    number = lambda w: value(w) if is_number(w) else codes.get(w.split("::")[-1], -1)  # noqa: E731

    # ---- point 1
    for e in enums:
        sizes = sorted(len(v[1]) for v in e.variants)
        if len(sizes) == 2 and sizes[1] == 1:
            add(1, "option", e, " | ".join(n + (f"({', '.join(v)})" if v else "") for n, v in e.variants))
        for n, v in e.variants:
            built = set(re.findall(rf"\b{e.name}::{n}\(\s*({INT})\s*\)", text))
            if len(v) == 1 and v[0] in NUMBERS and len(built) > 1:
                add(1, "carried", e, f"{n} built from {', '.join(sorted(built, key=value))}")
    for s in structs:
        flags = [n for n, t in s.fields if t == "bool"]
        if flags and len(s.fields) > len(flags):
            add(1, "flag", s, ", ".join(flags) + " beside " + ", ".join(n for n, t in s.fields if t != "bool"))
    tested = collections.defaultdict(set)
    for m in re.finditer(rf"\.({WORD})\s*(?:==|!=)\s*({INT}|(?:{WORD}::)?[A-Z][A-Z_0-9]*)\b", text):
        if literal(m[2]):
            tested[m[1]].add(m[2])
    for m in re.finditer(rf"\.({WORD})\s*!=\s*0\b", text):
        tested[m[1]].add("code")
    tested = {n: v for n, v in tested.items() if v - {"0"}}
    coded = {(s.name, n) for s in structs for n, t in s.fields if t in ("u8", "u64") and n in tested}
    coded_names = {n for _, n in coded if any(t == "u8" for s in structs for k, t in s.fields if k == n)}
    for s in structs:
        codes_of = [n for n, t in s.fields if (s.name, n) in coded and n in coded_names]
        if codes_of and len(s.fields) > 1:
            add(1, "coded", s, ", ".join(codes_of) + " beside " + ", ".join(n for n, _ in s.fields if n not in codes_of))
    own = {e.name for e in enums if sorted(len(v[1]) for v in e.variants)[1:] == [1] and len(e.variants) == 2}
    own |= {e.name for e in enums for n, v in e.variants if len(v) == 1 and v[0] in NUMBERS and len(set(re.findall(rf"\b{e.name}::{n}\(\s*({INT})\s*\)", text))) > 1}
    for t in structs:
        used = sorted(n for n in own if any(re.search(rf"\b{n}\b", u) for _, u in t.fields))
        if used:
            add(1, "owned", t, ", ".join(used))
    makers, seeds, wide, coding, placing = collections.defaultdict(set), set(), set(), set(), set()
    for f in bodied:
        for m in re.finditer(r"\b([A-Z]\w*)\s*\{", f.body):
            for p in split(f.body[m.end() : closing(f.body, m.end() - 1) - 1]):
                a = re.fullmatch(rf"({WORD})(?:\s*:\s*({WORD}))?", p)
                if a and (m[1], a[1]) in coded and a[1] in coded_names and (a[2] or a[1]) in dict(f.params):
                    makers[f.crate, f.name].add([n for n, _ in f.params].index(a[2] or a[1]))
    for _ in range(3):
        for f in bodied:
            ps = [n for n, _ in f.params]
            for name, path, args in calls(f):
                for i in list(makers.get((path[:-2] or f.crate, name), ())):
                    if i < len(args) and args[i] in ps:
                        makers[f.crate, f.name].add(ps.index(args[i]))
    for f in bodied:
        ty = dict(f.params)
        used = sorted(n for n in own if re.search(rf"\b{n}\b", " ".join([f.body, f.result, *(t for _, t in f.params)])))
        if used:
            add(1, "owned", f, ", ".join(used))
        answers = [w for w in results(f.body) if literal(w)]
        if f.result == "u8" and len(set(map(number, answers))) > 1 and max(map(number, answers)) > 1 and not re.search(r"\b[A-Z]\w*::[A-Z]\w*(?:\([^)]*\))?\s*=>", f.body):
            add(1, "code", f, f"{f.result} from " + ", ".join(sorted(set(answers), key=number)))
            coding.add((f.crate, f.name))
        built = []
        for m in re.finditer(r"\b([A-Z]\w*)\s*\{", f.body):
            e = closing(f.body, m.end() - 1)
            for p in split(f.body[m.end() : e - 1]):
                a = re.fullmatch(rf"({WORD})\s*:\s*({INT}|{WORD})", p)
                if a and (m[1], a[1]) in coded and a[1] in coded_names and literal(a[2]):
                    built.append(f"{m[1]}.{a[1]} = {a[2]}")
                a = re.fullmatch(rf"({WORD})\s*:\s*({WORD}\.{WORD})", p)
                if a and (m[1], a[1]) in coded and a[1] in coded_names and a[2].endswith("." + a[1]):
                    built.append(f"{m[1]}.{a[1]} = {a[2]}")
        if (f.crate, f.name) in makers:
            built.append("of a parameter")
        for name, path, args in calls(f):
            for i in makers.get((path[:-2] or f.crate, name), ()):
                if i < len(args) and literal(args[i]):
                    built.append(f"{name}({args[i]})")
        if built and not f.of_trait:
            add(1, "answer", f, ", ".join(sorted(set(built))))
        tests, named = collections.defaultdict(set), set()
        for m in re.finditer(rf"(?<![\w.%*/+\]-])((?:{WORD}\.)*{WORD})\s*(==|!=)\s*({INT}|(?:{WORD}::)?[A-Z][A-Z_0-9]*)\b(?!\s*[.(+*/%-])", f.body):
            if literal(m[3]) and not re.search(r"[%*/+-]\s*$", f.body[: m.start()]):
                tests[m[1]].add(number(m[3]))
                if not is_number(m[3]):
                    named.add(m[1])
        for m in re.finditer(rf"\b({INT})\s*<=?\s*((?:{WORD}\.)+{WORD})\b(?!\s*[.(])", f.body):
            if m[2].split(".")[-1] in coded_names:
                tests[m[2]].add(value(m[1]))
        for m in re.finditer(rf"\bmatch\s+((?:{WORD}\.)*{WORD})\s*\{{", f.body):
            arms = re.findall(rf"(?:^|[,{{}}|])\s*({INT})\s*(?:\.\.=?\s*{INT}\s*)?(?:=>|\|)", f.body[m.end() - 1 : closing(f.body, m.end() - 1)])
            tests[m[1]].update(map(value, arms))
        said, kinds = [], []
        for x, ns in sorted((x, ns) for x, ns in tests.items() if ns):
            t = ty.get(x, "")
            last = x.split(".")[-1]
            local = re.search(rf"\blet\s+(?:mut\s+)?{x}\s*(?::\s*u8\s*)?=", f.body) if "." not in x else None
            small = t == "u8" or ("." in x and last in coded_names) or (local and (x in named or max(ns) > 1))
            if ns == {9} and t == "u8":
                kinds.append(x)
            if (ns - {0} <= CHARACTERS and ns != {35} and max(ns) > 8):
                continue
            if (small or (t in NUMBERS and (t != "usize" and len(ns) > 1 or x in named)) or ("." in x and last in tested and max(ns) > 0)) and (max(ns) > 1 or len(ns) > 1 or "." in x):
                said.append(f"{x} against {', '.join(map(str, sorted(ns)))}")
                if t == "u8" or not t and "." not in x:
                    kinds.append(x)
            if t == "usize" and re.search(rf"\b{x}\s*(?:==|!=|<=)\s*(?:{'|'.join(codes) or '-'})\b|\b(?:{'|'.join(codes) or '-'})\s*<=\s*{x}\b", f.body):
                wide.add((id(f), x))
        seeds |= {(id(f), x) for x in kinds if "." not in x}
        if said:
            add(1, "tested", f, "; ".join(said))
        if f.result == "bool" and any(t.startswith("&mut") for _, t in f.params):
            add(1, "done", f, "a bool for what was done in " + ", ".join(n for n, t in f.params if t.startswith("&mut")))
        handed = re.findall(rf"\bif\s+((?:{WORD}\.)*{WORD})\s*!=\s*0\s*\{{\s*return\b", f.body)
        if handed:
            add(1, "passed", f, ", ".join(sorted(set(handed))))
        if f.result == "usize":
            for _, cond, inner in loops(f.body):
                up = set(re.findall(rf"\b({WORD})\s*\+=\s*1\b", inner)) | set(re.findall(rf"\b({WORD})\s*=\s*\1\s*\+\s*1\b", inner))
                if any(re.search(rf"\b(break|return)\s+{v}\b", inner) for v in up) and re.search(r"\bif\b", inner) and len(re.findall(r"\bif\b|\bwhile\b", cond + inner)) > 0 and not re.search(rf"\b(break|return)\s+{WORD}\s*[+-]", inner) and len(up) == 1 and re.search(rf"[\[(][^\[\](){{}}]*\b{min(up)}\b", inner):
                    add(1, "nowhere", f, f"place {sorted(up)[0]}, or the end")
                    placing.add((f.crate, f.name))
                    break
            else:
                m = re.search(rf"\blet\s+mut\s+({WORD})\s*(?::\s*usize\s*)?=\s*(?:[A-Z][A-Z_0-9]*|{WORD}\.len\(\))\s*;", f.body)
                if m and re.search(rf"\b{m[1]}\s*$", f.body) and re.search(r"\b(while|loop|for)\b", f.body):
                    add(1, "nowhere", f, f"place {m[1]}, or the end")
                    placing.add((f.crate, f.name))
                elif re.search(r"\bunwrap_or(_else)?\(", f.body) and re.search(r"\bposition\(|\bfind\w*\(", f.body):
                    add(1, "nowhere", f, "place, or the end")
                    placing.add((f.crate, f.name))
        elif f.result and re.search(r"\bunwrap_or\(", f.body) and f.result == "usize":
            add(1, "nowhere", f, "place, or the end")

    given = collections.defaultdict(list)
    by_name = collections.defaultdict(list)
    for f in bodied:
        by_name[f.name].append(f)
    for f in bodied:
        for name, path, args in calls(f):
            for g in by_name[name]:
                if len(g.params) == len(args) and (path.split("::")[0] == g.crate or not path and g.crate == f.crate):
                    for a, (n, t) in zip(args, g.params):
                        if t == "u8" and is_number(a) and value(a) > 8 and list(dict(g.params)).index(n) not in makers.get((g.crate, g.name), ()):
                            given[g.crate, g.name, n].append((f, value(a)))
    written = collections.defaultdict(set)
    for (crate, name, _), these in given.items():
        if not {n for _, n in these} <= CHARACTERS:
            for f, n in these:
                written[id(f)].add(f"{name} with {n}")
    for f in bodied:
        if written[id(f)]:
            add(1, "written", f, ", ".join(sorted(written[id(f)])))
    for kind, result, these in (("code", "u8", coding), ("nowhere", "usize", placing)):
        for f in bodied:
            if f.result == result and (f.crate, f.name) not in these:
                last = [(path[:-2] or f.crate, name) for name, path, _ in calls(f) if re.search(rf"(?:=>\s*|return\s+|[;}}{{]\s*|^\s*)(?:{re.escape(path)})?{name}\s*\(", f.body)]
                tail = re.search(rf"(?:^|[;}}])\s*((?:{WORD}::)*)({WORD})\(", f.body[max(f.body.rfind(";"), f.body.rfind("}}")) + 1 if not f.body.strip().endswith("}") else 0 :].join([";", ""]))
                hit = [k for k in last if k in these] if kind == "code" else [((tail[1] or f.crate + "::")[:-2], tail[2])] if tail and ((tail[1] or f.crate + "::")[:-2], tail[2]) in these else []
                if hit:
                    add(1, kind, f, "by " + ", ".join(sorted({n for _, n in hit})))
    numbers = handed_on(bodied, seeds, lambda t: t == "u8") | handed_on(bodied, wide, lambda t: t == "usize")
    for f in bodied:
        ps = [n for n, t in f.params if t in ("u8", "usize") and (id(f), n) in numbers]
        if ps:
            add(1, "kind", f, ", ".join(ps))

    # ---- point 2
    groups = []
    for kind, level, least in (("same", 0, 5), ("constant", 1, 8), ("shape", 2, 28), ("near", 3, 13)):
        by = collections.defaultdict(list)
        for f in bodied:
            n = normal(f, level) if level < 3 else near(f)
            if level == 3 and not re.search(r"\b(if|while|loop|for|match)\b", f.body):
                continue
            if len(n) >= (24 if level == 2 and "." not in f.body else least) and (level < 2 or ";" in f.body or "." not in f.body or "\n" in f.body.strip() and len(n) >= 44):
                by[" ".join(n)].append(f)
        for fs in by.values():
            if len(fs) > 1 and not any(set(map(id, fs)) <= set(map(id, g)) for _, g in groups):
                groups.append((kind, fs))
    by = collections.defaultdict(list)
    for f in bodied:
        ls = [l for l in (squeeze(l) for l in f.body.split("\n")) if len(tokens(l)) > 3]
        for i in range(len(ls) - 5):
            by["\n".join(ls[i : i + 6])].append(f)
    blocks = {tuple(dict.fromkeys(f"{f.crate} {f.path} {f.line}" for f in fs)): list({id(f): f for f in fs}.values()) for fs in by.values() if len({id(f) for f in fs}) > 1}
    for fs in blocks.values():
        if not any(set(map(id, fs)) <= set(map(id, g)) for _, g in groups):
            groups.append(("block", fs))
    by = collections.defaultdict(list)
    for f in bodied:
        if f.name != "main" and not f.of_trait:
            by[f.name, tuple(t for _, t in f.params), f.result].append(f)
    for fs in by.values():
        if len(fs) > 1 and len({f.crate for f in fs}) > 1 and not any(set(map(id, fs)) <= set(map(id, g)) for _, g in groups):
            groups.append(("name", fs))
    for kind, fs in groups:
        for f in fs:
            others = ", ".join(sorted({(g.crate + "::" if g.crate != f.crate else "") + g.name for g in fs if g is not f}))
            add(2, kind, f, "with " + others)
    twins = collections.defaultdict(list)
    for i, a in enumerate(structs):
        for b in structs[i + 1 :]:
            both = [n for n, t in a.fields if (n, t) in b.fields]
            if len(both) > 2:
                twins[id(a)].append((a, b, both))
                twins[id(b)].append((b, a, both))
    for rows in twins.values():
        add(2, "fields", rows[0][0], "; ".join(f"{', '.join(both)} with {b.crate}::{b.name}" for _, b, both in rows))

    # ---- point 3
    for f in bodied:
        said = collections.OrderedDict()
        for word, cond, inner in loops(f.body):
            for m in re.finditer(rf"\b({WORD})\s*(\+=|-=)\s*1\b(?!\s*[*])|\b({WORD})\s*=\s*\3\s*([+-])\s*1\s*;", inner):
                v, op = m[1] or m[3], m[2] or m[4]
                rest = inner[: m.start()] + inner[m.end() :]
                used = re.search(rf"\b{v}\b", cond) or re.search(rf"\[[^\]]*\b{v}\b|\b\w+\([^;]*\b{v}\b|\bif [^{{]*\b{v}\b|\b{v}\s*[<>=!]=?", rest)
                kind = "down" if op.startswith("-") else "index" if used else "tally"
                said.setdefault(kind, []).append(f"{v} in {word} {cond}".strip())
        for kind, ws in said.items():
            if kind != "tally" or not (said.keys() - {"tally"}):
                add(3, kind, f, "; ".join(dict.fromkeys(ws)))
        ty = dict(f.params)
        seen = collections.defaultdict(set)
        for m in re.finditer(rf"\b({WORD})\[([^\[\]]*)\]", f.body):
            if re.fullmatch(rf"(?:(?:{WORD}::)*[A-Z][A-Z_0-9]*|{INT}|[\s+*])+", m[2]) and "[u8]" not in ty.get(m[1], ""):
                seen[m[1]].add(squeeze(m[2]))
        said = [f"{n}[{', '.join(sorted(v))}]" for n, v in seen.items() if len(v) > 2]
        repeated = collections.defaultdict(set)
        for m in re.finditer(rf"\b((?:{WORD}::)*{WORD})\(", f.body):
            e = closing(f.body, m.end() - 1)
            args = squeeze(f.body[m.end() : e - 1])
            if m[1] not in KEYWORDS and not m[1][0].isupper():
                repeated[m[1], re.sub(rf"\b{INT}\b", "#", re.sub(rf"\s*[+/]\s*{INT}\b", "", args))].add(args)
        said += [f"{n}({a}) {len(v)} times" for (n, a), v in repeated.items() if len(v) > 3]
        if said:
            add(3, "unrolled", f, "; ".join(said))

    # ---- point 4
    digits, choosing = set(), set()
    last_type = {f.name: f.params[-1][1] for f in functions if f.params}
    for f in bodied:
        b = squeeze(f.body)
        ty = dict(f.params)
        if f.result == "bool":
            for _, cond, inner in loops(f.body):
                if re.search(rf"\bif\s+{WORD}\[[^\]]*\]\s*!=\s*{WORD}\[|\bif\s+.*\)\s*!=\s*{WORD}\s*\{{\s*return\s+false", inner):
                    add(4, "equal", f, "element by element")
            pairs = re.findall(rf"\b({WORD})\.({WORD})(?:\s+as\s+\w+)?\s*==\s*({WORD})\.\2\b", b)
            if len({p[1] for p in pairs if p[0] != p[2]}) > 1:
                add(4, "equal", f, "by fields " + ", ".join(sorted({p[1] for p in pairs})))
            if re.search(r"\bmatch\b", b) and re.search(r"=> (?:true|false)\s*[,}]", b) and re.search(r"\b[A-Z]\w*::[A-Z]\w*(?:\([^)]*\))? =>", b):
                add(4, "equal", f, "a match that answers true or false")
        for _, cond, inner in loops(f.body):
            i = squeeze(inner)
            up = "|".join(re.findall(rf"\b({WORD}) \+= 1\b", i)) or "-"
            if re.search(rf"\[[^\]]*\b(?:{up})\b[^\]]*\] = {WORD}\[[^\]]*\b(?:{up})\b[^\]]*\];", i) or re.search(rf"let ({WORD}) = {WORD}\[[^\]]*\b(?:{up})\b[^\]]*\]; {WORD}\[[^\]]*\b(?:{up})\b[^\]]*\] = \1;", i):
                add(4, "copy", f, "element by element")
                break
        for m in re.finditer(rf"\b([A-Z]\w*)\s*\{{", f.body):
            e = closing(f.body, m.end() - 1)
            taken = collections.Counter()
            for p in split(f.body[m.end() : e - 1]):
                a = re.fullmatch(rf"({WORD})\s*:\s*({WORD})\.\1", p)
                if a:
                    taken[a[2]] += 1
            n = max(taken.values(), default=0)
            if n > 1:
                add(4, "copy", f, f"{m[1]} with {n} fields of {taken.most_common(1)[0][0]}")
                break
        m = re.fullmatch(rf"if (.*?) \{{ ({INT}) \}} else \{{ ({INT}) \}}", b)
        if m and {value(m[2]), value(m[3])} == {0, 1}:
            add(4, "bool", f, b)
        if re.search(r"\bmatch\b", b):
            arms = [w for w in re.findall(rf"=>\s*({INT})\s*[,}}]", b)]
            if f.result in NUMBERS and len(arms) > 1 and re.search(rf"\b[A-Z]\w*::[A-Z]\w*(\([^)]*\))?\s*=>", b):
                add(4, "enum", f, f"match to {', '.join(arms)}")
        made = set(re.findall(r"\b([A-Z]\w*)::[A-Z]\w*\b(?!\s*=>|\s*\()", b)) | set(re.findall(r"\b([A-Z]\w*)::[A-Z]\w*\(", b))
        result = re.sub(r"^(Option|Result)<(.*)>$", r"\2", f.result)
        if len(re.findall(rf"\bif\s+{WORD}\s*==\s*{INT}\b", b)) > 1 and any(result == e.name for e in enums) and result in made:
            add(4, "enum", f, f"{f.result} by tests of a number")
        arith = [n for n in re.findall(rf"[*/%]\s*({INT})\b|\b({INT})\s*\*", b) for n in n if n and re.sub(r"_|u\d+$|usize$", "", n) in POWERS]
        if arith:
            add(4, "bytes", f, ", ".join(sorted(set(arith), key=value)))
        elif re.search(r">>\s*\(?\s*8\s*\*|<<\s*8\b|>>\s*8\b", b):
            add(4, "bytes", f, "shifts of 8")
        chars, handed = set(), set()
        for m in re.finditer(rf"(?<!\))\s(==|!=|<=|<|>|>=)\s*({INT})\b|\b({INT})\s*(?:<=|<)|\b({INT})\s*\+\s*\(|-\s*({INT})\s*\)", b):
            n = value(next(x for x in m.groups()[1:] if x))
            if n in CHARACTERS and (n in (48, 57, 58) or m[1] in ("==", "!=")):
                chars.add(n)
        for m in re.finditer(rf"\b({WORD})\(", b):
            args = split(b[m.end() : closing(b, m.end() - 1) - 1])
            if args and is_number(args[-1]) and not b[: m.start()].endswith('.') and value(args[-1]) in CHARACTERS and last_type.get(m[1]) == "u8":
                chars.add(value(args[-1]))
                path = re.search(rf"({WORD})::$", b[: m.start()])
                handed.add(path[1] if path else f.crate)
        if chars & {48, 57, 58} or (chars - {35, 48, 57, 58} and not (chars <= {9, 32, 35} and any((id(f), n) in seeds for n, _ in f.params)) and not (chars == {32} and handed == {f.crate})) or chars == {35} and re.search(rf"{WORD}\[[^\]]*\]\s*[!=]=\s*35\b", b):
            add(4, "print", f, "characters " + ", ".join(map(str, sorted(chars))))
            if chars & {48, 57, 58}:
                digits.add((f.crate, f.name))
        elif re.search(r"[/%]\s*10\b(?!\d)", b) and "len()" not in b:
            add(4, "print", f, "digits")
            digits.add((f.crate, f.name))
        for m in re.finditer(r"\bif ([^{}]+?) (<=|<|>|>=|==) ([^{}]+?) \{ ([^{};]+?) \} else \{ ([^{};]+?) \}", b):
            x, _, y, p, q = (s.strip() for s in m.groups())
            if {p, q} == {x, y} or ({p, q} & {"0"} and ({p, q} & {f"{y} - {x}", f"{x} - {y}", f"{x} - 1"})):
                add(4, "least", f, m[0])
                break
        else:
            m = re.search(rf"\bif ({WORD}) < ({WORD}) \{{ return ({INT}); \}} \(?\1 - \2\b|\bif ({WORD}) < ({INT}) \{{ return 0; \}} \(?\4 - \5\b", b)
            n = re.search(rf"\bif ({WORD}) < \w+::MAX \{{ return \1 \+ 1; \}} \1$|\bif .* <= \w+::MAX - .* \{{ (.*) \}}|if .* <= \(?\w+::MAX", b)
            if m or n:
                add(4, "least", f, (m or n)[0])
        ps = {n for n, t in f.params if t in NUMBERS}
        given = set(results(f.body))
        if f.result in NUMBERS and len(given & ps) > 1 and given <= ps and re.search(r"<|>", f.body) and not any(p[0] == 4 and p[1] == "least" and p[4] == f.name and p[2] == f.crate for p in places):
            add(4, "least", f, "one of its parameters")
        if any(p[:3] == (4, "least", f.crate) and p[4] == f.name and ("MAX" not in p[5] and " - " not in p[5]) for p in places):
            choosing.add((f.crate, f.name))
        bools = [n for n, t in f.params if t == "bool"]
        if f.result == "bool" and len(bools) == len(f.params) > 1:
            add(4, "logic", f, b)

    for f in bodied:
        named = {(path[:-2] or f.crate, name) for name, path, _ in calls(f)} - {(f.crate, f.name)}
        if named & digits and not any(p[:2] == (4, "print") and (p[2], p[4]) == (f.crate, f.name) for p in places):
            add(4, "print", f, "by " + ", ".join(sorted(n for _, n in named & digits)))
        for _, _, inner in loops(f.body):
            m = re.search(rf"\b({WORD}) = ({WORD})\([^;]*\b\1\b[^;]*\);", squeeze(inner))
            if m and (f.crate, m[2]) in choosing:
                add(4, "least", f, f"by {m[2]}, one by one")
                break

    # ---- point 5
    own_words = set()
    for folder, _, names in os.walk(os.path.join(root, "crates")):
        if f"{os.sep}specs" in folder:
            for n in names:
                if n.endswith(".antt"):
                    with open(os.path.join(folder, n), encoding="utf-8") as h:
                        own_words |= set(re.findall(r"(?m)^\s*(?:(?:abbrev|opaque|unfoldable|pub|record|data)\s+)*([A-Z][\w']*)\b", h.read()))
    conj, heads = collections.defaultdict(list), collections.defaultdict(list)
    for f in functions:
        for word, c in f.clauses:
            for p in conjuncts(c):
                names = sorted((n for n, _ in f.params), key=len, reverse=True)
                q = p
                for n in names:
                    q = re.sub(rf"(?<![\w.]){re.escape(n)}(?![\w'])", "_", q)
                m = re.match(r"([A-Z]\w*) ", q)
                if (word == "requires" or not re.match(r"result\b", q)) and not (m and m[1] not in own_words):
                    conj[q].append(f)
                m = re.match(rf"([A-Z]\w*) ", q)
                if m and m[1] in own_words:
                    heads[m[1]].append(f)
                m = re.match(r"([^≡]{6,}?)\s*≡\s*\(?([^\s()]+)", q)
                if m and re.search(r"(?<!\w)_(?![\w'])", m[1]) and m[1].count("(") == m[1].count(")") and word == "ensures" and " " in m[1].strip():
                    heads[m[1].strip() + " ≡ .."].append(f)
    inside = collections.defaultdict(list)
    for q, fs in conj.items():
        if len({id(f) for f in fs}) > 2 and re.search(r"(?<!\w)_(?![\w'])", q):
            for f in {id(f): f for f in fs}.values():
                inside[id(f)].append(q)
    for f in functions:
        if inside[id(f)]:
            add(5, "clause", f, "; ".join(dict.fromkeys(inside[id(f)])))
    inside = collections.defaultdict(list)
    for q, fs in heads.items():
        if len({id(f) for f in fs}) > 2:
            for f in {id(f): f for f in fs}.values():
                inside[id(f)].append(q)
    for f in functions:
        if inside[id(f)]:
            add(5, "shape", f, "; ".join(dict.fromkeys(inside[id(f)])))
    plain = lambda t: t in NUMBERS or t == "bool"  # noqa: E731
    by_name, by_type, by_pair = (collections.defaultdict(set) for _ in range(3))
    for f in functions:
        ps = [p for p in f.params if p[0] != "self"]
        for i in range(len(ps) - 2):
            run = tuple(ps[i : i + 3])
            by_name[run].add(id(f))
            kinds = tuple(t for _, t in run)
            if sum(not plain(t) for t in kinds) > 1:
                by_type[kinds].add(id(f))
        for i in range(len(ps) - 1):
            (_, a), (_, b) = ps[i], ps[i + 1]
            if is_list(a, types) and (b == "usize" or any(s.name == b and any(t == "usize" for _, t in s.fields) and len(s.fields) < 4 for s in structs)):
                by_pair[ps[i], ps[i + 1]].add(id(f))
    for f in functions:
        ps, covered = [p for p in f.params if p[0] != "self"], set()
        for i in range(len(ps) - 2):
            run = tuple(ps[i : i + 3])
            if len(by_name[run]) > 2 or len(by_type[tuple(t for _, t in run)]) > 2:
                covered.update((i, i + 1, i + 2))
        if covered:
            add(5, "travel", f, ", ".join(ps[i][0] for i in sorted(covered)))
        unpacked = [s.name for s in structs if len(s.fields) > 1 and any(ps[i : i + len(s.fields)] == s.fields for i in range(len(ps)))]
        if unpacked:
            add(5, "unpacked", f, "the fields of " + ", ".join(sorted(set(unpacked))))
        pairs = [f"{ps[i][0]}, {ps[i + 1][0]}" for i in range(len(ps) - 1) if len(by_pair[ps[i], ps[i + 1]]) > 2]
        if pairs:
            add(5, "pair", f, "; ".join(pairs))

    # ---- point 6
    for s in structs:
        arrays = [n for n, t in s.fields if is_list(t, types)]
        counts = [n for n, t in s.fields if t == "usize"]
        if arrays and counts:
            add(6, "length", s, f"{', '.join(arrays)} with {', '.join(counts)}")
        by = collections.defaultdict(list)
        for n, t in s.fields:
            if length_of(t, types):
                by[length_of(t, types)].append(n)
        for size, ns in by.items():
            if len(ns) > 1:
                add(6, "parallel", s, f"{', '.join(ns)} of {size}")
    for f in functions:
        ty = dict(f.params)
        clause = " ".join(c for _, c in f.clauses)
        cuts = {(m[1], squeeze(m[2])) for m in re.finditer(rf"\b({WORD})\[\.\.({WORD})\]", f.body)}
        beside = set()
        for n, t in f.params:
            if is_list(t, types):
                for k, u in f.params:
                    if u == "usize" and ((n, k) in cuts or re.search(rf"\btake {k} {n}\b", clause) or (re.search(rf"\b{k} ≤ length {n}\b", clause) and re.search(rf"\bwhile\s+\w+\s*<\s*{k}\b|\.\.{k}\b", f.body))):
                        beside.add((n, k))
        if beside:
            add(6, "length", f, ", ".join(f"{n} up to {k}" for n, k in sorted(beside)))
        filled = []
        for n, k in sorted(cuts):
            m = re.search(rf"\blet\s+(?:mut\s+)?{n}\s*(?::\s*([^=]*?))?\s*=\s*(\[|(?:{WORD}::)*({WORD})\()", f.body)
            made = m and (m[2] == "[" or any(g.name == m[3] and length_of(g.result, types) for g in functions))
            if made and not any(n == a for a, _ in f.params):
                filled.append(f"{n} up to {k}")
        if filled:
            add(6, "filled", f, ", ".join(filled))
        by = collections.defaultdict(list)
        arrays = list(f.params)
        for m in re.finditer(rf"\blet\s+mut\s+({WORD})\s*(?::\s*([^=]*?))?\s*=\s*(\[)?", f.body):
            arrays.append((m[1], m[2] or (f.body[m.start(3) : closing(f.body, m.start(3))] if m[3] else "")))
        for n, t in arrays:
            size = length_of(t, types)
            if size and not re.fullmatch(INT, size):
                by[size].append(n)
        said = [f"{', '.join(ns)} of {size}" for size, ns in by.items() if len(ns) > 1]
        if said:
            add(6, "parallel", f, "; ".join(said))
        for _, cond, inner in loops(f.body):
            for v in re.findall(rf"\b({WORD})\s*[+-]=\s*1\b", inner):
                looks = re.search(rf"[\[(][^\[\](){{}}]*\b{v}\b", inner)
                place = re.search(rf"\b(?:break|return)\s+{v}\b", inner)
                equal = re.search(rf"\bif\s+[^{{}};]*\[[^\]]*\b{v}\b[^\]]*\]\s*==|\bif\s+[^{{}};]*==\s*{WORD}\[[^\]]*\b{v}\b", inner)
                if looks and f.result and (place or equal and re.search(r"\breturn\b", inner)):
                    add(6, "search", f, squeeze(cond) or "loop")
                    break
            else:
                continue
            break
        if re.search(r"\[\s*usize\s*;", f.result + " ".join(t for _, t in f.params)):
            add(6, "indices", f, "array of places")
        rowed = set()
        for m in re.finditer(rf"\b({WORD})(?:\[[^\[\]]*\])?\[((?:[^\[\]])*)\]", f.body):
            if re.fullmatch(rf"(?:(?:{WORD}::)*[A-Z][A-Z_0-9]*|{INT}|[\s+*])+", m[2]):
                t = types.get(re.sub(r"^&\s*(mut\s+)?", "", ty.get(m[1], "")), ty.get(m[1], ""))
                deep = length_of(ty.get(m[1], ""), types) and "u8" not in t
                if deep and (m[1] in types.values() or re.sub(r"^&\s*(mut\s+)?", "", ty.get(m[1], "")) in types):
                    rowed.add(f"{m[1]}[{squeeze(m[2])}]")
        if rowed:
            add(6, "row", f, ", ".join(sorted(rowed)))
    for s in structs:
        if any(re.search(r"\[\s*usize\s*;", t) for _, t in s.fields):
            add(6, "indices", s, "array of places")

    # ---- point 7
    for f in bodied:
        called = lambda s: set(re.findall(rf"\b((?:{WORD}::)*[a-z]\w*)\s*(?:::<[^>]*>)?\(", s)) - KEYWORDS  # noqa: E731
        for n, t in f.params:
            if t == "bool":
                m = re.search(rf"\bif\s+!?{n}\s*\{{", f.body)
                if m:
                    e = closing(f.body, m.end() - 1)
                    a = called(f.body[m.end() : e])
                    m2 = re.match(r"\s*else\s*\{", f.body[e:])
                    b = called(f.body[e : closing(f.body, e + m2.end() - 1)]) if m2 else called(f.body[e:])
                    if a and b and a != b and f.name != "main":
                        add(7, "switch", f, f"{n}: {', '.join(sorted(a)) or 'nothing'} or {', '.join(sorted(b)) or 'nothing'}")
            elif t in NUMBERS:
                picks = []
                for m in re.finditer(rf"\bif\s+{n}\s*(?:==|<=)\s*({INT}|[A-Z][A-Z_0-9]*)\s*\{{", f.body):
                    picks.append(f.body[m.end() : closing(f.body, m.end() - 1)])
                against = {value(w) for w in re.findall(rf"\bif\s+{n}\s*(?:==|<=)\s*({INT})\s*\{{", f.body)}
                if len(picks) > 1 and not (against and against <= CHARACTERS):
                    add(7, "switch", f, f"{n}: {len(picks)} ways and the rest")
        if re.search(r"\[\s*(?:fn\b|&dyn\b|for<)", f.body + " ".join(t for _, t in f.params)):
            add(7, "table", f, "functions in an array")
    by_name, told = collections.defaultdict(list), set()
    for f in bodied:
        by_name[f.name].append(f)
    for f in bodied:
        for name, path, args in calls(f):
            for g in by_name[name]:
                if len(g.params) == len(args) and (path.startswith(g.crate + "::") or not path and g.crate == f.crate) and not g.name == f.name:
                    told |= {(id(g), p) for a, (p, t) in zip(args, g.params) if t == "bool" and a in ("true", "false")}
    told = handed_on(bodied, told, lambda t: t == "bool")
    for f in bodied:
        ps = [n for n, t in f.params if t == "bool" and (id(f), n) in told]
        if ps:
            add(7, "told", f, ", ".join(ps))
    for c in consts:
        if re.search(r"\[\s*(?:fn\b|&)", c.type):
            add(7, "table", c, c.type)
    return places, groups


def proofs(root):
    """Point 8, by crate: lines of proofs and lemma files, answers, those that are searches alone, those whose text stands three times or more."""
    rows = {}
    top = os.path.join(root, "crates")
    for crate in sorted(os.listdir(top)):
        n, seen = collections.Counter(), collections.Counter()
        for folder, _, names in os.walk(os.path.join(top, crate, "proofs")):
            for f in sorted(names):
                if not f.endswith(".antt"):
                    continue
                with open(os.path.join(folder, f), encoding="utf-8") as h:
                    ls = [l.rstrip() for l in h if l.strip() and not l.lstrip().startswith("--")]
                n["lines"] += len(ls)
                if f == "Answers.antt":
                    n["answer files"] += 1
                    n["answer lines"] += len(ls)
                    blocks = []
                    for l in ls:
                        if re.match(r"(use|pub|unfolding|mod|open)\b", l):
                            blocks.append("")
                        elif l[0] in " \t" and blocks:
                            blocks[-1] += " " + l.strip()
                        else:
                            blocks.append(l)
                    for b in blocks:
                        m = re.match(r"\S+(?:\s+[^=]*?)?\s*=\s*(.+)$", b)
                        if m:
                            n["answers"] += 1
                            seen[m[1]] += 1
                            n["alone"] += bool(re.fullmatch(r"\(?(?:(?:search rules|search|cc|omega arith|omega|arith|simp|eval|refl|trivial)(?:, |\)|$))+", m[1]))
                elif f == "Invariants.antt":
                    n["invariants"] += 1
                else:
                    n["lemma files"] += 1
                    n["lemma lines"] += len(ls)
        n["repeated"] = sum(v for v in seen.values() if v > 2)
        rows[crate] = n
    return rows


ROW = ("lines", "lemma files", "lemma lines", "invariants", "answer files", "answer lines", "answers", "alone", "repeated")


def compact(places):
    """The places by point and kind, then crate: the functions and types, each once."""
    for point in range(1, 8):
        mine = sorted(p for p in places if p[0] == point)
        print(f"\n### Point {point}: {len({p[2:5] for p in mine})} places\n")
        for kind in dict.fromkeys(p[1] for p in mine):
            by = collections.defaultdict(list)
            for p in mine:
                if p[1] == kind:
                    by[p[2] + ("" if p[3].startswith("src/lib.rt") or p[3].startswith("src/main.rt") else " " + p[3].split(":")[0])].append(p[4])
            n = sum(map(len, by.values()))
            print(f"- {kind} ({n}): " + "; ".join(f"{c}: {', '.join(dict.fromkeys(ns))}" for c, ns in by.items()))


def main(argv):
    root = next((a for a in argv if not a.startswith("-") and not a.isdigit()), ".")
    places, groups = count(root)
    if "--twins" in argv:
        for k, (kind, fs) in enumerate(groups):
            print(f"{k + 1} {kind}: " + "  ".join(f"{f.crate}/{f.path}:{f.line} {f.name}" for f in fs))
        return 0
    if "--table" in argv:
        crates = sorted({p[2] for p in places})
        per = collections.defaultdict(set)
        left = collections.defaultdict(set)
        kinds = collections.Counter((p[0], p[1]) for p in places)
        for p in places:
            per[p[0], p[2]].add((p[3], p[4]))
            if not p[6]:
                left[p[0]].add((p[2], p[3], p[4]))
        print("crate | " + " | ".join(map(str, range(1, 8))))
        for c in crates:
            print(f"{c} | " + " | ".join(str(len(per[k, c])) if per[k, c] else "" for k in range(1, 8)))
        print("all | " + " | ".join(str(sum(len(per[k, c]) for c in crates)) for k in range(1, 8)))
        print("not marked as kept | " + " | ".join(str(len(left[k])) for k in range(1, 8)))
        for (point, kind), n in sorted(kinds.items()):
            print(f"{point} {kind}: {n}")
        print("\npoint 8: crate | " + " | ".join(ROW))
        rows = proofs(root)
        for c, n in rows.items():
            if n["lines"]:
                print(f"{c} | " + " | ".join(str(n[k]) for k in ROW))
        print("all | " + " | ".join(str(sum(n[k] for n in rows.values())) for k in ROW))
        return 0
    if "--list" in argv:
        compact(places)
        return 0
    only = int(argv[argv.index("--point") + 1]) if "--point" in argv else 0
    for p in sorted(places):
        if not only or p[0] == only:
            print(f"{p[0]} {p[1]:9} {p[2]} {p[3]} {p[4]}: {p[5]}" + (" [kept]" if p[6] else ""))
    return 0


if __name__ == "__main__":
    sys.exit(main(sys.argv[1:]))
