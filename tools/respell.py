#!/usr/bin/env python3
"""Brings the repository's own names in specs/ and proofs/ to the spelling of today's Rattle: definitions, lemmas, fields and
constructors of antt in snake case, facts in camel case, a dash only between two names.

usage: python3 tools/respell.py [--table]     at the top of the repository, once, after the kit's own script for ports

Rust names, exported names, strings, inputs and outputs stay as they are. --table prints the table and changes nothing.
"""
import collections
import os
import re
import sys

ROOT = "crates"
# names that would fall together with another, and what stands for them
BY_HAND = {}
# a field that would have the name of a definition in its own file
LEM = {"with-room": "with_room_lem", "is-shown": "is_shown_lem", "room_after": "room_after_lem"}
STOP = r"\s(){}.;,@\"«»"
WORD = re.compile(rf"[^{STOP}]+")
DECLARED = re.compile(r"^( *)((?:abbrev |unfoldable |pub )*)(record |data )?([^\s:(){}.;,]+)(?= *[:({]|$)")


def files(*ends):
    for folder, dirs, names in os.walk(ROOT):
        dirs[:] = sorted(d for d in dirs if d != "out")
        for f in sorted(names):
            if f.endswith(ends):
                yield os.path.join(folder, f)


def read(path):
    with open(path, encoding="utf-8") as f:
        return f.read()


def snake(name):
    name = re.sub(r"([a-z0-9])([A-Z])", r"\1_\2", name)
    return re.sub(r"([A-Z])([A-Z][a-z])", r"\1_\2", name).lower()


def camel(name):
    return "".join(p[:1].upper() + p[1:] for p in re.split(r"[-_]", name))


def declared():
    """Each name that a file of specs/ or proofs/ declares: 'definition', 'fact' or 'lemma'."""
    found = {}
    for path in files(".antt"):
        base = os.path.basename(path)
        if base in ("Proof.antt", "Lib.antt"):
            continue
        lines = read(path).split("\n")
        block = None
        for n, line in enumerate(lines):
            if line.startswith("module "):
                block = None
            if line.startswith(("use ", "--", "mod ", "pub mod ", "module ", "unfolding ", "open ")):
                continue
            m = DECLARED.match(line)
            if not m:
                if line and not line[0].isspace():
                    block = None
                continue
            if m[4] in ("where", "let", "in", "elim", "rw"):
                continue
            indent, marks, kind, name = m.groups()
            rest = line[m.end():]
            if not indent:
                block = kind and kind.strip()
                if kind:
                    found[name] = "type"
                    continue
                if not rest.lstrip().startswith(":") and not re.match(r" *[({].*:", rest):
                    continue
                signature = rest
                for more in lines[n + 1:]:
                    if not more.startswith(" "):
                        break
                    signature += more
                if "=" in signature.split("--")[0] and ":" not in signature:
                    continue
                fact = re.search(r"(→|:) *Type( 0)? *$", signature.split("--")[0].rstrip()) is not None
                if fact:
                    found[name] = "fact"
                elif "abbrev" in marks or "unfoldable" in marks:
                    found[name] = "definition"
                else:
                    found.setdefault(name, "lemma")
            elif rest.lstrip().startswith(":") and not rest.lstrip().startswith(":="):
                if block:
                    found[name] = "field" if found.get(name, "lemma") == "lemma" else found[name]
                else:
                    found.setdefault(name, "lemma")
    return found


def table():
    found = declared()
    simple = {}
    for name, kind in found.items():
        if kind == "type":
            continue
        if kind == "fact" and name[0].islower():
            simple[name] = camel(name)
        elif kind in ("definition", "field"):
            new = snake(name).replace("-", "_") if re.search(r"[a-z][A-Z]|-", name) and not name[0].isupper() else name
            simple[name] = new
    kinds = {n for n, k in found.items() if k in ("definition", "fact", "type", "field")}
    words = {simple.get(n, n) for n in kinds if found[n] != "field" and len(n) > 2} | STD
    rows = {}
    for name, kind in found.items():
        if kind == "type":
            continue
        if kind != "lemma":
            new = simple.get(name, name)
        else:
            parts = [simple.get(p, p if p[:1].isupper() else snake(p)) for p in name.split("-")]
            new = parts[0]
            last = parts[0]
            for p in parts[1:]:
                if last in words and p in words and p not in PLAIN:
                    new, last = new + "-" + p, p
                else:
                    new, last = new + "_" + p, last + "_" + p
        new = BY_HAND.get(name, new)
        if new != name:
            rows[name] = new
    # a lemma that would have a definition's name gets _lem
    defined = {rows.get(n, n) for n in kinds}
    for name, kind in found.items():
        if kind == "lemma" and rows.get(name, name) in defined and name not in kinds:
            rows[name] = rows.get(name, name) + "_lem"
    for name, new in LEM.items():
        rows[name] = new
    # another name that a file gives to what it imports
    for path in files(".antt", ".rt"):
        for old, other in re.findall(rf"([^{STOP}]+) as ([^{STOP}]+)", "\n".join(l for l in read(path).split("\n") if re.match(r"(ghost |pub )?use ", l))):
            if re.search(r"[a-z][A-Z]|-", other) and other not in found and other[:1].islower():
                found[other] = "alias"
                rows[other] = snake(other).replace("-", "_")
    return found, rows


def same_file(rows):
    """Names that a file would no longer tell apart."""
    for path in files(".antt", ".rt"):
        mark = "//" if path.endswith(".rt") else "--"
        text = "\n".join(l.split(mark)[0] for l in read(path).split("\n"))
        seen = collections.defaultdict(set)
        for w in set(WORD.findall(text)):
            seen[rows.get(w, w)].add(w)
        for new, olds in sorted(seen.items()):
            if len(olds) > 1:
                yield path, new, sorted(olds)


# words of the library that a lemma's name may join by a dash
STD = set("length take drop append map sum reverse replicate filter set get_or slice_index cond not min max eqb ltb leb".split())
# words of a lemma's name that say how, and are no names there
PLAIN = set("is as at by of in to on no none one all some more less first last next rest left right same whole start end within".split())


def turn(text, rows):
    return WORD.sub(lambda m: rows.get(m[0], m[0]), text)


SPAN = re.compile(r"(`+)(?:[^`\n]|\n(?!\s*\n))*?\1")


def turn_comment(text, rows, dashed):
    """In prose a name with a capital inside turns wherever it stands, one with a dash only in a code span."""
    bare = {a: b for a, b in rows.items() if not dashed(a)}
    text = SPAN.sub(lambda m: turn_prose(m[0], rows), text)
    return turn_prose(text, bare)


def turn_prose(text, rows):
    return re.sub(r"[A-Za-z_][\w'-]*", lambda m: rows.get(m[0], m[0]), text)


def main():
    found, rows = table()
    if "--table" in sys.argv:
        for a, b in sorted(rows.items()):
            print(f"{a}\t{b}\t{found[a]}")
        for path, new, olds in same_file(rows):
            print("look:", path, new, olds)
        return
    dashed = lambda a: re.search(r"[a-z][A-Z]", a) is None
    # a name that was in snake case before may be Rust's too: it turns in the file that declares it and where it is imported from there
    plain = {a for a in rows if not re.search(r"[a-z][A-Z]|-", a)}
    where = {}
    for a in plain:
        says = re.compile(rf"^ *(?:abbrev |unfoldable |pub )*{re.escape(a)} :", re.M)
        homes = [p for p in files(".antt") if says.search(read(p))]
        modules = [os.path.basename(p)[:-5] for p in homes]
        where[a] = set(homes) | {p for p in files(".antt") for l in read(p).split("\n") if l.startswith("use ") and re.search(rf"[{{ ,]{re.escape(a)}[}},]", l) and any(f".proofs.{m}." in l for m in modules)}
    whole = rows
    for path in files(".antt", ".rt", ".edit"):
        rows = {a: b for a, b in whole.items() if a not in plain or path in where[a]}
        old = read(path)
        parts = []
        mark = "//" if path.endswith(".rt") else "--"
        for line in old.split("\n"):
            if path.endswith(".edit"):
                parts.append(turn(line, rows))
                continue
            code, sep, comment = line.partition(mark)
            if sep and (code.strip() == "" or mark == "//" or code.endswith(" ")):
                parts.append(turn(code, rows) + sep + turn_comment(comment, rows, dashed))
            else:
                parts.append(turn(line, rows))
        new = "\n".join(parts)
        if new != old:
            with open(path, "w", encoding="utf-8") as f:
                f.write(new)
    rows = {a: b for a, b in whole.items() if a not in plain}
    pages = ["README.md", "CONTRIBUTING.md"]
    pages += [os.path.join(d, f) for d in ("docs", "docs/requests") for f in sorted(os.listdir(d)) if f.endswith(".md")]
    for path in pages:
        old = read(path)
        new = turn_comment(old, rows, dashed)
        if new != old:
            with open(path, "w", encoding="utf-8") as f:
                f.write(new)


if __name__ == "__main__":
    main()
