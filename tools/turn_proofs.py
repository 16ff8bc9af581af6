#!/usr/bin/env python3
"""Turns each proofs/**/Proof.antt of a crate that closes a generated statement into Invariants.antt and Answers.antt.

usage: python3 tools/turn_proofs.py CRATE NAMES.json [FUNCTION..]

NAMES.json is what `rt check --generated DIR --old-names` wrote of the crate. What could not be turned is said on a line 'left:'.
"""
import glob
import json
import os
import re
import sys

norm = lambda s: re.sub(r"_lem$", "", s).replace("_", "-").lower()
DROPPED = ("shape_of-", "enum_told-", "enum_known-", "known_told-", "struct_known-", "slice_aggregate-")
PATH = re.compile(r"(?<![\w.'-])c(?![\w'-])((?:\.before)*)((?:\.[A-Za-z0-9_'-]+)*)")


class Function:
    def __init__(self, data):
        self.data = data
        self.place = {p[0]: i for i, p in enumerate(data["places"])}
        self.needs = {}
        for i, (old, new) in enumerate(data["needs"]):
            self.needs.setdefault(norm(old), (new, data["asked_at"][i][0], old))

    def need(self, name):
        x = norm(name)
        for y in (re.sub(r"^overflow-", "", x), re.sub(r"^slice-bounds-", "part-", x), x):
            if y in self.needs:
                return self.needs[y]
        return None

    def up(self, at, n):
        for _ in range(n):
            at = self.data["places"][self.place[at]][1]
            if at is None:
                return None
        return at


def clause(fields, rest):
    """The path of nested pairs, as names."""
    if not fields or len(fields) < 2:
        return rest
    k, n = 0, len(fields)
    while k < n - 1 and k < len(rest) and rest[k] == "1":
        k += 1
    if k == n - 1:
        return [fields[k]] + rest[k:]
    if k < len(rest) and rest[k] == "0":
        return [fields[k]] + rest[k + 1:]
    return None


class Turn:
    def __init__(self, f, at, left):
        self.f, self.at, self.left = f, at, left

    def path(self, m):
        n = m[1].count(".before")
        parts = [p for p in m[2].split(".") if p]
        if not parts:
            self.left.append(f"bare context {m[0]}")
            return m[0]
        field, rest = parts[0], parts[1:]
        data = self.f.data
        at = self.f.up(self.at, n)
        plain = field.replace("-", "_")
        if plain == "well_formed":
            self.left.append(f"well-formed {m[0]}")
            return m[0]
        if plain in ("args", "ranges", "lifetimes"):
            if rest:
                rest = [rest[0].replace("-", "_")] + rest[1:]
            return ".".join(["c", plain] + rest)
        if plain == "requires":
            pre = data["pre"]["fields"] if data["pre"] else None
            got = clause(pre, rest)
            if got is None:
                self.left.append(f"requires {m[0]}")
                got = rest
            return ".".join(["c", "requires"] + got)
        # the step that led to this place, or one above it
        place = at
        while place is not None and norm(data["places"][self.f.place[place]][2][0]) != norm(field):
            place = data["places"][self.f.place[place]][1]
        if place is None:
            place, found = self.at, None
            while place is not None:
                if norm(data["places"][self.f.place[place]][2][0]) == norm(field):
                    found = place
                    break
                place = data["places"][self.f.place[place]][1]
            if found is None:
                self.left.append(f"step {m[0]} at {self.at}")
                return m[0]
            place = found
        i = self.f.place[place]
        old, new = data["places"][i][2]
        arm = data["arms"][i]
        if arm:
            best = None
            for to, step, way in arm[2]:
                if norm(step) == norm(field) and rest[:len(way)] == way and not to.endswith("-own"):
                    if best is None or len(way) > len(best[1]):
                        best = (to, way)
            if best:
                return ".".join(["c", arm[0], best[0]] + rest[len(best[1]):])
            self.left.append(f"arm {m[0]} {arm[0]}")
            return m[0]
        if rest and rest[0] == "ensures" and data["clauses"][i]:
            got = clause(data["clauses"][i]["fields"], rest[1:])
            if got is None:
                self.left.append(f"ensures {m[0]}")
            else:
                rest = ["ensures"] + got
        for row in data["places"][i][4] or []:
            if rest and rest[0] == row[0]:
                rest = [row[1]] + rest[1:]
                break
        if rest and rest[0] == "auto":
            self.left.append(f"auto {m[0]}")
        return ".".join(["c", new] + rest)

    def body(self, text):
        # a part of the context that a let names
        while True:
            m = re.search(r"\blet ([a-z]\w*) = c((?:\.before)+) in\s*", text)
            if not m:
                break
            text = text[:m.start()] + re.sub(rf"(?<![\w.'-]){m[1]}(?=[.])", lambda _: "c" + m[2], text[m.end():])
        return PATH.sub(self.path, text)


def level(text):
    """Each index of text with the depth of brackets before it."""
    depth = 0
    for i, ch in enumerate(text):
        if ch in ")]}":
            depth -= 1
        yield i, ch, depth
        if ch in "([{":
            depth += 1


def split_let(text):
    """The leading lets, and what follows."""
    heads = []
    text = text.strip()
    while text.startswith("let "):
        at, open_lets, k = None, 0, 0
        for m in re.finditer(r"(?<![\w.'-])(?:let|in)(?![\w.'-])|[(\[{]|[)\]}]", text):
            if m[0] in "([{":
                k += 1
            elif m[0] in ")]}":
                k -= 1
            elif k == 0:
                open_lets += 1 if m[0] == "let" else -1
                if open_lets == 0:
                    at = m.end()
                    break
        if at is None:
            break
        heads.append(text[:at])
        text = text[at:].strip()
    return heads, text


def pair(text):
    """(first, rest) of a pair that is the whole text, or None."""
    text = text.strip()
    if not text.startswith("("):
        return None
    comma = None
    for i, ch, depth in level(text):
        if depth == 1 and ch == "," and comma is None:
            comma = i
        if depth == 0 and ch == ")" and i != len(text) - 1:
            return None
    if comma is None:
        return None
    first, rest = text[1:comma], text[comma + 1:-1].strip().rstrip(",")
    return first.strip(), rest.strip()


def clauses_of(body, names):
    heads, text = split_let(body)
    parts = []
    for k in range(len(names) - 1):
        got = pair(text if k == 0 or text.strip().startswith("(") else "(" + text + ")")
        if got is None:
            return None
        parts.append(got[0])
        text = got[1]
    parts.append(text)
    inner = "; ".join(f"{n} = {' '.join(p.split())}" for n, p in zip(names, parts))
    return " ".join(heads + ["record { " + inner + " }"])


def blocks(text):
    """The top-level declarations: name, comment lines above, text."""
    out, comment, cur = [], [], None
    for line in text.split("\n"):
        if line.startswith("use "):
            cur = None
            out.append(("use", [], [line]))
        elif line.startswith("--"):
            cur = None
            comment.append(line)
        elif line.strip() == "":
            if cur:
                cur[2].append("")
        elif not line[0].isspace():
            m = re.match(r"(?:abbrev |unfoldable |pub )*([^\s:]+)", line)
            if cur and cur[0] == m[1] or (cur and line.startswith("unfolding ")):
                cur[2].append(line)
            else:
                cur = (m[1], comment, [line])
                comment = []
                out.append(cur)
        elif cur:
            cur[2].append(line)
    return out, comment


def used(uses, text, skip):
    kept = []
    words = set(re.findall(r"[^\s(){}.;,@\"]+", text))
    words |= set(re.findall(r"[A-Za-z_][\w'-]*", text))
    for line in uses:
        m = re.match(r"use (\S+?)\.\{(.*)\}\s*$", line)
        if any(s in line for s in skip):
            continue
        if not m:
            kept.append(line)
            continue
        names = []
        for it in m[2].split(","):
            it = it.strip()
            name = it.split(" as ")[-1]
            bare = name.replace("◌", "")
            if name in words or (bare != name and bare in words) or (bare != name and bare in text):
                names.append(it)
        if names:
            kept.append(f"use {m[1]}.{{{', '.join(names)}}}")
    return kept


def turn(crate, path, file, data, said):
    text = open(file, encoding="utf-8").read()
    f = Function(data)
    decls, _ = blocks(text)
    uses = [d[2][0] for d in decls if d[0] == "use"]
    head = []
    for line in text.split("\n"):
        if line.startswith("--"):
            head.append(line)
        else:
            break
    answers, invariants, helpers = [], [], []
    for name, comment, lines in decls:
        if name == "use":
            continue
        block = "\n".join(lines).rstrip()
        m = re.match(r"(?:abbrev |pub |unfoldable )*[^\s:]+ : tie\.([^\s]+)", block)
        if re.match(r"(?:pub )?[^\s:]+ : \{M : Type 1\} → statement M", block):
            inline = re.sub(r"^.*?tie\.spec", "", block, flags=re.S).strip()
            inline = inline[:-1] if inline.endswith(")") else inline
            args, cur = [], ""
            for i, ch, depth in level(inline):
                if depth == 0 and ch.isspace():
                    if cur:
                        args.append(cur)
                    cur = ""
                else:
                    cur += ch
            args += [cur] if cur else []
            args = [a for a in args if not a.startswith(("invariant-", "decreases-", "invariant_", "decreases_"))]
            if len(args) != len(data["needs"]):
                said.append(f"{len(args)} needs were given for {len(data['needs'])}: {[a for a in args if a[0] == '(']}")
                continue
            for (old, new), at, it in zip(data["needs"], data["asked_at"], args):
                g = re.fullmatch(r"\(\s*λ c( κs)?\.\s*(.*)\)", it, re.S)
                if not g or re.fullmatch(r"(search rules|omega arith)", g[2].strip()) or new.startswith(DROPPED):
                    continue
                left = []
                body = Turn(f, at[0], left).body(g[2])
                if left:
                    said.append(f"inline {new}: {left}")
                else:
                    answers.append(f"pub {new} : goal.{new}\n{new} c = {body}")
            continue
        if not m:
            helpers.append(block)
            if "tie." in block:
                said.append(f"helper {name} speaks of tie")
            continue
        what = m[1]
        if what.startswith(("invariant-", "decreases-")):
            kind, loop = what.split("-", 1)
            for k, ((old, new), names) in enumerate(data["loops"]):
                if norm(old) == norm(loop):
                    break
            else:
                said.append(f"loop {what}")
                continue
            changed = data["changed"][k]
            eq = re.search(rf"^{re.escape(name)}((?:\s+[^\s=]+)*)\s*=(?!=)(.*)\Z", block, re.S | re.M)
            params = eq[1].split()
            body = eq[2]
            order = [("l.initial." if changed[j] else "l.") + v for j, v in enumerate(names)] + ["l." + v for j, v in enumerate(names) if changed[j]]
            if len(params) != len(order):
                said.append(f"{what}: {len(params)} parameters for {len(order)}")
            for p, to in zip(params, order):
                if p != "_":
                    body = re.sub(rf"(?<![\w.'₀-]){re.escape(p)}(?![\w'₀-])", to, body)
            new_name = f"{kind}-{new}"
            unf = re.search(r"^unfolding .*$", block, re.M)
            invariants.append("\n".join(comment + [f"abbrev pub {new_name} : goal.{new_name}"] + ([unf[0]] if unf else []) + [f"{new_name} l ={body}"]))
            continue
        if not what.startswith("Need-"):
            said.append(f"tie.{what}")
            continue
        need = f.need(what[5:])
        if need is None:
            if not what.startswith("Need-slice-aggregate"):
                said.append(f"need {what}")
            continue
        new, at, old = need
        eq = re.search(rf"^{re.escape(name)}((?:\s+[^\s=]+)*)\s*=(?!=)(.*)\Z", block, re.S | re.M)
        params = eq[1].split()
        body = eq[2].strip()
        if re.fullmatch(r"\(?(search rules|omega arith)\)?", body) or new.startswith(DROPPED):
            continue
        if params and params[0] != "c":
            body = re.sub(rf"(?<![\w.'-]){re.escape(params[0])}(?=\.)", "c", body)
        left = []
        body = Turn(f, at, left).body(body)
        if left:
            said.append(f"{new}: {left}")
            continue
        asked = data["asked"].get(old) or data["asked"].get(new)
        for key, names in data["asked"].items():
            if norm(key) == norm(old):
                asked = names
        if asked and len(asked) > 1 and not body.lstrip().startswith("search"):
            whole = clauses_of(body, asked)
            if whole is None and len(asked) == 2:
                heads, text = split_let(body)
                whole = " ".join(heads + [f"let both = {text} in record {{ {asked[0]} = both.0; {asked[1]} = both.1 }}"])
            if whole is None:
                said.append(f"{new}: clauses {asked}")
            else:
                body = whole
        unf = re.search(r"^unfolding .*$", block, re.M)
        answers.append("\n".join(comment + [f"pub {new} : goal.{new}"] + ([unf[0]] if unf else []) + [f"{new} c = {body}"]))
    folder = os.path.dirname(file)
    skip = (".Statement.{statement}", ".Tie as tie")
    if invariants:
        body = "\n\n".join(invariants)
        lines = head + used(uses, body, skip) + [f"use Rattle.{crate}.proofs.{path}.Given as goal", "", body, ""]
        open(os.path.join(folder, "Invariants.antt"), "w", encoding="utf-8").write("\n".join(lines))
    if answers or helpers:
        body = "\n\n".join(helpers + answers)
        lines = ([] if invariants else head) + used(uses, body, skip) + [f"use Rattle.{crate}.proofs.{path}.Goals as goal", "", body, ""]
        open(os.path.join(folder, "Answers.antt"), "w", encoding="utf-8").write("\n".join(lines))
    os.remove(file)
    if not os.listdir(folder):
        os.removedirs(folder)
    return len(answers), len(invariants)


def main():
    crate, names, only = sys.argv[1], sys.argv[2], sys.argv[3:]
    data = json.load(open(names, encoding="utf-8"))
    for file in sorted(glob.glob(f"crates/{crate}/proofs/**/Proof.antt", recursive=True)):
        path = os.path.dirname(file)[len(f"crates/{crate}/proofs/"):].replace("/", ".")
        if only and path not in only:
            continue
        key = f"Rattle-{crate}-proofs.{path}.Lts"
        text = open(file, encoding="utf-8").read()
        if key not in data or "tie.close" not in text:
            print(f"left: {path}: a walk by hand")
            continue
        said = []
        a, i = turn(crate, path, file, data[key], said)
        print(f"turned: {path}: {a} answers, {i} invariants")
        for it in said:
            print(f"left: {path}: {it}")


main()
