#!/usr/bin/env python3
"""Spells the repository's own definitions, constructors, fields and lemmas as today's Rattle does: words in snake case, a prime as an apostrophe.

usage: python3 tools/port_names.py      at the top, once, after port.py and before any edit by hand

A name counts where a file declares it or brings it in from one of the crates; names of goals, of the library and of local variables stay. Of a must-fail
edit the texts are turned by the names that the file it edits has. What would fall together is printed, and nothing is written then.
"""

import collections
import os
import re
import sys

WORD = r"[A-Za-z_\u03b1-\u03c9][A-Za-z0-9_'\u2032\u2080-\u2099\u03b1-\u03c9]*(?:-[A-Za-z0-9_'\u2032\u2080-\u2099\u03b1-\u03c9]+)*"
TOKEN = re.compile(WORD)
DECL = re.compile(r"^(?:(?:pub|abbrev|unfoldable|ruleset|data|record)\s+)*(" + WORD + r")(?=\s|$)")
PART = re.compile(r"^\s+(?:pub\s+)?(" + WORD + r"(?:\s+" + WORD + r")*)\s*:")
INNER = re.compile(r"^\s+(?:(?:pub|abbrev|unfoldable)\s+)*(" + WORD + r"(?:\s+" + WORD + r")*)\s+:(?=\s)")
KEYWORDS = {"use", "mod", "pub", "open", "unfolding", "where", "let", "in", "package"}
# a name that would fall together with another, and what it is called instead
OTHER = {n: n.replace("-", "_") + "_lem" for n in ("numbers-do", "out-number", "file-numbers", "snap-calls", "survey-parts", "every-choice", "first-entries", "fits-snap", "no-ring", "both-fit",
    "control-fits", "rows-at", "job-fits", "put-in", "by-phase", "by-service", "job-of", "not-due", "label-fits", "list-fits")}
OTHER["runOn"] = "run_further"
# names that have the spelling already, of which a definition's name becomes one
LEMMAS = {
    "crates/columns/proofs/ColumnLaws.antt": ["read_as"],
    "crates/rows/proofs/OrderLaws.antt": ["left_out", "taken_out"],
    "crates/rows/proofs/order/remove_at/Proof.antt": ["taken_out"],
    "crates/schedule/proofs/Before.antt": ["line_read", "step_line"],
    "crates/well_formed/proofs/WellFormedLaws.antt": ["row_fits"],
}


def snake(name):
    if name in OTHER:
        return OTHER[name]
    out = re.sub(r"(?<=[a-z0-9])([A-Z])", lambda m: "_" + m.group(1).lower(), name) if name[0].islower() else name
    return out.replace("-", "_").replace("\u2032", "'")


def odd(name):
    return snake(name) != name


def files(top):
    for folder, dirs, names in os.walk(os.path.join(top, "crates")):
        dirs[:] = sorted(d for d in dirs if d != "out")
        for n in sorted(names):
            if n.endswith((".antt", ".rt", ".edit")):
                yield os.path.join(folder, n)


def in_function(path):
    """Whether the file is the proof of one function."""
    parts = path.split("/")
    return "proofs" in parts and len(parts) - parts.index("proofs") > 2


def declared(text):
    """The names of definitions and lemmas, at the left margin and in modules, and those of fields and constructors."""
    top, parts, block = set(), set(), None
    for line in text.splitlines():
        m = INNER.match(line)
        if m and not (block and PART.match(line)):
            top |= set(m.group(1).split())
        m = DECL.match(line)
        if m:
            block = None
            if m.group(1) in KEYWORDS or line.startswith(("use ", "pub use ", "mod ", "pub mod ", "open ")):
                continue
            top.add(m.group(1))
            if re.match(r"^(?:pub\s+|abbrev\s+|unfoldable\s+)*(?:record|data)\s", line):
                block = True
            continue
        if block:
            m = PART.match(line)
            if m:
                parts |= set(m.group(1).split())
    return top, parts


def rename_contracts(top):
    """Rattle makes a module specs.contracts of its own: the files of that name become Clauses."""
    for p in list(files(top)):
        t = open(p, encoding="utf-8").read()
        u = re.sub(r"(specs\.)Contracts(?![\w'])", r"\1Clauses", t)
        u = re.sub(r"(specs/)Contracts(\.antt)", r"\1Clauses\2", u)
        if p.endswith("specs/Lib.antt"):
            u = re.sub(r"^((?:pub )?mod )Contracts$", r"\1Clauses", u, flags=re.M)
        if u != t:
            with open(p, "w", encoding="utf-8") as f:
                f.write(u)
        if p.endswith("specs/Contracts.antt"):
            os.rename(p, p[: -len("Contracts.antt")] + "Clauses.antt")


def main(top):
    rename_contracts(top)
    texts = {p: open(p, encoding="utf-8").read() for p in files(top)}
    for p, names in LEMMAS.items():
        p = os.path.join(top, p)
        for n in names:
            if n + "_lem" in texts[p]:
                continue
            texts[p] = re.sub(r"(?<![\w.'-])" + n + r"(?![\w'-])", n + "_lem", texts[p])
    crates = set(os.listdir(os.path.join(top, "crates")))
    module = {}
    parts = set()
    for p, t in texts.items():
        if not p.endswith(".antt"):
            continue
        names, more = declared(t)
        parts |= {n for n in more if odd(n)}
        rel = os.path.relpath(p, os.path.join(top, "crates"))[: -len(".antt")].split("/")
        module["Rattle." + ".".join(rel)] = names | more
    aliased = re.compile(r"^use\s+(Rattle\.\w+\.[\w.]+?)\s+as\s+(\w+)", re.M)
    bring = re.compile(r"use\s+(Rattle\.(\w+)\.[\w.+'-]+?)(?:\.\{([^}]*)\}|\s+as\s+(\w+))", re.S)

    def scope(p, t):
        own = set()
        if p.endswith(".antt") and not in_function(p):
            a, b = declared(t)
            own |= a | b
        for m in bring.finditer(t):
            if m.group(2) in crates and m.group(3):
                if "'" in m.group(1) or m.group(1).rsplit(".", 1)[-1] in ("Tie", "Statement"):
                    continue
                for w in m.group(3).split(","):
                    own.add(w.split(" as ")[0].strip())
        return own

    bad = 0
    new = {}
    for p, t in texts.items():
        if p.endswith(".edit"):
            continue
        mine = {n for n in scope(p, t) if odd(n)}
        here = collections.Counter(TOKEN.findall(strip(p, t)))
        plain = {m.group(1) for m in re.finditer(r"(?<![.\w'-])(" + WORD + ")", strip(p, t))}
        for n in sorted(mine):
            if snake(n) in plain and not p.endswith(".rt"):
                print(f"{p}: {n} and {snake(n)}")
                bad += 1
        by = collections.defaultdict(list)
        for n in mine:
            by[snake(n)].append(n)
        for k, v in by.items():
            if len(v) > 1:
                print(f"{p}: {v} fall together")
                bad += 1
        for m in aliased.finditer(t):
            for n in module.get(m.group(1), ()):
                if odd(n):
                    t = re.sub(r"(?<![\w.'-])" + m.group(2) + r"\." + re.escape(n) + r"(?![\w'-])", m.group(2) + "." + snake(n), t)
        new[p] = turn(t, mine, parts, p)
    for p, t in texts.items():
        if p.endswith(".edit"):
            crate = os.path.dirname(os.path.dirname(p))
            out, mine = [], set()
            for line in t.split("\n"):
                if line.startswith("file: "):
                    f = os.path.join(crate, line[6:])
                    mine = {n for n in scope(f, texts.get(f, "")) if odd(n)}
                elif line.startswith(("old: ", "new: ")):
                    line = line[:5] + turn(line[5:], mine, parts, p)
                out.append(line)
            new[p] = "\n".join(out)
    if bad and "--force" not in sys.argv:
        print(f"{bad} places: nothing was written")
        return 1
    changed = 0
    for p, t in new.items():
        if t != open(p, encoding="utf-8").read():
            changed += 1
            with open(p, "w", encoding="utf-8") as f:
                f.write(t)
    print(f"{changed} files")
    return 0


def strip(p, t):
    return re.sub(r"--.*|//.*", "", t)


def turn(t, mine, parts, p):
    rust = p.endswith(".rt")

    def word(m):
        w = m.group(0)
        before = t[m.start() - 1] if m.start() else " "
        if before == "." and w in parts:
            return snake(w)
        if w in mine:
            if rust and "-" in w and not line_is_clause(t, m.start()):
                return w
            return snake(w)
        if w in parts and re.match(r"\s+=(?!=)", t[m.end() : m.end() + 4]) and not rust:
            return snake(w)
        if w in parts and rust and before == ".":
            return snake(w)
        return w.replace("\u2032", "'")

    return TOKEN.sub(word, t)


def line_is_clause(t, at):
    start = t.rfind("\n", 0, at) + 1
    return not t[start:at].lstrip().startswith("//")


if __name__ == "__main__":
    raise SystemExit(main(sys.argv[1] if len(sys.argv) > 1 and not sys.argv[1].startswith("-") else "."))
