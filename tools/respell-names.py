#!/usr/bin/env python3
"""Respells the definitions and lemmas of this repository in snake case, once, after the toolchain's own script brought the rest to today's spelling.

usage: tools/respell-names.py [--list]     at the top of the repository; --list only prints what each name becomes

A name of specs/ or proofs/ with a dash or a capital inside, as `isName` or `take-rest`, becomes `is_name` or `take_rest`, wherever it stands: in
definitions, laws and proofs, in the clauses and imports of the source, and between backquotes in comments and documents. Types, modules, variants and
names of other libraries stay, and so does whatever stands in a text between quotes. Where a lemma's name would fall together with another name that
stands in one of the same files, the lemma ends in `_lem`.
"""

import collections
import glob
import os
import re
import sys

WORD = r"[A-Za-z_][A-Za-z0-9_'₀-₉]*(?:-[A-Za-z0-9_'₀-₉]+)*"
TOKEN = re.compile(r"(?<![A-Za-z0-9_'₀-₉◌·-])" + WORD + r"(?![-·◌])")
DEFINED = re.compile(r"^\s*(?:(?:pub|abbrev|unfoldable) )*«?(" + WORD + r")»? :(?!=)")
DECLARED = re.compile(r"^\s*(?:(?:pub|abbrev|unfoldable) )*(?:record|data|ruleset|module) «?(" + WORD + ")")
USE = re.compile(r"^use ([^\s{]+?)\.\{([^}]*)\}", re.M)


def is_old(name):
    return "-" in name or re.match(r"^[a-z][a-z0-9]*[A-Z]", name)


def snake(name):
    name = name.replace("-", "_")
    name = re.sub(r"([a-z0-9])([A-Z]+)(?=[A-Z][a-z])", r"\1_\2_", name)
    return re.sub(r"([a-z0-9])([A-Z])", r"\1_\2", name).lower()


def pieces(text, comment):
    """The text as pieces (kind, piece): code, string or comment."""
    pattern = re.compile(r'"(?:[^"\\\n]|\\.)*"|' + re.escape(comment) + r"[^\n]*")
    at = 0
    for m in pattern.finditer(text):
        yield "code", text[at : m.start()]
        yield ("string" if m.group(0).startswith('"') else "comment"), m.group(0)
        at = m.end()
    yield "code", text[at:]


def read(path):
    with open(path, encoding="utf-8") as f:
        return f.read()


def code_of(path):
    return "".join(p for kind, p in pieces(read(path), "--") if kind == "code")


def in_code(text, becomes, here={}):
    """What names become; those of `here` only where they are no module of a path and no field."""

    def one(m):
        if m.group(0) in here and text[m.start() - 1 : m.start()] != "." and text[m.end() : m.end() + 1] != ".":
            return here[m.group(0)]
        return becomes.get(m.group(0), m.group(0))

    return TOKEN.sub(one, text)


def in_comment(text, becomes):
    return re.sub(r"`[^`\n]*`", lambda m: in_code(m.group(0), becomes), text)


def main():
    crates = [line.split(":")[0].split()[0] for line in read("crates.txt").splitlines() if ":" in line]
    files = [p for p in sorted(glob.glob("crates/*/*/**/*.antt", recursive=True)) if "/out/" not in p]
    laws = [p for p in files if os.path.basename(os.path.dirname(p)) in ("specs", "proofs")]
    code = {p: code_of(p) for p in files}
    own = collections.defaultdict(set)
    for p in laws:
        for line in code[p].splitlines():
            m = DECLARED.match(line) or DEFINED.match(line)
            if m:
                own[m.group(1)].add(p)
    outside = set()
    for p in files:
        for m in USE.finditer(code[p]):
            crate = re.match(r"Rattle\.(\w+)\.", m.group(1))
            if not (crate and crate.group(1) in crates) or ".declared." in m.group(1):
                outside |= {n.strip().split(" as ")[0] for n in m.group(2).split(",")}
    tokens = {p: {m.group(0) for m in TOKEN.finditer(code[p])} for p in files}
    local = {n for p in laws for n in tokens[p] if is_old(n)}
    becomes = {n: snake(n) for n in set(own) | local if is_old(n) and n not in outside and snake(n) != n}
    # names that fall together
    at = collections.defaultdict(set)
    for n in set(own) | set(becomes):
        at[becomes.get(n, n)].add(n)
    only_in = {}
    for name, sources in sorted(at.items()):
        if len(sources) > 1 and any(len(sources & tokens[p]) > 1 for p in files):
            dashed = [n for n in sources if "-" in n] or [n for n in sources if n == name]
            for n in dashed[:1]:
                if n in becomes:
                    becomes[n] += "_lem"
                else:
                    modules = {p[len("crates/") : -len(".antt")].replace("/", ".") for p in own[n]}
                    importing = {
                        p for p in files for m in USE.finditer(code[p])
                        if m.group(1)[len("Rattle.") :] in modules and n in [w.strip() for w in m.group(2).split(",")]
                    }
                    only_in[n] = (name + "_lem", own[n] | importing)
    if "--list" in sys.argv:
        for n in sorted(becomes):
            print(n, becomes[n])
        for n, (new, where) in sorted(only_in.items()):
            print(n, new, *sorted(where))
        return
    for p in files:
        here = {n: new for n, (new, where) in only_in.items() if p in where}
        text = "".join(
            in_code(t, becomes, here) if kind == "code" else in_comment(t, becomes) if kind == "comment" else t
            for kind, t in pieces(read(p), "--")
        )
        with open(p, "w", encoding="utf-8") as f:
            f.write(text)
    mixed = {n: t for n, t in becomes.items() if "-" not in n}
    for p in sorted(glob.glob("crates/*/src/**/*.rt", recursive=True)):
        lines = []
        for line in read(p).split("\n"):
            ghost = line.startswith("ghost use ")
            lines.append(
                "".join(
                    in_code(t, becomes if ghost else mixed) if kind == "code" else in_comment(t, becomes) if kind == "comment" else t
                    for kind, t in pieces(line, "//")
                )
            )
        with open(p, "w", encoding="utf-8") as f:
            f.write("\n".join(lines))
    for p in ["README.md", *sorted(glob.glob("docs/*.md")), *sorted(glob.glob("docs/changes/*.md"))]:
        text = read(p)
        with open(p, "w", encoding="utf-8") as f:
            f.write(in_comment(text, {n: t for n, t in becomes.items() if n in own}))


main()
