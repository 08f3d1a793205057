#!/usr/bin/env python3
"""Brings the names of this repository's definitions and lemmas to snake case, and the crate json to the name json_text.

usage: tools/respell.py        at the top of the repository, once, right after the kit's port.py
       tools/respell.py --list  prints the renamings, and writes nothing

Renamed are, in specs/, proofs/ and the clauses of src/: each name in camel case that begins with a small letter, and each name that a file of specs/ or
proofs/ declares with a dash. Types and modules, names that the checker makes, functions of src/ and strings keep theirs. A lemma that would fall together with a
definition ends in _lem.
"""
import collections
import os
import re
import sys

TOKEN = re.compile(r"[A-Za-z_][A-Za-z0-9_'-]*")
CAMEL = re.compile(r"[a-z][a-z0-9']*[A-Z][A-Za-z0-9']*$")
PATH = re.compile(r"([A-Za-z_][A-Za-z0-9_'-]*)(?:\.[A-Za-z0-9_'+-]+)*\.$")
STRING = re.compile(r"b?\"(?:\\.|[^\"\\\n])*\"")
WORDS = r"(?:(?:abbrev|unfoldable|pub|private) )*"
HEAD = re.compile(r"^" + WORDS + r"(?:(?:data|record|ruleset)\s+)?((?:[^\s:(){}λ,;|=]+\s+)*?[^\s:(){}λ,;|=]+)(?:\s[({].*)?\s*:(?:\s|$)")
# lemmas whose name would fall together with that of a definition get an ending
LEMMA = "_lem"
# names that port.py made of a lemma's, which is now a definition's
LEMMAS = "array_ok each_of in_order member_of no_line not_carried not_null open_by skip_at text_at".split()
DOTTED = {"Decide·guard": "guard_held", "code·Truth": "CodeTruth", "Bool·not": "bool_not"}


def files():
    for folder, dirs, names in os.walk("crates"):
        dirs[:] = sorted(d for d in dirs if d not in ("out", "must-fail"))
        for n in sorted(names):
            if n.endswith((".antt", ".rt")):
                yield os.path.join(folder, n)


def read(path):
    with open(path, encoding="utf-8") as f:
        return f.read()


def declared(text):
    """The names that a file of definitions or lemmas declares: at the left, as a field, as a constructor, or in a mutual block."""
    for line in text.splitlines():
        bare = line.strip()
        if bare.startswith(("--", "use ", "let ", "module ")):
            continue
        m = HEAD.match(bare)
        if m:
            yield from m.group(1).split()


def snake(name):
    return re.sub(r"([A-Z])", lambda m: "_" + m.group(1), name).replace("-", "_").lower()


def renamings(texts):
    new = {}
    for path, text in texts.items():
        proof = path.endswith("Proof.antt")
        if path.endswith(".antt") and not proof:
            for name in declared(text):
                if re.match(r"[a-z][A-Za-z0-9_'-]*$", name) and ("-" in name or CAMEL.match(name)):
                    new[name] = snake(name)
            for name in TOKEN.findall(STRING.sub('""', text)):
                if CAMEL.match(name):
                    new[name] = snake(name)
    for path, now, olds in together(texts, new):
        if path.endswith(".antt") and not path.endswith("Proof.antt"):
            new |= {old: now + LEMMA for old in olds if "-" in old}
    return new | {name: name + LEMMA for name in LEMMAS}


def foreign(text):
    """The names that a file takes from libraries."""
    own = tuple(f"Rattle.{c}." for c in os.listdir("crates"))
    for path, names in re.findall(r"use ([\w.+'-]+)\.\{([^}]*)\}", text):
        if not path.startswith(own):
            yield from re.findall(r"[^\s,]+", names)


def modules_of_others(text):
    """How the paths of libraries begin in a file."""
    own = tuple(f"Rattle.{c}." for c in os.listdir("crates"))
    yield from ("borrow", "denote", "lib", "mathlib", "native", "Prim")
    for path, name in re.findall(r"use ([\w.+'-]+) as ([\w'-]+)", text):
        if not path.startswith(own):
            yield name


def turned(text, new, clauses_only):
    """The text with its names renamed, strings left alone; of a source file only ghost lines, clauses and comments."""
    theirs = set(foreign(text))
    new = {old: now for old, now in new.items() if old not in theirs}
    modules = set(modules_of_others(text))

    def name(m):
        now = new.get(m.group(0), m.group(0))
        path = m.string[m.start() - 1 : m.start()] == "." and PATH.search(m.string[max(0, m.start() - 300) : m.start()])
        if path and (path.group(1) in modules or now.endswith(LEMMA)):
            # behind a dot stands a name of a library, a field or what the checker made, and no lemma
            return m.group(0)
        return now

    def names(part):
        part = TOKEN.sub(name, part)
        for old, now in DOTTED.items():
            part = part.replace(old, now)
        return re.sub(r"\bRattle\.json\.", "Rattle.json_text.", part)

    if clauses_only:
        lines = []
        for line in text.split("\n"):
            bare = line.strip()
            ghost = bare.startswith(("ghost ", "requires", "ensures", "//", "invariant"))
            lines.append(pieces(line, names) if ghost else line)
        return "\n".join(lines)
    return pieces(text, names)


def pieces(text, names):
    out, at = [], 0
    for m in STRING.finditer(text):
        out += [names(text[at : m.start()]), m.group(0)]
        at = m.end()
    return "".join(out + [names(text[at:])])


def together(texts, new):
    """Places where two names of one file would become one."""
    found = []
    for path, text in texts.items():
        seen = collections.defaultdict(set)
        for t in TOKEN.findall(STRING.sub('""', text)):
            if path.endswith(".rt") and t not in new:
                seen[t].add(t)
            else:
                seen[new.get(t, t)].add(t)
        for now, olds in seen.items():
            if len(olds) > 1:
                found.append((path, now, sorted(olds)))
    return found


def main():
    texts = {p: read(p) for p in files()}
    new = renamings(texts)
    if "--list" in sys.argv:
        for old in sorted(new):
            print(old, new[old])
        for it in together(texts, new):
            print("together:", *it)
        return
    for path, text in texts.items():
        now = turned(text, new, path.endswith(".rt"))
        if now != text:
            with open(path, "w", encoding="utf-8") as f:
                f.write(now)
    os.rename("crates/json", "crates/json_text")
    lines = read("crates.txt").split("\n")
    with open("crates.txt", "w", encoding="utf-8") as f:
        f.write("\n".join(l if l.startswith("#") else re.sub(r" (?:io|libc|os)\b", "", re.sub(r"\bjson\b", "json_text", l)) for l in lines))


main()
