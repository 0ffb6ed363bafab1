#!/usr/bin/env python3
"""Brings the names of this repository's own definitions and lemmas to one spelling.

usage: tools/respell.py            rewrites the files of crates/ in place, by the table tools/respelled.txt
       tools/respell.py --table    writes that table anew from the names that crates/ and each further folder named declare

Words are in snake case, whatever they were: `closeArray` and `items-local` become `close_array` and `items_local`. Types, modules, names that the
toolchain makes (goals, steps), functions of src/ and the library's names are left alone. Where two names would fall together in one file, the lemma gets
`_fact` behind its name.
"""
import collections
import os
import re
import sys

HERE = os.path.dirname(os.path.realpath(__file__))
TABLE = os.path.join(HERE, "respelled.txt")
WORD = r"[^\s(){}\[\],;.:«»\"`|]+"
FIELD_WORDS = ("in_use",)  # also the name of a field, which no lemma stands beside
MADE = ("Answers.antt", "Invariants.antt", "Proof.antt")
KIT = re.compile(r"^\s*(?:ghost )?use (?:Rattle\.(?:std|core|std_alloc|std_collections|io)\b|Prim\b|mathlib\b|lib\b)[^\n{]*\{([^}]*)\}", re.M)
PIECE = re.compile(r'"(?:\\.|[^"\\])*"|--[^\n]*|//[^\n]*|' + WORD + r"|.", re.S)


def sources(root, ends):
    for folder, dirs, files in os.walk(os.path.join(root, "crates")):
        dirs[:] = sorted(d for d in dirs if d != "out")
        for f in sorted(files):
            if f.endswith(ends):
                yield os.path.join(folder, f)


def declarations(path, text):
    """The names that a file of specs/ or proofs/ declares, but for answers to goals."""
    made = os.path.basename(path) in MADE
    for m in re.finditer(r"^(\s*)((?:pub |abbrev |unfoldable |data |record )*)(" + WORD + r")((?:\s*[({][^\n]*?)?)\s*:(?:$|\s)(.*)$", text, re.M):
        name, type_ = m.group(3), m.group(5)
        if made and re.search(r"\b(?:goal|given)\.", type_):
            continue
        yield name


def snake(name):
    return re.sub(r"(?<=[a-z0-9])([A-Z])", lambda m: "_" + m.group(1).lower(), name.replace("-", "_"))


def wants(name):
    return name[0].islower() and re.search(r"[a-z0-9][A-Z]|[^-]-[^-]", name) is not None


def make_table(roots):
    own = set()
    for root in roots:
        for p in sources(root, ".antt"):
            own.update(declarations(p, open(p, encoding="utf-8").read()))
    table = {n: snake(n) for n in own if wants(n)}
    by_new = collections.defaultdict(set)
    for old, new in table.items():
        by_new[new].add(old)
    clash = set()
    for root in roots:
        for p in sources(root, (".antt", ".rt")):
            text = open(p, encoding="utf-8").read()
            words = set(re.findall(WORD, re.sub(r"--[^\n]*|//[^\n]*", "", text)))
            for old in words & table.keys():
                new = table[old]
                if new in words or len(by_new[new] & words) > 1:
                    clash.update(by_new[new] | {old})
    for old in sorted(clash):
        new = table[old]
        rivals = [o for o in by_new[new] if o != old]
        if "-" in old and (rivals or new in own):
            table[old] = new + "_fact"
        elif new in own and new not in FIELD_WORDS:
            table[new] = new + "_fact"
    with open(TABLE, "w", encoding="utf-8") as f:
        f.writelines(f"{old} {table[old]}\n" for old in sorted(table))
    print(f"{len(table)} names, {sum(v.endswith('_fact') for v in table.values())} with _fact")


def respelled(text, table, made, code):
    kept = set()
    for m in KIT.finditer(text):
        kept.update(w for w in re.findall(WORD, m.group(1)))
    if made:
        kept.update(re.findall(r"^(?:pub |abbrev )*(" + WORD + r")\s*:\s*(?:goal|given)\.", text, re.M))
    out, before = [], ""
    for m in PIECE.finditer(text):
        t = m.group(0)
        if t.startswith(("--", "//")) and not t.startswith("-->"):
            t = re.sub("`(" + WORD + ")`", lambda w: "`" + (table.get(w.group(1), w.group(1))) + "`", t)
        elif t in table and t not in kept and (before != "." or t in FIELDS) and ("_" not in t or not code):
            t = table[t]
        out.append(t)
        before = m.group(0)
    return "".join(out)


FIELDS = set()


def main(argv):
    root = os.getcwd()
    if argv[:1] == ["--table"]:
        make_table([root, *argv[1:]])
        return
    with open(TABLE, encoding="utf-8") as f:
        table = dict(line.split() for line in f)
    paths = list(sources(root, (".antt", ".rt")))
    for p in paths:
        text = open(p, encoding="utf-8").read()
        FIELDS.update(m for m in re.findall(r"^\s+(?:pub )?(" + WORD + r")(?:\s*[({].*?)?\s*:(?:$|\s)", text, re.M))
    n = 0
    for p in paths:
        text = open(p, encoding="utf-8").read()
        new = respelled(text, table, os.path.basename(p) in MADE, p.endswith(".rt"))
        if new != text:
            n += 1
            with open(p, "w", encoding="utf-8") as f:
                f.write(new)
    print(f"{n} files respelled")


main(sys.argv[1:])
