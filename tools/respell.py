#!/usr/bin/env python3
"""Brings the repository's own definitions and lemmas to Rattle's spelling: words in snake case, and a dash only between two names.

usage: tools/respell.py [--table] [ROOT]

It was run once, as docs/PORT.md says, and is kept so that this can be done again beside.

`maxRows` becomes `max_rows`, `filled-all` becomes `filled_all`, and `count-le` stays, since `count` and `le` are names. It goes by what the
.antt files below crates/ declare, and rewrites .antt files, the clauses, ghost items and comments of .rt files, the edits in must-fail/, and
the code spans of pages. Names of Rust items, strings and what Rattle generates stay. --table prints the table and writes nothing. A second
run changes nothing.
"""
import collections
import glob
import os
import re
import sys

WORD = r"[^\s(){}.;,@\"«»]+"
TOKEN = re.compile(r"--[^\n]*|\"(?:[^\"\\]|\\.)*\"|«[^»]*»|" + WORD)
# The words of std that lemmas join by a dash.
STD = set(
    "length get set sets map filter append take drop zip sum add mul sub div mod pow le lt eq ne min max not suc pred zero nil cons fold "
    "reverse concat mem all any find replicate insert remove swap shr shl one two".split()
)
# Definitions whose names are plain words in a lemma's.
PLAIN = set("not same one two zero first next free then name names text before after part left turned with more all other".split())
HEAD = re.compile(
    r"^ {0,4}((?:(?:abbrev|unfoldable|pub) )*)(" + WORD + r")((?: \([^\n]*?\)| \{[^\n]*?\})*) : ([^\n]*(?:\n[ ]+[^\n]*)*)", re.M
)
TYPE = re.compile(r"^((?:(?:abbrev|unfoldable|pub) )*)(data|record) (" + WORD + r")[^\n]*(?:\n[ ]+[^\n]*)*", re.M)
MEMBER = re.compile(r"\s+(?:pub )?(" + WORD + r"(?: " + WORD + r")*) : ")


def files(root, *endings):
    for top in ("crates",):
        for folder, dirs, names in os.walk(os.path.join(root, top)):
            dirs[:] = sorted(d for d in dirs if d != "out")
            for n in sorted(names):
                if n.endswith(endings):
                    yield os.path.join(folder, n)


def pages(root):
    """The pages that speak of the code as it is; a landing's note keeps the names of its day."""
    for pattern in ("*.md", "docs/*.md", "tests/*.md", "examples/*.md", "bench/*.md"):
        yield from sorted(glob.glob(os.path.join(root, pattern)))


def read(path):
    with open(path, encoding="utf-8", newline="") as f:
        return f.read()


def declared(root):
    """The names that the .antt files declare: definitions and types apart from lemmas. What a Proof file declares stays: most of it is Rattle's."""
    defs, others = set(), set()
    for path in files(root, ".antt"):
        if path.endswith("/Proof.antt"):
            continue
        text = re.sub(r"--[^\n]*", "", read(path))
        for mods, name, _, _ in HEAD.findall(text):
            if name in ("use", "data", "record"):
                continue
            (defs if "abbrev" in mods or "unfoldable" in mods else others).add(name)
        for m in TYPE.finditer(text):
            defs.add(m.group(3))
            members = [MEMBER.match(l) for l in m.group(0).split("\n")[1:]]
            others.update(n for x in members if x for n in x.group(1).split())
    return defs, others


def snake(word):
    if not re.match(r"[a-z]", word):
        return word
    return re.sub(r"(?<=[a-z0-9])([A-Z]+)", lambda m: "_" + m.group(1).lower(), word)


# The kinds of lines of a design sheet: their names would fall together with those of the lines.
KINDS = {f"{k}-line": f"{k}_kind" for k in "design in bound limit".split()}
KINDS_FILES = {"crates/sheet/specs/Kinds.antt", "crates/sheet/specs/LineInverse.antt"}
MORE_KINDS = {"out_line": "out_kind", "end_line": "end_kind"}


def table(root):
    defs, others = declared(root)
    used = [set(re.findall(WORD, re.sub(r"--[^\n]*", "", read(p)))) for p in files(root, ".antt")]
    meet = lambda olds: any(len(olds & u) > 1 for u in used)
    names = {snake(d) for d in defs if "-" not in d} | STD
    rows, taken = {}, collections.defaultdict(set)
    for old in sorted(defs | others):
        parts = [snake(p) for p in old.split("-")]
        joined = len(parts) == 2 and parts[0] in names and parts[1] in names - PLAIN
        new = ("-" if joined else "_").join(parts)
        taken[new].add(old)
    together = {}
    for new, olds in taken.items():
        lemmas = {o for o in olds - defs if "-" in o or "_" in o}
        # A lemma that would have its function's name gets _lem.
        clash = len(olds) > 1 and meet(olds)
        if clash and (len(lemmas) > 1 or len(olds) > 2):
            together[new] = olds
        for old in olds:
            it = KINDS.get(old) or (new + "_lem" if clash and old in lemmas else new)
            if it != old:
                rows[old] = it
    return rows, together


def turn(text, rows, page=False):
    def one(m):
        it = m.group(0)
        if page or it.startswith("--"):
            return re.sub(r"[^\s(){}.;,@\"«»`:?!/]+", lambda w: rows.get(w.group(0), w.group(0)), it)
        # A field behind c or tie is Rattle's.
        if it in rows and re.search(r"(?:^|[\s(])(?:c|tie|goal)(?:\.[^\s(){}]+)?\.$", text[max(0, m.start() - 200) : m.start()]):
            return it
        return rows.get(it, it)

    return TOKEN.sub(one, text)


def main(argv):
    root = next((a for a in argv if not a.startswith("--")), ".")
    rows, together = table(root)
    if "--table" in argv:
        for old, new in sorted(rows.items()):
            print(f"{old}\t{new}")
        for new, olds in sorted(together.items()):
            print(f"together: {new}: {' '.join(sorted(olds))}", file=sys.stderr)
        return 0
    if together:
        sys.exit(f"names fall together: {together}")
    changed = 0
    for path in files(root, ".antt", ".rt", ".edit"):
        text = read(path)
        if path.endswith(".rt"):
            new = turn_code(text, rows)
        elif path.endswith("/Proof.antt"):
            # What a Proof file imports, and no name of a goal or a step.
            asked = {n for items in re.findall(r"^use [^\n{]*\{([^}]*)\}", text, re.M) for n in re.findall(WORD, items)}
            asked |= {n for line in re.findall(r"^use [^\n{]*$", text, re.M) for n in re.findall(WORD, line)[-1:]}
            new = turn(text, {o: n for o, n in rows.items() if o in asked})
        else:
            kinds = os.path.relpath(path, root) in KINDS_FILES
            new = turn(text, {**rows, **MORE_KINDS} if kinds else rows)
        if new != text:
            changed += 1
            with open(path, "w", encoding="utf-8", newline="") as f:
                f.write(new)
    for path in pages(root):
        text = read(path)
        new = re.sub(r"(`+)[^`]*?\1|^( +)\S[^\n]*$", lambda m: turn(m.group(0), rows, True), text, flags=re.M)
        if new != text:
            changed += 1
            with open(path, "w", encoding="utf-8", newline="") as f:
                f.write(new)
    print(f"{len(rows)} names, {changed} files")
    return 0


def turn_code(text, rows):
    """A name with a capital or a dash is no Rust name; strings stay."""
    def one(m):
        it = m.group(0)
        if it.startswith('"'):
            return it
        if it.startswith("//"):
            return re.sub(r"[^\s(){}.;,@\"«»`:?!]+", lambda w: rows.get(w.group(0), w.group(0)), it)
        return rows.get(it, it)

    return re.sub(r"//[^\n]*|b?\"(?:[^\"\\]|\\.)*\"|" + WORD, one, text)


if __name__ == "__main__":
    sys.exit(main(sys.argv[1:]))
