#!/usr/bin/env python3
"""Compares docs/ARCHITECTURE.md with crates.txt, and crates.txt with the code: every crate stands in one table of the page,
none before one that it is built on unless the two are in different sections; every crate stands in the page's drawing, and
every name in square brackets there is a crate; docs/PROVING.md has a time for every crate and for nothing else; and crates.txt
lists for each crate, in the order of its lines, the crates that it needs itself and no others. Needed are the crates that its
files import, and those that declare a type which its code reaches: a type in the signature of a function that the code names,
in the fields or in the methods' signatures of a type that it names, and so on from these types."""
import pathlib
import re
import sys

ROOT = pathlib.Path(__file__).resolve().parent.parent
PAGE = "docs/ARCHITECTURE.md"
TIMES = "docs/PROVING.md"
CRATE = re.compile(r"`([a-z0-9_]+)`")
BLOCK = re.compile(r"^(?:pub )?(?:struct|enum|impl(?:<.*?>)?) (\w+)(.*?)(?=^\S|\Z)", re.M | re.S)
TYPE = re.compile(r"(?:\b(\w+)::)?\b([A-Z]\w*)")
LAST_SECTION = "## What is still to come"
TIMES_SECTION = "## How long each crate takes"


def listed():
    """NAME: the names that its line of crates.txt lists"""
    lines = (line.split("#")[0].strip() for line in (ROOT / "crates.txt").read_text().splitlines())
    return {name.split()[0]: rest.split() for name, rest in (line.split(":") for line in lines if line)}


def source(name):
    """the code of a crate, without its comments"""
    return "".join(re.sub("//.*", "", path.read_text()) for path in (ROOT / "crates" / name).rglob("*.rt"))


def imported(name):
    """the crates that the files of a crate name in their imports"""
    found = re.findall(r"\b([a-z0-9_]+)::", source(name)) + re.findall(r"Rattle\.([a-z0-9_]+)\.", source(name))
    for path in (ROOT / "crates" / name).rglob("*.antt"):
        found += re.findall(r"^use Rattle\.([a-z0-9_]+)\.", path.read_text(), re.M)
    return set(found)


def shown(name):
    """each function and type of a crate, as (CRATE, ITEM): such pairs for the types in the function's signature, or in the type's
    fields and its methods' signatures"""
    code = source(name)
    owner = {item: crate for crate, item in re.findall(r"^use (\w+)::(\w+);", code, re.M)}
    parts = re.findall(r"\bfn (\w+)([^{]*)", code)
    for item, block in BLOCK.findall(code):
        fields, *methods = block.split("fn ")
        parts += [(item, fields)] + [(item, method.split("{")[0]) for method in methods]
    types = {(name, item): set() for item, _ in parts}
    for item, part in parts:
        types[name, item] |= {(crate or owner.get(word, name), word) for crate, word in TYPE.findall(part)}
    return types


def reached(name, types):
    """the crates whose functions and types the code of a crate names, and those of the types that are reached from there"""
    seen, more = set(), set(re.findall(r"\b(\w+)::(\w+)", source(name))) & set(types)
    while more:
        seen |= more
        more = {other for item in more for other in types[item] if other in types} - seen
    return {crate for crate, _ in seen}


def tabled(page, crates):
    """the crates of each section's table, in order"""
    sections = []
    for section in page.split(LAST_SECTION)[0].split("\n## ")[1:]:
        rows = [line.split("|")[1] for line in section.splitlines() if line.startswith("| `")]
        sections.append([name for row in rows for name in CRATE.findall(row) if name in crates])
    return sections


def drawn(page):
    """the names in square brackets of the drawing"""
    return {name for group in re.findall(r"\[([a-z0-9_ ]+)\]", page.split("```")[1]) for name in group.split()}


def timed():
    """the names of which the table of times says a number of seconds"""
    section = (ROOT / TIMES).read_text().split(TIMES_SECTION)[1].split("\n## ")[0]
    return re.findall(r"`([a-z0-9_]+)` (?:\d+|–)", section)


def in_tables(page, crates, needs):
    """what is wrong with the tables of the page"""
    sections = tabled(page, crates)
    counts = {name: sum(section.count(name) for section in sections) for name in crates}
    wrong = [f"{name} stands {count} times in the tables of {PAGE}" for name, count in counts.items() if count != 1]
    for section in sections:
        for i, name in enumerate(section):
            wrong += [f"{PAGE} has {name} before {later}, on which it is built" for later in section[i + 1:] if later in needs[name]]
    return wrong


def one_each(names, crates, what):
    """what is wrong with names that are to be the crates"""
    missing = [f"{what} lacks {name}" for name in crates if name not in names]
    return missing + [f"{what} has {name}, which is no crate" for name in sorted(set(names) - set(crates))]


def in_lines(crates, needs):
    """what is wrong with the lines of crates.txt"""
    wrong = []
    for i, name in enumerate(crates):
        right = [other for other in crates if other in needs[name]]
        if [other for other in crates[name] if other in crates] != right:
            wrong.append(f"{name} needs, in this order, {' '.join(right)}: crates.txt lists something else for it")
        wrong += [f"crates.txt has {name} before {later}, which it needs" for later in list(crates)[i + 1:] if later in right]
    return wrong


def main():
    crates = listed()
    types = {item: others for name in crates for item, others in shown(name).items()}
    needs = {name: (imported(name) | reached(name, types)) & set(crates) - {name} for name in crates}
    page = (ROOT / PAGE).read_text()
    wrong = in_lines(crates, needs)
    wrong += in_tables(page, crates, needs)
    wrong += one_each(drawn(page), crates, f"the drawing of {PAGE}")
    wrong += one_each(timed(), crates, f"the table of times of {TIMES}")
    print("\n".join(wrong) or f"{len(crates)} crates, all as {PAGE}, {TIMES} and crates.txt say")
    return 1 if wrong else 0


if __name__ == "__main__":
    sys.exit(main())
