#!/usr/bin/env python3
"""Compares the first table of docs/READING.md with what the public promises and the demands' theorems cite: starting from
their statements, each definition that is named is looked up in the file that it is imported from, and so is what that
definition names in turn. The files of specs/ that are reached must be those of the table, and the names of the kit's
library that are reached must be those of its row for the kit."""
import pathlib
import re
import sys

ROOT = pathlib.Path(__file__).resolve().parent.parent
EXPORTED = [
    "cellmapper_table",
    "cellmapper_map",
    "cellmapper_cause",
    "cellmapper_check",
    "cellmapper_export",
    "cellmapper_line",
    "cellmapper_pla_table",
    "cellmapper_pla_map",
    "cellmapper_pla_cause",
    "cellmapper_pla_check",
]
OPERATIONS = {
    "design": ["table"],
    "checker": ["check"],
    "mapper": ["map", "cause"],
    "blif": ["export"],
    "locate": ["place_of", "line_at"],
    "pla": ["table", "map", "cause", "check"],
    "cellmapper": EXPORTED,
    "cellmapper_c": EXPORTED,
}
THEOREMS = [
    ("demands", "Demand1Laws", "sheet_demand_1"),
    ("demands", "Demand1Laws", "demand_1"),
    ("demands", "Demand2Laws", "sheet_demand_2"),
    ("demands", "Demand2Laws", "demand_2"),
    ("demands", "ThirdDemand", "sheet_demand_3"),
    ("demands", "ThirdDemand", "demand_3"),
    ("mapper", "OneOutcome", "outcome_one"),
    ("mapper", "OneOutcome", "examined_one"),
    ("mapper", "CauseFunctionLaws", "cause_is_one"),
    ("mapper", "CauseFunctionLaws", "cause_of_one"),
    ("demands", "CauseDemandLaws", "cause_true"),
    ("reports", "StoppedLaws", "table_stopped"),
    ("reports", "StoppedLaws", "map_stopped"),
    ("reports", "StoppedLaws", "check_stopped"),
    ("reports", "StoppedLaws", "export_stopped"),
    ("sheet", "DesignLaws", "design_spelled"),
    ("network", "SheetLaws", "network_spelled"),
    ("blif", "SimulatedLaws", "simulated"),
    ("blif", "ExportDemand", "sheet_export_demand"),
    ("blif", "ExportDemand", "export_demand"),
    ("panel", "ValueLaws", "panel_says"),
    ("panel", "DesignLaws", "panel_refused"),
    ("panel", "QuestionLaws", "question_refuses"),
    ("pla", "SameAnswersLaws", "pair_as_sheet"),
    ("pla", "DemandLaws", "panel_demand_1"),
    ("pla", "DemandLaws", "panel_demand_2"),
    ("pla", "DemandLaws", "panel_demand_3"),
    ("pla", "FunctionLaws", "panel_outcome_one"),
    ("pla", "FunctionLaws", "panel_cause_one"),
    ("blif", "CellNameLaws", "cells-apart"),
    ("blif", "CellNameLaws", "name_no_cell"),
    ("blif", "CellNameLaws", "cell_new"),
    ("blif", "LengthLaws", "text_fits"),
]
# What the page calls the logic's own: lists, pairs, equality, numbers and truth values.
LOGIC = set("ℕ ⊤ ⊥ List [] Bool true false not zero suc refl Option some none Unit absurd".split())
WORD = re.compile(r"[^\s(){}\[\];,λ⌜⌝×⊎→∷≡⊥∙]+")
HEAD = re.compile(r"^(?:pub |abbrev |unfoldable |record |data )*(?P<name>\S+)")


def plain(text):
    """the text without comments and string literals"""
    return re.sub(r'"[^"\n]*"', '""', re.sub(r"^\s*--.*$", "", text, flags=re.M))


def imports(text):
    """name: (module, name there), and alias: module"""
    names, aliases = {}, {}
    for module, listed in re.findall(r"^\s*(?:ghost )?use (\S+)\.\{([^}]*)\};?$", text, re.M):
        for name in (item.strip() for item in listed.split(",")):
            names[name] = (module, name)
    for module, alias in re.findall(r"^\s*(?:ghost )?use (\S+) as (\w+);?$", text, re.M):
        aliases[alias] = module
    return names, aliases


def path_of(module):
    """the file of a module of the repository's specs/, else none"""
    m = re.match(r"Rattle\.(\w+)\.(specs|proofs)\.(\w+)$", module)
    return f"crates/{m[1]}/{m[2]}/{m[3]}.antt" if m and (ROOT / "crates" / m[1]).is_dir() else None


class Module:
    """a file of definitions: what each of its names is declared as, and what it imports"""

    def __init__(self, path):
        text = plain((ROOT / path).read_text())
        self.names, self.aliases = imports(text)
        self.declared = {}
        for block in re.split(r"\n(?=\S)", text):
            head = HEAD.match(block)
            if not head or re.match(r"use |pub mod |module |unfolding ", block):
                continue
            name = head["name"]
            self.declared[name] = self.declared.get(name, "") + "\n" + block
            if re.match(r"(pub )?(record|data) |(unfoldable )?mutual", block):
                for part in re.findall(r"^  (?:pub )?([^:\n]+?) :", block, re.M):
                    for member in part.split():
                        self.declared.setdefault(member, block)

    def statement(self, name):
        """the type that a theorem is declared with"""
        return self.declared[name].split(f"\n{name} ")[0]


class Closure:
    def __init__(self):
        self.files, self.kit, self.seen, self.modules = set(), set(), set(), {}

    def module(self, path):
        if path not in self.modules:
            self.modules[path] = Module(path)
        return self.modules[path]

    def follow(self, module, name):
        if module.startswith("Rattle.std.") and name not in LOGIC and "◌" not in name:
            self.kit.add(name)
        path = path_of(module)
        if path is None or (path, name) in self.seen:
            return
        self.seen.add((path, name))
        self.files.add(path)
        here = self.module(path)
        if name in here.declared:
            self.read(here.declared[name], here, module)

    def read(self, text, here, module):
        for word in WORD.findall(text):
            if word in here.names:
                self.follow(*here.names[word])
            elif word in getattr(here, "declared", {}):
                self.follow(module, word)
            elif "." in word and word.split(".")[0] in here.aliases:
                alias, name = word.split(".", 1)
                self.follow(here.aliases[alias], name)


class Code:
    """a file of code, of which only contracts are read"""

    def __init__(self, path):
        self.text = (ROOT / path).read_text()
        self.names, self.aliases = imports(self.text)

    def contract(self, name):
        m = re.search(r"pub (?:extern \"C\" )?fn " + name + r"\b(.*?)\n\{", self.text, re.S)
        return re.sub(r"^.*?(?=\b(?:requires|ensures)\b)", "", m[1], flags=re.S)


def reached():
    found = Closure()
    for crate, functions in OPERATIONS.items():
        code = Code(f"crates/{crate}/src/lib.rt")
        for function in functions:
            found.read(code.contract(function), code, "")
    for crate, name, theorem in THEOREMS:
        # a theorem that an edit of a definition takes away stands in proofs/
        part = "specs" if (ROOT / f"crates/{crate}/specs/{name}.antt").is_file() else "proofs"
        path = f"crates/{crate}/{part}/{name}.antt"
        here = found.module(path)
        found.seen.add((path, theorem))
        found.read(here.statement(theorem), here, f"Rattle.{crate}.{part}.{name}")
    return found


def listed():
    """the files of the page's first table, and the kit's names"""
    table = (ROOT / "docs" / "READING.md").read_text().split("## The promises")[0]
    files, folder, kit = set(), "", set()
    for line in table.splitlines():
        cell = line.split("|")[1] if line.startswith("| ") else ""
        if "kit" in cell:
            kit |= set(re.findall(r"`([^`]+)`", cell))
            continue
        for name in re.findall(r"`([\w/·-]+\.antt)`", cell):
            if "/" in name:
                folder = name.rsplit("/", 1)[0]
            files.add(name if "/" in name else f"{folder}/{name}")
    return files, kit


def main():
    found, (files, kit) = reached(), listed()
    wrong = [f"docs/READING.md does not list {f}" for f in sorted(found.files - files)]
    wrong += [f"docs/READING.md lists {f}, which nothing cites" for f in sorted(files - found.files)]
    wrong += [f"docs/READING.md does not list the kit's {n}" for n in sorted(found.kit - kit)]
    wrong += [f"docs/READING.md lists the kit's {n}, which nothing cites" for n in sorted(kit - found.kit)]
    print("\n".join(wrong) or f"{len(files)} files and {len(kit)} names of the kit, as docs/READING.md says")
    return 1 if wrong else 0


if __name__ == "__main__":
    sys.exit(main())
