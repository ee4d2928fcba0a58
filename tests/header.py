#!/usr/bin/env python3
"""Compares include/cellmapper.h with the code, the definitions and the README: each of its sizes is the limit that stands beside it
in NUMBERS, as crates/limits has it for the code and for the definitions; each of its refusals is one by which the crates beside it in
REFUSALS refuse, and the code refuses by no other; it declares the functions that crates/cellmapper_c/src/lib.rt gives to callers in C,
and no other; its version is that of the README's line `Version: `. Where there are gcc and g++, they take it as C and as C++."""
import pathlib
import re
import shutil
import subprocess
import sys

ROOT = pathlib.Path(__file__).resolve().parent.parent
HEADER = ROOT / "include/cellmapper.h"
NUMBERS = {
    "CELLMAPPER_MAX_SHEET": ("MAX_SHEET", "max_sheet"),
    "CELLMAPPER_MAX_NETWORK": ("MAX_NETWORK", "max_network"),
    "CELLMAPPER_MAX_PLA": ("MAX_PLA", "max_pla"),
    "CELLMAPPER_MAX_TABLE": ("MAX_ROWS", "max_rows"),
    "CELLMAPPER_MAX_BLIF": ("MAX_BLIF", "max_blif"),
}
# the crates whose code names the question of the refusal
REFUSALS = {
    "CELLMAPPER_BAD_BYTES": {"design", "panel"},
    "CELLMAPPER_MISSPELLED": {"design", "panel", "sheet"},
    "CELLMAPPER_OUT_OF_RANGE": {"sheet"},
    "CELLMAPPER_NAME_TWICE": {"panel", "sheet"},
    "CELLMAPPER_NO_SUCH_INPUT": {"sheet"},
    "CELLMAPPER_NO_SUCH_OUTPUT": {"design"},
    "CELLMAPPER_TOO_MANY_CLASSES": {"mapper"},
    "CELLMAPPER_NO_NETWORK": {"mapper"},
    "CELLMAPPER_SHORT_BUFFER": {"blif", "design", "mapper"},
    "CELLMAPPER_NETWORK_MISSPELLED": {"checker"},
    "CELLMAPPER_NETWORK_TOO_LARGE": {"checker"},
    "CELLMAPPER_PLA_MISSPELLED": {"panel"},
    "CELLMAPPER_PLA_TOO_LARGE": {"panel"},
    "CELLMAPPER_PLA_BAD_DIGIT": {"panel"},
}
# a question that the code names, and the lines of crates/refusal that give each question its number
ASKED = re.compile(r"\bQuestion::(\w+)")
NUMBERED = re.compile(r"^ *Question::(\w+) => (\d+),$", re.M)
COMPILERS = [
    ["gcc", "-x", "c", "-std=c89"],
    ["gcc", "-x", "c", "-std=c99"],
    ["gcc", "-x", "c", "-std=c17"],
    ["g++", "-x", "c++", "-std=c++11"],
    ["g++", "-x", "c++", "-std=c++17"],
]


def limits():
    """name: its value, from lines such as `pub const MAX_ROWS: usize = 1 << MAX_INPUTS;` and `max_rows = 2 ^ max_inputs`"""
    code = (ROOT / "crates/limits/src/lib.rt").read_text()
    definitions = (ROOT / "crates/limits/specs/Limits.antt").read_text()
    values = {}
    for name, value in re.findall(r"^pub const ([A-Z_]+): usize = ([A-Z0-9_ <*/]+);$", code, re.M):
        values[name] = eval(value.replace("/", "//"), {}, values)
    for name, value in re.findall(r"^(\w+) = ([\w ^*/]+)$", definitions, re.M):
        values[name] = eval(value.replace("/", "//").replace("^", "**"), {}, values)
    return values


def size_faults(header):
    defined = {name: int(value) for name, value in re.findall(r"^#define (CELLMAPPER_MAX_\w+) (.+)$", header, re.M)}
    known = limits()
    wrong = [f"{name} stands on one side only" for name in sorted(set(defined) ^ set(NUMBERS))]
    for name, names in NUMBERS.items():
        for limit in names:
            if name in defined and defined[name] != known.get(limit):
                wrong.append(f"{name} is {defined[name]}, and {limit} is {known.get(limit)}")
    return wrong


def refusing():
    """number: the crates whose code names its question"""
    numbers = {name: int(number) for name, number in NUMBERED.findall((ROOT / "crates/refusal/src/lib.rt").read_text())}
    crates = {}
    for path in sorted(ROOT.glob("crates/*/src/*.rt")):
        if path.parts[-3] != "refusal":
            for name in ASKED.findall(re.sub("//.*", "", path.read_text())):
                crates.setdefault(numbers.get(name, 0), set()).add(path.parts[-3])
    return crates


def refusal_faults(header):
    block = re.search(r"^enum cellmapper_refusal \{\n(.*?)^\};$", header, re.M | re.S)[1]
    lines = block.splitlines()
    values = {name: int(value) for name, value in re.findall(r"^    (CELLMAPPER_\w+) = (\d+),? +/\* .* \*/$", block, re.M)}
    wrong = [] if len(values) == len(lines) else ["a line of enum cellmapper_refusal is not a name, its number and a comment"]
    if values.pop("CELLMAPPER_OK", None) != 0:
        wrong.append("CELLMAPPER_OK is not 0")
    wrong += [f"{name} stands on one side only" for name in sorted(set(values) ^ set(REFUSALS))]
    crates = refusing()
    for number in sorted(set(crates) ^ set(values.values())):
        wrong.append(f"{number} is not both a refusal of the header and of the code")
    for name, number in values.items():
        if crates.get(number, set()) != REFUSALS.get(name):
            wrong.append(f"{name} is {number}, by which these refuse: {', '.join(sorted(crates.get(number, [])))}")
    return wrong


def function_faults(header):
    declared = set(re.findall(r"^uint32_t (cellmapper_\w+)\(", header, re.M))
    code = (ROOT / "crates/cellmapper_c/src/lib.rt").read_text()
    there = set(re.findall(r"""^pub extern "C" fn (\w+)(?:<'a>)?\(""", code, re.M))
    return [f"{name} is not both declared and there" for name in sorted(declared ^ there)]


def version_faults(header):
    version = re.search(r'^#define CELLMAPPER_VERSION "(.*)"$', header, re.M)[1]
    parts = re.findall(r"^#define CELLMAPPER_VERSION_(?:MAJOR|MINOR) (\d+)$", header, re.M)
    wrong = [] if version == ".".join(parts) else [f"CELLMAPPER_VERSION is {version}, and its two numbers are {' and '.join(parts)}"]
    said = re.findall(r"^Version: (\d+\.\d+)", (ROOT / "README.md").read_text(), re.M)
    if said != [version]:
        wrong.append(f"CELLMAPPER_VERSION is {version}, and README.md says {' and '.join(said) or 'none in a line that starts with Version: '}")
    return wrong


def compiler_faults():
    wrong = []
    for words in COMPILERS:
        if shutil.which(words[0]) is None:
            print(f"no {words[0]} here: it does not read the header")
            continue
        done = subprocess.run([*words, "-Wall", "-Wextra", "-pedantic-errors", "-Werror", "-fsyntax-only", "-"],
                              input=f'#include "{HEADER}"\n', capture_output=True, text=True, check=False)
        if done.returncode != 0:
            wrong.append(f"{' '.join(words)}: {done.stderr}")
    return wrong


def main():
    header = HEADER.read_text()
    wrong = size_faults(header) + refusal_faults(header) + function_faults(header) + version_faults(header) + compiler_faults()
    counted = f"{len(NUMBERS)} sizes, {len(REFUSALS)} refusals and {len(re.findall('^uint32_t cellmapper_', header, re.M))} functions"
    print("\n".join(wrong) or f"{counted} of include/cellmapper.h, all as in the code and the definitions; its version is the README's")
    return 1 if wrong else 0


if __name__ == "__main__":
    sys.exit(main())
