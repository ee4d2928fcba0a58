#!/usr/bin/env python3
"""first.py [--program PROGRAM] [COUNT [SEED]]: Map's network against the first of all permitted networks in byte order.

COUNT designs (2,000) of 2 or 3 bound inputs, 0 to 2 free inputs and 1 to 3 outputs are drawn from SEED (1). PROGRAM (by default
target/bin/cellmap) maps each as a sheet, with names in any case wherever they stand, and first.cpp (needs g++) prints every network
that the specification permits with the fewest tables, names as the sheet gives them first, and takes the least text; the two must
be equal byte for byte, or both refuse by 8. It tries up to 3 tables over 3 bound inputs and 6 over 2; a design of a higher limit that
needs more is left out. Takes about 0.1 seconds a design. The last
lines count what came. No first network has a table that varies inside a global class: all vertices of the class could take the
least of their codes, and the text would come before it. Many designs have other permitted networks that do."""
import argparse
import collections
import pathlib
import random
import subprocess
import sys

import programs
from progress import Progress

ROOT = programs.ROOT
PROGRAM = programs.BIN / "cellmap"
OUT = ROOT / "target" / "first"
MOST = {2: 6, 3: 3}
BATCH = 100
NAMES = [letter + digit for letter in "abcxyz" for digit in ("", "0", "7")]
OUTPUTS = "fGh"


def any_case(draw, name):
    return draw.choice((name.lower(), name.upper()))


class Design:
    """columns: for each output one for each vertex, a digit for each free row"""

    def __init__(self, draw):
        self.bound_count = draw.choice([2, 3, 3])
        self.free_count = draw.choice([0, 1, 1, 2, 2])
        names = [any_case(draw, name) for name in draw.sample(NAMES, self.bound_count + self.free_count)]
        self.inputs = draw.sample(names, len(names))
        self.bound = names[: self.bound_count]
        self.free = [name for name in self.inputs if name not in self.bound]
        self.limit = draw.choice([0, 1, 2, 3, 3, 3, 3, 4, 5, 6])
        planted = [[draw.randrange(2) for _ in range(2**self.bound_count)] for _ in range(3)]
        self.columns = [self.drawn_columns(draw, planted) for _ in range(draw.choice([1, 2, 2, 3, 3]))]
        self.sheet = self.drawn_sheet(draw)

    def drawn_columns(self, draw, planted):
        """at random, or such that some of the planted tables tell different ones apart"""
        rows = 2**self.free_count
        all_columns = ["".join(draw.choice("01") for _ in range(rows)) for _ in range(12)]
        some = sorted(set(all_columns))
        some = draw.sample(some, draw.randint(1, len(some)))
        read = draw.sample(planted, draw.choice([1, 2, 2, 2, 3]))
        if draw.random() < 0.4:
            return [draw.choice(some) for _ in range(2**self.bound_count)]
        named = collections.defaultdict(lambda: draw.choice(some))
        return [named[tuple(table[v] for table in read)] for v in range(2**self.bound_count)]

    def value(self, columns, row):
        values = dict(zip(self.inputs, row))
        vertex = int("".join(values[name] for name in self.bound), 2)
        return columns[vertex][int("0" + "".join(values[name] for name in self.free), 2)]

    def formula(self, draw, columns):
        """the rows of value 1, or the rows of value 0 complemented where they are fewer"""
        terms = {"0": [], "1": []}
        for number in range(2 ** len(self.inputs)):
            row = f"{number:0{len(self.inputs)}b}"
            names = [any_case(draw, name) for name in self.inputs]
            literals = [name if digit == "1" else f"(not {name})" for name, digit in zip(names, row)]
            terms[self.value(columns, row)].append(f"(and {' '.join(literals)})")
        digit = "1" if len(terms["1"]) <= len(terms["0"]) else "0"
        some = terms[digit]
        text = "0" if not some else some[0] if len(some) == 1 else f"(or {' '.join(some)})"
        return text if digit == "1" else f"(not {text})"

    def drawn_sheet(self, draw):
        bound = [any_case(draw, name) for name in self.bound]
        lines = ["(design 1)", f"(in {' '.join(self.inputs)})", f"(bound {' '.join(bound)})", f"(limit {self.limit})"]
        lines += [f"(out {name} {self.formula(draw, columns)})" for name, columns in zip(OUTPUTS, self.columns)]
        return "".join(line + "\n" for line in [*lines, "(end)"])

    def most(self):
        return min(self.limit, MOST[self.bound_count])

    def words(self):
        """as first.cpp reads it"""
        words = [self.bound_count, self.free_count, len(self.columns), self.most(), *self.bound, *self.free]
        for name, columns in zip(OUTPUTS, self.columns):
            words += [name, *columns]
        return " ".join(map(str, words)) + "\n"

    def classes(self):
        return max(len(set(columns)) for columns in self.columns)


def answers(designs):
    """for each design U or none, the permitted networks, the varying ones, whether the first varies, and the first as a text"""
    done = subprocess.run([OUT / "first"], input="".join(design.words() for design in designs), capture_output=True, text=True, check=True)
    lines = iter(done.stdout.splitlines(keepends=True))
    for line in lines:
        cells, permitted, varying, first_varies = line.split()
        text = ""
        while cells != "none" and not text.endswith("(end)\n"):
            text += next(lines)
        yield cells, int(permitted), int(varying), first_varies == "1", text


def count_kinds(design, answer, kinds):
    cells, permitted, varying, first_varies, _ = answer
    kinds["refused by 8" if cells == "none" else f"of {cells} cells"] += 1
    kinds["an output of 3 or more classes"] += cells != "none" and design.classes() > 2
    kinds["no free inputs"] += design.free_count == 0
    kinds["several permitted networks"] += permitted > 1
    kinds["a permitted network that varies inside a global class"] += varying > 0
    kinds["a first network that varies inside a global class"] += first_varies
    kinds["permitted networks printed"] += permitted


def main():
    parser = argparse.ArgumentParser(description=__doc__, formatter_class=argparse.RawDescriptionHelpFormatter)
    parser.add_argument("--program", type=pathlib.Path, default=PROGRAM)
    parser.add_argument("count", nargs="?", type=int, default=2000)
    parser.add_argument("seed", nargs="?", type=int, default=1)
    args = parser.parse_args()
    programs.need(args.program.name, folder=args.program.resolve().parent)
    programs.need_tools("g++")
    OUT.mkdir(parents=True, exist_ok=True)
    subprocess.run(["g++", "-O2", "-std=c++17", "-Wall", "-Wextra", "-o", OUT / "first", ROOT / "tests" / "first.cpp"], check=True)
    draw = random.Random(args.seed)
    kinds = collections.Counter()
    left = 0
    progress = Progress("first", args.count)
    for start in range(0, args.count, BATCH):
        designs = [Design(draw) for _ in range(min(BATCH, args.count - start))]
        for design, answer in zip(designs, answers(designs), strict=True):
            progress.step()
            if answer[0] == "none" and design.most() < design.limit:
                left += 1
                continue
            done = subprocess.run([args.program], input=design.sheet, capture_output=True, text=True, check=False)
            wanted = "refused 8 line 0\n" if answer[0] == "none" else answer[-1]
            if done.stdout != wanted:
                sys.exit(f"Map says\n{done.stdout}and the first of {answer[1]} networks is\n{wanted}of the sheet\n{design.sheet}")
            count_kinds(design, answer, kinds)
    progress.end()
    for kind, count in sorted(kinds.items()):
        print(f"{count} {kind}")
    print(f"first: {args.count - left} designs from seed {args.seed} agree, {left} left out")


if __name__ == "__main__":
    main()
