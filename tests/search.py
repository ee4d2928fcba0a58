#!/usr/bin/env python3
"""search.py [--reference FILE] [COUNT [SEED]]: the search against the reference search on random problems.

COUNT problems (10,000) of up to 8 outputs, 32 vertices and 16 joint classes are drawn from SEED (1) and given to the program
border (`tools/programs border` builds it) and to FILE, a search in C++ that is not proved (by default bench/reference.cpp). The fewest
cells must agree. A problem on which the reference takes over 5 million nodes is left out."""
import argparse
import pathlib
import random
import subprocess
import sys

import border
import programs
from progress import Progress

OUT = border.ROOT / "target" / "search"
BATCH = 1000


def problem(draw):
    vertices = draw.choice([4, 8, 8, 16, 16, 16, 32])
    outputs = draw.randint(1, 4 if draw.random() < 0.85 else 8)
    rows = []
    for _ in range(outputs):
        classes = draw.randint(1, min(vertices, draw.choice([2, 3, 4, 5, 6, 8, 9])))
        rows.append([draw.randrange(classes) for _ in range(vertices)])
    if len(set(zip(*rows))) > 16:
        kept = draw.sample(range(vertices), 16)
        seen_as = [draw.choice(kept) for _ in range(vertices)]
        rows = [[row[x] for x in seen_as] for row in rows]
    return border.Problem(vertices, draw.randint(0, 6), [border.numbered(row) for row in rows], [border.width(row) for row in rows])


def reference_text(p):
    return f"{p.vertices} {len(p.labels)} {p.limit}\n" + "".join(" ".join(map(str, row)) + "\n" for row in p.labels)


def main():
    parser = argparse.ArgumentParser(description=__doc__, formatter_class=argparse.RawDescriptionHelpFormatter)
    parser.add_argument("--reference", type=pathlib.Path, default=border.ROOT / "bench" / "reference.cpp")
    parser.add_argument("count", nargs="?", type=int, default=10000)
    parser.add_argument("seed", nargs="?", type=int, default=1)
    args = parser.parse_args()
    programs.need("border")
    if not args.reference.is_file():
        sys.exit(f"search.py needs the source of the reference search, and {args.reference} is not there: --reference FILE")
    programs.need_tools("g++")
    OUT.mkdir(parents=True, exist_ok=True)
    subprocess.run(["g++", "-O2", "-w", "-o", OUT / "reference", args.reference], check=True)
    draw = random.Random(args.seed)
    passed = left = 0
    progress = Progress("search", args.count)
    for start in range(0, args.count, BATCH):
        problems = [problem(draw) for _ in range(min(BATCH, args.count - start))]
        done = subprocess.run([OUT / "reference", "CAP=5000000"], input="".join(map(reference_text, problems)), capture_output=True, text=True, check=True)
        for p, ours, theirs in zip(problems, border.answers(problems), done.stdout.splitlines(), strict=True):
            wanted, cells = theirs.split()[0], "inf" if ours.cells is None else str(ours.cells)
            if wanted == "cap":
                left += 1
            elif cells != wanted:
                sys.exit(f"the reference says {wanted}, the search {cells}:\n{reference_text(p)}")
            else:
                passed += 1
        progress.step(len(problems))
    progress.end()
    print(f"search: {passed} problems from seed {args.seed} agree, {left} left out")


if __name__ == "__main__":
    main()
