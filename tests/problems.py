#!/usr/bin/env python3
"""problems.py [--border PROGRAM] [COUNT [SEED]]: the search on random problems of each kind, against independent answers.

The kinds: base; wires (given tables are the digits of the vertex number); given (given tables at random); budgets (other than
widths, and none that fits); known (the first open cell has known digits); all of these together; again (each such problem four
times in a row, with other known digits, so that what border remembers of one is used for the next). COUNT small problems of each
kind (20,000) of up to 8 vertices are drawn from SEED (1) and answered by the program border (`tools/programs border` builds it) and
by problems.cpp, which tries every table; needs g++. COUNT / 500 problems of 16 to 32 vertices and up to 8 outputs follow for
each kind: cadical (Debian package) has to say of the direct encoding (bench/direct.py) that no fewer cells serve, or none up to
the limit. A problem that border or cadical does not end in 10 seconds is left out. Each core that is found is looked at: it
tells the classes apart, keeps to the budgets and has the known digits."""
import argparse
import dataclasses
import pathlib
import random
import shutil
import subprocess
import sys
import tempfile

import border

sys.path.insert(0, str(border.ROOT / "bench"))
import direct  # noqa: E402

OUT = border.ROOT / "target" / "problems"
KINDS = ["base", "wires", "given", "budgets", "known", "all", "again"]
# how often a problem of the kind again is asked
TIMES = 4
BATCH = 1000
SECONDS = 10
# the cells for which every table of so many vertices can be tried
MOST_CELLS = {1: 6, 2: 6, 3: 6, 4: 6, 5: 6, 6: 4, 7: 3, 8: 3}


def classes(draw, vertices, most):
    """labels at random"""
    count = draw.randint(1, min(vertices, most))
    return [draw.randrange(count) for _ in range(vertices)]


def planted(draw, vertices, tables, read):
    """labels that some of the tables tell apart"""
    chosen = draw.sample(tables, min(read, len(tables)))
    codes = [tuple(table[x] for table in chosen) for x in range(vertices)]
    names = {code: draw.randrange(2 ** read) for code in codes}
    return [names[code] for code in codes]


def digits(draw, vertices):
    return [draw.randrange(2) for _ in range(vertices)]


def wires(draw, vertices):
    count = max(1, (vertices - 1).bit_length())
    return [[x >> (count - 1 - i) & 1 for x in range(vertices)] for i in range(count)]


def other_budget(draw, budget):
    if draw.random() < 0.02:
        return None
    if draw.random() < 0.05:
        return draw.randint(0, 9)
    return max(0, budget + draw.choice([-1, 0, 0, 1, 1, 2]))


def known_digits(draw, vertices):
    """some digits, of the first vertices or of any; vertex 0 has 0"""
    some = draw.random()
    end = draw.randint(1, vertices) if draw.random() < 0.5 else vertices
    return [0] + [draw.randrange(2) if x < end and (end < vertices or draw.random() < some) else None for x in range(1, vertices)]


def problem(draw, kind, vertices, most, limit):
    outputs = draw.randint(1, 4 if draw.random() < 0.8 else border.OUTPUTS)
    tables = [digits(draw, vertices) for _ in range(max(1, limit))]
    labels = []
    for _ in range(outputs):
        row = classes(draw, vertices, most) if draw.random() < 0.4 else planted(draw, vertices, tables, draw.randint(1, 4))
        labels.append(border.numbered(row))
    p = border.Problem(vertices, limit, labels, [border.width(row) for row in labels])
    together = kind in ("all", "again")
    if kind == "wires" or together and draw.random() < 0.7:
        p.given = wires(draw, vertices)
    if kind == "given" or together and draw.random() < 0.5:
        room = border.TABLES - len(p.given)
        p.given = p.given + [digits(draw, vertices) for _ in range(draw.randint(0, draw.choice([2, room, room])))]
        draw.shuffle(p.given)
    if kind == "budgets" or together and draw.random() < 0.7:
        p.budgets = [other_budget(draw, budget) for budget in p.budgets]
    if kind == "known" or together and draw.random() < 0.7:
        p.known = known_digits(draw, vertices)
    return p


def small(draw, kind):
    vertices = draw.choice([1, 2, 3, 4, 4, 5, 5, 6, 6, 7, 8])
    return problem(draw, kind, vertices, 8, draw.randint(0, MOST_CELLS[vertices]))


def large(draw, kind):
    return problem(draw, kind, draw.randint(16, 32), draw.choice([3, 4, 5, 6, 9]), draw.randint(2, 6))


def several(draw, kind, drawn, count):
    problems = []
    while len(problems) < count:
        p = drawn(draw, kind)
        if kind == "again":
            problems += [dataclasses.replace(p, known=known_digits(draw, p.vertices)) for _ in range(TIMES)]
        else:
            problems.append(p)
    return problems[:count]


def text(p):
    """a problem as problems.cpp reads it"""
    rows = [[p.vertices, len(p.labels), p.limit, len(p.given)], [-1 if b is None else b for b in p.budgets]]
    rows += p.labels + p.given + [[2 if digit is None else digit for digit in p.known]]
    return "".join(" ".join(map(str, row)) + "\n" for row in rows)


def wrong(p, answer, wanted):
    sys.exit(f"border says {answer}, {wanted}:\n{text(p)}")


def look_at_core(p, answer):
    if answer.cells is not None:
        fault = border.fault(p, answer)
        if fault:
            wrong(p, answer, f"but its core is wrong: {fault}")


def small_ones(draw, kind, count, program, exhaustive):
    """how many were found and how many were not"""
    found = 0
    for start in range(0, count, BATCH):
        problems = several(draw, kind, small, min(BATCH, count - start))
        done = subprocess.run([exhaustive], input="".join(map(text, problems)), capture_output=True, text=True, check=True)
        for p, answer, wanted in zip(problems, border.answers(problems, program), done.stdout.split(), strict=True):
            if answer is None or wanted != ("inf" if answer.cells is None else str(answer.cells)):
                wrong(p, answer, f"trying every table {wanted}")
            look_at_core(p, answer)
            found += answer.cells is not None
        print(f"{kind}: {start + len(problems)} of {count}", file=sys.stderr, flush=True)
    return found, count - found


def impossible(p, u):
    """whether cadical shows that no u cells serve; None where it does not end"""
    if None in p.budgets:
        return True
    with tempfile.NamedTemporaryFile("w", suffix=".cnf") as file:
        file.write(direct.encode(p.vertices, p.labels, u, p.budgets, p.given, p.known))
        file.flush()
        done = subprocess.run(["cadical", "-q", "-n", "-t", str(SECONDS), file.name], stdout=subprocess.DEVNULL)
    return {10: False, 20: True}.get(done.returncode)


def large_ones(draw, kind, count, running):
    """how many were found, how many were not, and how many were left out"""
    found = none = left = 0
    for p in several(draw, kind, large, count):
        answer = running.ask(p, SECONDS)
        if answer is None:
            left += 1
            continue
        look_at_core(p, answer)
        below = p.limit if answer.cells is None else answer.cells - 1
        sure = True if below < (1 if p.has_known() else 0) else impossible(p, below)
        if sure is False:
            wrong(p, answer, f"cadical finds {below} cells")
        if sure is None:
            left += 1
        elif answer.cells is None:
            none += 1
        else:
            found += 1
    return found, none, left


def main():
    parser = argparse.ArgumentParser(description=__doc__, formatter_class=argparse.RawDescriptionHelpFormatter)
    parser.add_argument("--border", type=pathlib.Path, default=border.PROGRAM, metavar="PROGRAM")
    parser.add_argument("count", nargs="?", type=int, default=20000)
    parser.add_argument("seed", nargs="?", type=int, default=1)
    args = parser.parse_args()
    OUT.mkdir(parents=True, exist_ok=True)
    subprocess.run(["g++", "-O2", "-std=c++17", "-Wall", "-Wextra", "-o", OUT / "exhaustive", border.ROOT / "tests" / "problems.cpp"], check=True)
    if shutil.which("cadical") is None:
        print("cadical is not installed (apt-get install cadical): large problems are left out", file=sys.stderr)
    running = border.Running(args.border)
    for kind in KINDS:
        draw = random.Random(f"{args.seed} {kind}")
        found, none = small_ones(draw, kind, args.count, args.border, OUT / "exhaustive")
        print(f"{kind}: {args.count} small problems agree, {found} found, {none} inf", flush=True)
        if shutil.which("cadical"):
            found, none, left = large_ones(draw, kind, args.count // 500, running)
            print(f"{kind}: {found + none} large problems agree, {found} found, {none} inf; {left} left out", flush=True)
    running.close()


if __name__ == "__main__":
    main()
