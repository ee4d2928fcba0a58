#!/usr/bin/env python3
"""draw.py KIND COUNT SEED DIR: draws sheets of the kinds that stand in this folder, and their answers, into DIR.

border  random partitions of 8 to 32 vertices, 2 to 4 outputs, at most 16 global classes: NAME.labels has the classes, NAME.sheet a
        sheet with them, in which each class has a function of its own of the free inputs. The limit is the fewest cells that
        serve, or one less. ANSWERS has them from reference.cpp (g++), with its nodes.
slow    the same, but only those on which the reference takes a million nodes or more.
first   small sheets with short formulas, NAME.network with the first network and ANSWERS, from tests/reference/.
large   sheets of 10 inputs, 4 outputs and some 3,700 bytes, 1 to 5 of the inputs bound in turn; no answers.

`python3 tests/vectors.py DIR` then compares Map with the answers. A seed gives the same sheets again."""
import argparse
import pathlib
import random
import subprocess
import sys

ROOT = pathlib.Path(__file__).resolve().parent.parent
sys.path.insert(0, str(ROOT / "tests" / "reference"))
import cellref  # noqa: E402
import random_sheets  # noqa: E402

REFERENCE = ROOT / "target" / "bench" / "reference"
SLOW = 1000000
# a function of x and y for each list of its values on the rows 00, 01, 10, 11
FUNCTIONS = {
    "0000": "0", "1111": "1", "0011": "x", "1100": "(not x)", "0101": "y", "1010": "(not y)", "0001": "(and x y)", "0010": "(and x (not y))",
    "0100": "(and (not x) y)", "1000": "(and (not x) (not y))", "0111": "(or x y)", "1011": "(or x (not y))", "1101": "(or (not x) y)",
    "1110": "(or (not x) (not y))", "0110": "(xor x y)", "1001": "(xor x y 1)",
}


def say(text):
    print(text, file=sys.stderr, flush=True)


def sheet(inputs, bound, limit, formulas):
    outs = [f"(out f{o} {formula})" for o, formula in enumerate(formulas)]
    return "\n".join(["(design 1)", f"(in {' '.join(inputs)})", f"(bound {' '.join(bound)})", f"(limit {limit})", *outs, "(end)", ""])


# ---- partitions


def partition(draw, vertices, tables):
    """labels at random, or those that some of the tables tell apart, a few of them put together"""
    if draw.random() < 0.5:
        classes = draw.randint(2, 10)
        return [draw.randrange(classes) for _ in range(vertices)]
    read = draw.sample(tables, draw.randint(1, min(4, len(tables))))
    labels = [sum(table[x] << i for i, table in enumerate(read)) for x in range(vertices)]
    for _ in range(draw.choice([0, 0, 1, 2])):
        one, other = draw.choice(labels), draw.choice(labels)
        labels = [one if label == other else label for label in labels]
    return labels


def problem(draw):
    """labels for each output, of at most 16 global classes"""
    vertices, outputs = draw.choice([8, 16, 16, 16, 32]), draw.choice([2, 3, 4, 4, 4])
    tables = [[draw.randrange(2) for _ in range(vertices)] for _ in range(draw.randint(3, 6))]
    rows = [partition(draw, vertices, tables) for _ in range(outputs)]
    if len(set(zip(*rows))) > 16:
        kept = draw.sample(range(vertices), 16)
        seen_as = [draw.choice(kept) for _ in range(vertices)]
        rows = [[row[x] for x in seen_as] for row in rows]
    return [cellref.number_by_first(row) for row in rows]


def labels_text(rows, limit):
    return f"{len(rows[0])} {len(rows)} {limit}\n" + "".join(" ".join(map(str, row)) + "\n" for row in rows)


def reference(rows, limit):
    """the fewest cells, `inf` or `cap`, and the nodes"""
    done = subprocess.run([REFERENCE, "CAP=20000000"], input=labels_text(rows, limit), capture_output=True, text=True, check=True)
    return done.stdout.split()[:2]


def chosen(name, high, low):
    """a formula that is high where the input is 1, and low where it is 0"""
    if high == low:
        return high
    for one, other, literal in ((high, low, name), (low, high, f"(not {name})")):
        if one == "1":
            return literal if other == "0" else f"(or {literal} {other})"
        if other == "0":
            return f"(and {literal} {one})"
    return f"(or (and {name} {high}) (and (not {name}) {low}))"


def formula(names, leaves):
    """of the bound inputs, with a leaf for each vertex"""
    if not names:
        return leaves[0]
    half = len(leaves) // 2
    return chosen(names[0], formula(names[1:], leaves[half:]), formula(names[1:], leaves[:half]))


def labels_sheet(draw, rows, limit):
    bound = list("abcde")[:len(rows[0]).bit_length() - 1]
    formulas = []
    for row in rows:
        values = draw.sample(sorted(FUNCTIONS), len(set(row)))
        formulas.append(formula(bound, [FUNCTIONS[values[label]] for label in row]))
    return sheet(bound + ["x", "y"], bound, limit, formulas)


def border(draw, slow):
    """files by suffix, and the line of ANSWERS; None for what is no such sheet"""
    rows = problem(draw)
    fewest, nodes = reference(rows, 6)
    limit = 6 if fewest in ("inf", "cap") else int(fewest) - draw.randrange(2)
    if fewest == "cap" or limit < 0:
        return None
    answer, nodes = reference(rows, limit)
    text = labels_sheet(draw, rows, limit)
    if answer == "cap" or slow and int(nodes) < SLOW or len(text) > cellref.MAX_SHEET:
        return None
    return {"labels": labels_text(rows, limit), "sheet": text}, f"{answer} {nodes}"


# ---- formulas


def first(draw):
    """files by suffix, and the line of ANSWERS; None for what is refused before the search"""
    text = random_sheets.text_of(random_sheets.valid(draw))
    try:
        cells, network = cellref.map_sheet(text)
    except cellref.Refusal as refusal:
        return ({"sheet": text.decode()}, "inf") if refusal.number == 8 else None
    return {"sheet": text.decode(), "network": network}, str(cells)


def grown(draw, names, size):
    """a formula of about so many bytes"""
    if size < 10:
        return draw.choice(names)
    operator, count = draw.choice([("not", 1), ("and", 2), ("or", 2), ("xor", 2), ("and", 3), ("or", 3), ("xor", 3)])
    return f"({operator} {' '.join(grown(draw, names, (size - 5) // count) for _ in range(count))})"


def sized(draw, names):
    """a formula of some 900 bytes"""
    while True:
        text = grown(draw, names, draw.randrange(900, 3000))
        if 850 <= len(text) <= 950:
            return text


def large(draw, at):
    """files by suffix, and no answer; None where it is not mapped"""
    names, bound = [f"s{i}" for i in range(10)], at % 5 + 1
    # of five bound inputs one is read by no formula, so that there are no more than 16 classes
    read = [name for name in names if bound < 5 or name != "s4"]
    text = sheet(names, names[:bound], 6, [sized(draw, read) for _ in range(4)])
    classes = cellref.Classes(cellref.examine(text.encode()))
    if classes.global_count() > cellref.MAX_GLOBAL or reference(classes.local, 6)[0] in ("inf", "cap"):
        return None
    return {"sheet": text}, None


def drawn(kind, draw, at):
    if kind == "first":
        return first(draw)
    return large(draw, at) if kind == "large" else border(draw, kind == "slow")


def main():
    parser = argparse.ArgumentParser(description=__doc__, formatter_class=argparse.RawDescriptionHelpFormatter)
    parser.add_argument("kind", choices=["border", "slow", "first", "large"])
    parser.add_argument("count", type=int)
    parser.add_argument("seed", type=int)
    parser.add_argument("folder", type=pathlib.Path)
    args = parser.parse_args()
    if args.kind != "first":
        REFERENCE.parent.mkdir(parents=True, exist_ok=True)
        subprocess.run(["g++", "-O2", "-std=c++17", "-Wall", "-Wextra", "-o", REFERENCE, ROOT / "bench" / "reference.cpp"], check=True)
    args.folder.mkdir(parents=True, exist_ok=True)
    draw, answers, tried = random.Random(f"{args.kind} {args.seed}"), [], 0
    while len(answers) < args.count:
        tried += 1
        made = drawn(args.kind, draw, len(answers))
        if made is None:
            continue
        files, answer = made
        name = f"{args.kind[0]}{len(answers):03d}"
        for suffix, text in files.items():
            (args.folder / f"{name}.{suffix}").write_text(text)
        answers.append(f"{name} {answer}\n")
        say(f"{name}: {len(answers)} of {args.count}, {tried} tried")
    if args.kind != "large":
        (args.folder / "ANSWERS").write_text("".join(answers))


if __name__ == "__main__":
    main()
