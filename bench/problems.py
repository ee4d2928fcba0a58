#!/usr/bin/env python3
"""problems.py [--prototype FILE] [--border PROGRAM] [--seconds N] FILES..: the search on problem files, question by question.

The program border (`tools/programs border` builds it) is asked for the fewest cells, and then, digit by digit, for the first tables:
is there a core with these tables fixed and these digits of the next one? Each core is looked at. A file NAME.labels has
problems as bench/border/ has them, and a file ANSWERS beside it the fewest cells of NAME. Any other file has lines:

    sets 1 LIMIT
    set VERTICES OUTPUTS WIRES      wire i is digit i of the vertex number, the highest first
    out BUDGET L LABELS..           for each output; lines of other words are passed over

and a file NAME.answers beside it, where there is one, for each problem `answer CELLS` or `answer inf` and then the lines
`lut DIGITS` of the first tables. A file with several sets or with conflicts that are no labels is left out.

FILE is another search for such files, in C++, if there is one to compare with: called with -2, SECS=N and a file it prints for
each problem the cells, nodes and milliseconds, or `cap`, and then `first CELLS nodes NODES MS` and the lut lines, or `capped`.

Nodes are codes given to a vertex; of a question about digits those with all cells count, since fewer are known not to do. A
problem on which a question takes over N seconds (60) is left out of the sums, and a line says so. The worst ratio of a single
problem counts at least 1,000 nodes for either. Times are processor time of border and what FILE says."""
import argparse
import dataclasses
import pathlib
import subprocess
import sys

ROOT = pathlib.Path(__file__).resolve().parent.parent
sys.path.insert(0, str(ROOT / "tests"))
import border  # noqa: E402

OUT = ROOT / "target" / "bench"
LEAST = 1000


@dataclasses.dataclass
class Result:
    """cells: the fewest, or None; tables: the first, as texts, or None where they were not found in time; nodes and
    milliseconds of both questions"""
    cells: int
    tables: list
    nodes: list
    ms: list


def read_labels(path):
    """the problems of a file of labels"""
    numbers, problems = [int(word) for word in path.read_text().split()], []
    while numbers:
        (v, m, limit), numbers = numbers[:3], numbers[3:]
        rows, numbers = [border.numbered(numbers[o * v:(o + 1) * v]) for o in range(m)], numbers[v * m:]
        problems.append(border.Problem(v, limit, rows, [border.width(row) for row in rows]))
    return problems


def read_problems(path):
    """the problems of a file, or None where it has several sets or a conflict that is no labels"""
    if path.suffix == ".labels":
        return read_labels(path)
    problems = []
    for line in path.read_text().splitlines():
        match line.split():
            case ["sets", count, limit]:
                if count != "1":
                    return None
                most = int(limit)
            case ["set", vertices, _, wires]:
                v, w = int(vertices), int(wires)
                given = [[x >> (w - 1 - i) & 1 for x in range(v)] for i in range(w)]
                problems.append(border.Problem(v, most, [], [], given))
            case ["out", budget, "L", *labels]:
                problems[-1].budgets.append(int(budget) if int(budget) >= 0 else None)
                problems[-1].labels.append(border.numbered(labels))
            case ["out", *_]:
                return None
    return problems


def read_results(path, count):
    """for each problem of a file the answer and the first tables, or None where they are not told; None for what is not known"""
    if path.suffix == ".labels":
        known = path.parent / "ANSWERS"
        lines = known.read_text().splitlines() if known.exists() else []
        told = [words[1] for words in map(str.split, lines) if words[0] == path.stem]
        return [(None if cells == "inf" else int(cells), None) for cells in told] or [None] * count
    beside = path.with_suffix(".answers")
    if not beside.exists():
        return [None] * count
    results = []
    for line in beside.read_text().splitlines():
        match line.split():
            case ["answer", cells, *_]:
                results.append((None if cells == "inf" else int(cells), []))
            case ["lut", digits]:
                results[-1][1].append(digits)
    return results


def prototype_results(program, path, seconds):
    """for each problem a Result, or None where it takes too long"""
    done = subprocess.run([program, "-2", f"SECS={seconds}", path], capture_output=True, text=True, check=True)
    results = []
    for line in done.stdout.splitlines():
        match line.split():
            case ["first", _, "nodes", nodes, ms, *_]:
                results[-1].nodes.append(int(nodes))
                results[-1].ms.append(float(ms))
            case ["lut", digits]:
                results[-1].tables.append(digits)
            case ["node", *_]:
                pass
            case ["cap", *_]:
                results.append(None)
            case ["capped", *_]:
                results[-1].tables = None
            case [cells, nodes, ms, *_]:
                results.append(Result(None if cells == "inf" else int(cells), [], [int(nodes)], [float(ms)]))
    return results


def tables_of(p, answer):
    """the tables of the open cells, 0 at vertex 0, sorted"""
    tables = [[(answer.codes[x] ^ answer.codes[0]) >> i & 1 for x in range(p.vertices)] for i in range(answer.cells)]
    return sorted(tables)


def asked(p, fixed, digits, left):
    """the problem that has a core exactly where one has the fixed tables and these first digits of the next one"""
    known = digits + [None] * (p.vertices - len(digits))
    return dataclasses.replace(p, limit=left, given=p.given + fixed, known=known)


def look_at(p, answer):
    if answer.cells is not None:
        fault = border.fault(p, answer)
        if fault:
            sys.exit(f"border's core is wrong: {fault}\n{border.line('000', p).decode()}")


def first_tables(p, answer, running, seconds):
    """the first tables of a core with as many cells as the answer, the nodes and milliseconds, the digits asked and how many of
    these are 0; None where a digit takes too long"""
    witness, fixed, nodes, microseconds, count, zeros = tables_of(p, answer), [], 0, 0, 0, 0
    while witness:
        left = len(witness)
        for x in range(1, p.vertices):
            if witness[0][x] == 0:
                continue
            q = asked(p, fixed, witness[0][:x] + [0], left)
            found = running.ask(q, seconds)
            if found is None:
                return None
            look_at(q, found)
            count += 1
            nodes += found.steps[-1][1]
            microseconds += found.steps[-1][2]
            if found.cells is not None:
                if found.cells != left:
                    sys.exit(f"{found.cells} open cells serve, where {left} are the fewest\n{border.line('000', q).decode()}")
                zeros += 1
                witness = tables_of(q, found)
        fixed.append(witness.pop(0))
    return fixed, nodes, microseconds / 1000, count, zeros


def border_result(p, running, seconds):
    """a Result, the digits asked and how many of these are 0; None where it takes too long"""
    answer = running.ask(p, seconds)
    if answer is None:
        return None, 0, 0
    look_at(p, answer)
    result = Result(answer.cells, [], [answer.nodes], [answer.microseconds / 1000])
    if answer.cells is None:
        return result, 0, 0
    first = first_tables(p, answer, running, seconds)
    if first is None:
        result.tables = None
        return result, 0, 0
    tables, nodes, ms, count, zeros = first
    result.tables = ["".join(map(str, table)) for table in tables]
    result.nodes.append(nodes)
    result.ms.append(ms)
    return result, count, zeros


def compare(name, ours, theirs, of):
    """ends the run where two Results differ in what both have"""
    if ours.cells != theirs.cells:
        sys.exit(f"{name}: border says {ours.cells} cells, {of} {theirs.cells}")
    if ours.tables is not None and theirs.tables is not None and ours.tables != theirs.tables:
        sys.exit(f"{name}: border's first tables are {ours.tables}, {of} has {theirs.tables}")


class Sums:
    """of one question on one file: ours, and beside it another search's"""

    def __init__(self):
        self.problems, self.nodes, self.ms, self.worst, self.left = 0, [0, 0], [0, 0], 0, []

    def add(self, name, question, results):
        if any(result is None or question and result.tables is None for result in results):
            self.left.append(name)
            return
        if len(results[0].nodes) <= question:
            return
        self.problems += 1
        for i, result in enumerate(results):
            self.nodes[i] += result.nodes[question]
            self.ms[i] += result.ms[question]
        ours, theirs = (max(LEAST, result.nodes[question]) for result in (results[0], results[-1]))
        self.worst = max(self.worst, ours / theirs)

    def cells(self, beside):
        def ratio(pair):
            return f"{pair[0] / pair[1]:.2f}" if pair[1] else "-"

        if not beside:
            return [str(self.problems), str(self.nodes[0]), f"{self.ms[0]:.1f}"]
        return [str(self.problems), *map(str, self.nodes), ratio(self.nodes), f"{self.worst:.2f}", *(f"{ms:.1f}" for ms in self.ms), ratio(self.ms)]


def measure(path, running, prototype, seconds):
    """the rows of a file for the two tables"""
    problems = read_problems(path)
    if problems is None:
        print(f"{path.stem} is left out: several sets, or conflicts that are no labels", file=sys.stderr)
        return None
    theirs = prototype_results(prototype, path, seconds) if prototype else [None] * len(problems)
    sums, digits, zeros = [Sums(), Sums()], 0, 0
    for i, (p, their, want) in enumerate(zip(problems, theirs, read_results(path, len(problems)), strict=True)):
        name = f"{path.stem} {i + 1} of {len(problems)}"
        our, count, yes = border_result(p, running, seconds)
        if our and their:
            compare(name, our, their, "the other search")
        if our and want:
            compare(name, our, Result(*want, [], []), "the stored answer")
        for question in range(2):
            sums[question].add(name, question, [our, their] if prototype else [our])
        digits, zeros = digits + count, zeros + yes
        print(name, "over the time" if our is None else f"{our.cells} {our.nodes}", file=sys.stderr, flush=True)
    left = [f"question {question + 1}: {name}" for question in range(2) for name in sums[question].left]
    return [path.stem, *sums[0].cells(prototype)], [path.stem, *sums[1].cells(prototype), str(digits), str(zeros)], left


def show(head, rows):
    print("| " + " | ".join(head) + " |")
    print("|" + "---|" * len(head))
    for row in rows:
        print("| " + " | ".join(row) + " |")
    print()


def main():
    parser = argparse.ArgumentParser(description=__doc__, formatter_class=argparse.RawDescriptionHelpFormatter)
    parser.add_argument("--prototype", type=pathlib.Path, metavar="FILE")
    parser.add_argument("--border", type=pathlib.Path, default=border.PROGRAM, metavar="PROGRAM")
    parser.add_argument("--seconds", type=int, default=60, metavar="N")
    parser.add_argument("files", nargs="+", type=pathlib.Path)
    args = parser.parse_args()
    if args.prototype and any(path.suffix == ".labels" for path in args.files):
        parser.error("another search is asked about files of the second form alone")
    if not args.border.exists():
        sys.exit(f"{args.border} is not there: `tools/programs border` builds it")
    prototype = None
    if args.prototype:
        OUT.mkdir(parents=True, exist_ok=True)
        prototype = OUT / "prototype"
        subprocess.run(["g++", "-O2", "-std=c++17", "-w", "-o", prototype, args.prototype], check=True)
    running = border.Running(args.border)
    rows = [row for path in args.files if (row := measure(path, running, prototype, args.seconds))]
    running.close()
    head = ["file", "problems", "nodes", "ms"]
    if prototype:
        head = ["file", "problems", "nodes", "prototype", "ratio", "worst", "ms", "prototype", "ratio"]
    print("Question 1, the fewest cells\n")
    show(head, [fewest for fewest, _, _ in rows])
    print("Question 2, the first tables\n")
    show(head + ["digits asked", "of these 0"], [first for _, first, _ in rows])
    for _, _, left in rows:
        for text in left:
            print(f"Left out, over {args.seconds} s: {text}")


if __name__ == "__main__":
    main()
