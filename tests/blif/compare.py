#!/usr/bin/env python3
"""compare.py [MAPPED [DRAWN [SEED]]], called by run: the texts of target/bin/cellblif in ABC and in Yosys.

- Map's networks of the example sheets and of MAPPED random sheets (500 unless given; a sheet that Map refuses is drawn again):
  in each tool every output must have Table's digits on every row.
- DRAWN networks (300 unless given) beside random sheets, any tables and reading sets within limit and widths; half as many of
  Map's with cells complemented, the nodes' digits to match, and cells that no node reads; and the longest text: in each tool
  every output must have the network's own values, by the reference in Python, and Table's digits exactly where Check says
  "same".

Every text must be the reference's, byte for byte. First it is shown that the comparison can fail: each digit of sheet A's text
is changed, one at a time, and each tool must find every one. Shows progress; the last line counts."""
import collections
import pathlib
import random
import subprocess
import sys
import time

import tools

ROOT = pathlib.Path(__file__).resolve().parents[2]
FOLDER = ROOT / "target/blif"
sys.path[:0] = [str(ROOT / folder) for folder in ("tests/reference", "tests")]
import cellref  # noqa: E402
import random_sheets  # noqa: E402
import sheets_to_try  # noqa: E402
from progress import Progress  # noqa: E402

A = sheets_to_try.sheet("a")
TOOLS = {"ABC": tools.abc, "Yosys": tools.yosys}


def fail(what, *texts):
    sys.exit("\n".join([f"FAILED: {what}", *(text if isinstance(text, str) else text.decode("latin-1") for text in texts)]))


def program(path, text):
    return subprocess.run([ROOT / "target" / path], input=text, capture_output=True, check=False).stdout


def table(sheet):
    """Table's digits of each output"""
    return program("blif/table", sheet).decode().split()


# ---- a text, and what is asked of it


class Case:
    """A network beside a sheet, with the text that cellblif prints of them."""

    def __init__(self, name, sheet, network):
        self.sheet, self.network = sheet, network
        self.design, self.read = cellref.examine_both(sheet, network)
        text = program("bin/cellblif", sheet + b"\0" + network)
        if text.decode("latin-1") != cellref.export(sheet, network):
            fail("another text than the reference's", sheet, network, text)
        found = cellref.check(sheet, network)
        self.same = found is None
        said = program("bin/cellcheck", sheet + b"\0" + network).decode()
        if said != ("same\n" if self.same else f"differs output {found[0]} row {found[1]}\n"):
            fail(f"Check said {said}", sheet, network)
        self.path = FOLDER / f"{name}.blif"
        self.path.write_bytes(text)
        self.path.with_suffix(".sheet").write_bytes(sheet)
        self.path.with_suffix(".network").write_bytes(network)

    def question(self, digits):
        return tools.Question(self.path, self.design.inputs, [output.name for output in self.design.outputs], digits)

    def own_values(self):
        """The network's values, a string of digits for each output"""
        rows = [cellref.assignment(self.design.inputs, row) for row in range(2 ** len(self.design.inputs))]
        outputs = range(len(self.design.outputs))
        return ["".join(str(cellref.node_value(self.design, self.read, o, row)) for row in rows) for o in outputs]

    def shapes(self):
        """What is special about the network"""
        read = {k for node in self.read.nodes for k in node.reads}
        for digits in self.read.luts:
            yield "cells of zeros" if "1" not in digits else "cells of ones" if "0" not in digits else "other cells"
        yield from ["cells unread"] * (len(self.read.luts) - len(read))
        for node in self.read.nodes:
            if len(node.digits) == 1:
                yield f"constants {node.digits}"
            else:
                yield "nodes of zeros" if "1" not in node.digits else "nodes of ones" if "0" not in node.digits else "other nodes"


def ask(questions, wanted):
    """Each tool on all questions: as the list of truth values says, a text has the digits or not."""
    for name, tool in TOOLS.items():
        folder = FOLDER / name
        folder.mkdir(exist_ok=True)
        print(f"blif: {name} on {len(questions)} texts", file=sys.stderr, flush=True)
        start = time.monotonic()
        try:
            answers = tool(questions, folder)
        except tools.ToolError as error:
            fail(f"{name}: {error}")
        if not len(answers) == len(questions) == len(wanted):
            fail(f"{name} answered {len(answers)} of {len(questions)} questions")
        for question, has, should in zip(questions, answers, wanted):
            if has != should:
                fail(f"{name} says that {question.path} {'has' if has else 'does not have'} the digits", *question.digits)
        has, took = sum(answers), time.monotonic() - start
        print(f"{name}: {has} texts have the digits, {len(answers) - has} do not, as it must be; {took:.1f} s", flush=True)


# ---- that the comparison can fail, and what the tools say of a table of zeros


def changed_digits(text):
    """The text with one digit of one row turned, for every digit"""
    lines = text.splitlines(keepends=True)
    for number, line in enumerate(lines):
        if not line.startswith("."):
            for place in range(line.index(" ")):
                other = line[:place] + str(1 - int(line[place])) + line[place + 1 :]
                yield "".join(lines[:number] + [other] + lines[number + 1 :])


def show_that_it_can_fail():
    case = Case("a", A, program("bin/cellmap", A))
    questions = [case.question(table(A))]
    for number, text in enumerate(changed_digits(case.path.read_text())):
        path = FOLDER / f"a-changed-{number}.blif"
        path.write_text(text)
        questions.append(tools.Question(path, list("abcd"), list("fg"), table(A)))
    print(f"sheet A, and {len(questions) - 1} texts with one digit of it changed", flush=True)
    ask(questions, [True] + [False] * (len(questions) - 1))


def show_table_of_zeros():
    """What a user meets who hands a table of zeros over as it is"""
    path = FOLDER / "zeros.blif"
    path.write_text(".model panel\n.inputs a b\n.outputs f\n.names a b f\n.end\n")
    said = tools.run(["berkeley-abc", "-q", f"read_blif {path}"], FOLDER)[1].splitlines()
    print("a block with inputs and without rows, in ABC:", said[0] if said else "read")
    for options in ("", "-sop"):
        question = tools.Question(path, ["a", "b"], ["f"], ["0000"])
        print(f"the same in Yosys by `{' '.join(['read_blif', options]).strip()}`:", tools.yosys_values([question], FOLDER, options)[0][0])


# ---- cases


def mapped_cases(dice, count):
    """Map's networks, of the examples and then of random sheets until there are so many; and Map's refusals by number"""
    cases, refusals = [], collections.Counter()
    for path in sorted((ROOT / "examples").glob("*.sheet")):
        network = program("bin/cellmap", path.read_bytes())
        if not network.startswith(b"refused 8 "):
            cases.append(Case(path.stem, path.read_bytes(), network))
    examples = len(cases)
    if not examples:
        fail("no example sheet maps")
    progress = Progress("blif: random sheets mapped", count)
    while len(cases) < examples + count:
        sheet = random_sheets.mixed(dice)
        network = program("bin/cellmap", sheet)
        if network.startswith(b"refused"):
            refusals[network.split()[1].decode()] += 1
        else:
            cases.append(Case(f"mapped-{len(cases) - examples}", sheet, network))
            progress.step()
    progress.end()
    by = ", ".join(f"{n} by {number}" for number, n in sorted(refusals.items()))
    print(f"Map: networks of {examples} examples and {count} random sheets; refused {by}", flush=True)
    return cases


def digits(dice, count):
    """A table: zeros, ones, or a mixture"""
    mixture = dice.choice(("0", "1", "01", "01", "01", "0001"))
    return "".join(dice.choice(mixture) for _ in range(count))


def network_text(design, luts, nodes):
    lines = ["(network 1)"]
    lines += [f"(lut _{k} ({' '.join(design.bound)}) {lut})" for k, lut in enumerate(luts)]
    for output, (reads, entries) in zip(design.outputs, nodes):
        lines.append(f"(node {output.name} ({' '.join([f'_{k}' for k in reads] + design.free)}) {entries})")
    return random_sheets.text_of(lines + [f"(count {len(luts)})", "(end)"])


def drawn_network(dice, design):
    """Any tables and any reading sets within limit and widths"""
    luts = [digits(dice, 2 ** len(design.bound)) for _ in range(dice.randrange(design.limit + 1))]
    nodes = []
    for width in cellref.Classes(design).widths:
        reads = sorted(dice.sample(range(len(luts)), dice.randrange(min(width, len(luts)) + 1)))
        nodes.append((reads, digits(dice, 2 ** (len(reads) + len(design.free)))))
    return network_text(design, luts, nodes)


def complemented_network(dice, case):
    """The same values by other tables: some cells complemented, and more cells as far as the limit allows"""
    design, network = case.design, case.read
    turned = [dice.randrange(2) for _ in network.luts]
    luts = ["".join(str(int(digit) ^ turned[k]) for digit in lut) for k, lut in enumerate(network.luts)]
    nodes = []
    for node in network.nodes:
        code = int("0" + "".join(str(turned[k]) for k in node.reads), 2) << len(design.free)
        nodes.append((node.reads, "".join(node.digits[entry ^ code] for entry in range(len(node.digits)))))
    luts += [digits(dice, 2 ** len(design.bound)) for _ in range(dice.randrange(design.limit - len(luts) + 1))]
    return network_text(design, luts, nodes)


def longest_case():
    """Ten inputs and four outputs, names of eight characters, six cells, each node over five of them, nothing but ones"""
    names = [letter * 8 for letter in "abcdefghij"]
    bound, free = names[:5], names[5:]
    formula = f"(or {' '.join(f'(and {b} {f})' for b, f in zip(bound, free))})"
    lines = ["(design 1)", f"(in {' '.join(names)})", f"(bound {' '.join(bound)})", "(limit 6)"]
    sheet = random_sheets.text_of(lines + [f"(out output0{k} {formula})" for k in range(4)] + ["(end)"])
    return Case("longest", sheet, network_text(cellref.examine(sheet), ["1" * 32] * 6, [(range(5), "1" * 1024)] * 4))


def other_cases(dice, mapped, count):
    """Networks that are not Map's"""
    cases = [longest_case()]
    progress = Progress("blif: other networks", count + count // 2)
    for number in range(count):
        sheet = random_sheets.mixed(dice)
        cases.append(Case(f"drawn-{number}", sheet, drawn_network(dice, cellref.examine(sheet))))
        progress.step()
    for number in range(count // 2):
        case = dice.choice(mapped)
        cases.append(Case(f"complemented-{number}", case.sheet, complemented_network(dice, case)))
        progress.step()
    progress.end()
    same = sum(case.same for case in cases)
    print(f"others: {len(cases)} networks, {same} the same as their sheet and {len(cases) - same} that differ", flush=True)
    if same in (0, len(cases)):
        fail("one kind of network is missing")
    return cases


def show_shapes(cases):
    """Counts what the networks have; nothing may be missing."""
    kinds = ["cells of zeros", "cells of ones", "other cells", "cells unread"]
    kinds += ["nodes of zeros", "nodes of ones", "other nodes", "constants 0", "constants 1"]
    shapes = collections.Counter(shape for case in cases for shape in case.shapes())
    print("in all:", "; ".join(f"{kind} {shapes[kind]}" for kind in kinds), flush=True)
    if not all(shapes[kind] for kind in kinds):
        fail("one kind of table is missing")


def main():
    count, more, seed = [int(word) for word in sys.argv[1:]] + [500, 300, 1][len(sys.argv) - 1 :]
    start = time.monotonic()
    print(tools.run(["yosys", "-V"], FOLDER)[1].strip(), "and", tools.run(["berkeley-abc", "-q", "version"], FOLDER)[1].strip())
    show_that_it_can_fail()
    show_table_of_zeros()
    dice = random.Random(seed)
    mapped = mapped_cases(dice, count)
    if not all(case.same for case in mapped):
        fail("a network of Map's differs")
    others = other_cases(dice, mapped, more)
    show_shapes(mapped + others)
    print("Map's networks and Table's digits", flush=True)
    ask([case.question(table(case.sheet)) for case in mapped], [True] * len(mapped))
    print("other networks and their own values", flush=True)
    ask([case.question(case.own_values()) for case in others], [True] * len(others))
    print("other networks and Table's digits", flush=True)
    ask([case.question(table(case.sheet)) for case in others], [case.same for case in others])
    print(f"{len(mapped) + len(others)} texts as they must be in both tools, from seed {seed}, {time.monotonic() - start:.0f} s")


if __name__ == "__main__":
    main()
