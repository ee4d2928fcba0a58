"""Problems as the program border reads them, what it answers, and whether a core serves. tests/problems.py, tests/search.py
and bench/problems.py use it."""
import dataclasses
import io
import pathlib
import subprocess
import threading

ROOT = pathlib.Path(__file__).resolve().parent.parent
PROGRAM = ROOT / "target" / "bin" / "border"
OUTPUTS, VERTICES, TABLES, HALF = 8, 32, 10, 5
# the lines that one run of the program reads
LINES = 10000
# a row: the open cells that an output reads are its lowest digits, the given tables those above
OPEN = 6


@dataclasses.dataclass
class Problem:
    """labels: of each output at each vertex; budgets: a number, or None where none fits; given: the digits of each given
    table; known: for each vertex the digit of the first open cell, or None"""
    vertices: int
    limit: int
    labels: list
    budgets: list
    given: list = dataclasses.field(default_factory=list)
    known: list = None

    def __post_init__(self):
        if self.known is None:
            self.known = [None] * self.vertices

    def has_known(self):
        return any(digit is not None for digit in self.known)


@dataclasses.dataclass
class Answer:
    """cells: the fewest, or None; rows and codes of a core where there is one; steps: for each number of cells tried that
    number, its nodes and its microseconds"""
    cells: int
    nodes: int
    microseconds: int
    rows: list
    codes: list
    steps: list


def numbered(labels):
    """the labels renumbered in the order in which they occur"""
    seen = {}
    return [seen.setdefault(label, len(seen)) for label in labels]


def width(labels):
    return (len(set(labels)) - 1).bit_length()


def line(name, p):
    """the line of a problem; the name has 3 characters"""
    budgets = "".join("-" if b is None else str(b) for b in p.budgets).ljust(OUTPUTS, "0")
    labels = [row + [0] * (VERTICES - p.vertices) for row in p.labels] + [[0] * VERTICES] * (OUTPUTS - len(p.labels))
    given = [[sum(table[x] << i for i, table in enumerate(p.given[at:at + HALF])) if x < p.vertices else 0 for at in (0, HALF)] for x in range(VERTICES)]
    known = "".join("." if digit is None else str(digit) for digit in p.known).ljust(VERTICES, ".")

    def letters(numbers):
        return "".join(chr(64 + n) for n in numbers)

    text = f"{name} {p.vertices:02d} {len(p.labels)} {p.limit} {budgets} {letters(sum(labels, []))} {len(p.given):02d} {letters(sum(given, []))} {known}\n"
    if len(text) != 3 + 1 + 2 + 1 + 1 + 1 + 1 + 1 + OUTPUTS + 1 + OUTPUTS * VERTICES + 1 + 2 + 1 + 2 * VERTICES + 1 + VERTICES + 1:
        raise ValueError(f"no line has these numbers: {p}")
    return text.encode()


def read_answer(out, err):
    """the next answer from the program's standard output and standard error, or None where it has ended"""
    words = out.readline().split()
    if not words:
        return None
    rows, codes, steps = [], [], []
    for text in err:
        name, *told = text.split()
        if name != words[0]:
            raise ValueError(f"{name} stands where {words[0]} must")
        if told[0] == "core":
            rows, codes = [int(row, 16) for row in told[1:1 + OUTPUTS]], [ord(c) - ord("0") for c in told[1 + OUTPUTS]]
        elif told[0] == "cells":
            steps.append((int(told[1]), int(told[3]), int(told[5])))
        else:
            return Answer(None if words[1] == "inf" else int(words[1]), int(words[2]), int(told[0]), rows, codes, steps)
    return None


def answers(problems, program=PROGRAM):
    """the answers to up to 1,000 problems"""
    text = b"".join(line(f"{i:03d}", p) for i, p in enumerate(problems))
    done = subprocess.run([program], input=text, capture_output=True, check=True)
    out, err = io.StringIO(done.stdout.decode()), io.StringIO(done.stderr.decode())
    return [read_answer(out, err) for _ in problems]


class Running:
    """the program as one process that is asked again and again"""

    def __init__(self, program=PROGRAM):
        self.program, self.process, self.asked = program, None, 0

    def close(self):
        if self.process is not None:
            self.process.kill()
            self.process.communicate()
            self.process = None

    def ask(self, p, seconds=None):
        """the answer, or None where it is not there after so many seconds"""
        if self.process is None or self.asked == LINES:
            self.close()
            self.process = subprocess.Popen([self.program], stdin=subprocess.PIPE, stdout=subprocess.PIPE, stderr=subprocess.PIPE, text=True)
            self.asked = 0
        self.process.stdin.write(line(f"{self.asked % 1000:03d}", p).decode())
        self.process.stdin.flush()
        self.asked += 1
        timer = threading.Timer(seconds, self.process.kill) if seconds else None
        if timer:
            timer.start()
        answer = read_answer(self.process.stdout, self.process.stderr)
        if timer:
            timer.cancel()
        if answer is None:
            ended = self.process.wait()
            self.process = None
            if ended != -9 or not seconds:
                raise RuntimeError(f"{self.program} ended with {ended} on\n{line('000', p).decode()}")
        return answer


def fault(p, answer):
    """what is wrong with the core of an answer, or None"""
    u = answer.cells
    if u > p.limit or u < (1 if p.has_known() else 0):
        return f"{u} cells"
    for x, digit in enumerate(p.known):
        if digit is not None and answer.codes[x] & 1 != digit:
            return f"the known digit at vertex {x}"
    for o, labels in enumerate(p.labels):
        row = answer.rows[o]
        cells, tables = row % 2 ** OPEN, row >> OPEN
        if cells >> u or tables >> len(p.given):
            return f"output {o} reads what is not there"
        if p.budgets[o] is None or (cells.bit_count() + tables.bit_count()) > p.budgets[o]:
            return f"output {o} reads more than its budget"
        seen = {}
        for x, label in enumerate(labels):
            read = answer.codes[x] & cells, tuple(table[x] for i, table in enumerate(p.given) if tables >> i & 1)
            if seen.setdefault(read, label) != label:
                return f"output {o} at vertex {x}"
    return None
