"""ABC and Yosys on texts in BLIF. Each tool runs once on many questions: a text, the names of its inputs and outputs, and the
digits that the outputs should have in row order. The answer says of each question whether the text has just those digits; a
tool that says anything else than that fails the run.

ABC reads the wanted digits as a PLA and compares the two by its equivalence check `cec`. Yosys evaluates the text on every
row by `eval -table`, and the values that it prints are compared here."""
import re
import subprocess

EQUIVALENT = re.compile(r"Networks are equivalent( after structural hashing)?\.  Time = +[0-9.]+ sec")
DIFFERENT = re.compile(r"Networks are NOT EQUIVALENT( after structural hashing)?\.  ")


class ToolError(Exception):
    """A tool said what it does not say of a text that it has read."""


class Question:
    """Whether a text in BLIF, which stands in a file, has these digits, one string for each output."""

    def __init__(self, path, inputs, outputs, digits):
        if [len(column) for column in digits] != [2 ** len(inputs)] * len(outputs) or set("".join(digits)) - set("01"):
            raise ValueError(f"no digits for every row of every output of {path}")
        self.path = path
        self.inputs = inputs
        self.outputs = outputs
        self.digits = digits


def run(words, folder):
    done = subprocess.run(words, cwd=folder, stdout=subprocess.PIPE, stderr=subprocess.STDOUT, check=False)
    return done.returncode, done.stdout.decode()


def parts(said, count):
    """What a tool said after each of the lines `QUESTION 0`, `QUESTION 1` and so on, line by line."""
    cut = re.split(r"^QUESTION ([0-9]+) *\n", said, flags=re.M)
    if [int(number) for number in cut[1::2]] != list(range(count)):
        raise ToolError(f"{len(cut[1::2])} of {count} questions were answered; the last words were\n{said[-2000:]}")
    return [[line for line in part.splitlines() if line.strip()] for part in cut[2::2]]


# ---- ABC


def without_inputs_where_without_rows(text):
    """The text in which a block that has no rows has no inputs either: ABC does not read a table of zeros otherwise."""
    lines = text.splitlines()
    for number, line in enumerate(lines):
        if line.startswith(".names ") and lines[number + 1].startswith("."):
            lines[number] = ".names " + line.split(" ")[-1]
    return "".join(line + "\n" for line in lines)


def pla(question):
    """The wanted digits, all rows listed."""
    inputs, outputs = question.inputs, question.outputs
    lines = [f".i {len(inputs)}", f".o {len(outputs)}", f".ilb {' '.join(inputs)}", f".ob {' '.join(outputs)}"]
    for row, values in enumerate(zip(*question.digits)):
        lines.append(f"{row:0{len(inputs)}b} {''.join(values)}")
    return "".join(line + "\n" for line in lines + [".e"])


def abc(questions, folder):
    script = []
    for number, question in enumerate(questions):
        (folder / f"{number}.pla").write_text(pla(question))
        (folder / f"{number}.blif").write_text(without_inputs_where_without_rows(question.path.read_text()))
        script += [f"echo QUESTION {number}", f"cec {number}.blif {number}.pla"]
    (folder / "script").write_text("".join(line + "\n" for line in script))
    _, said = run(["berkeley-abc", "-f", "script"], folder)
    return [abc_verdict(lines) for lines in parts(said, len(questions))]


def abc_verdict(lines):
    if len(lines) == 1 and EQUIVALENT.fullmatch(lines[0]):
        return True
    if lines and DIFFERENT.match(lines[0]) and not any(EQUIVALENT.match(line) for line in lines):
        return False
    raise ToolError("ABC said\n" + "\n".join(lines))


# ---- Yosys


def yosys(questions, folder):
    return [values == question.digits for values, question in zip(yosys_values(questions, folder), questions)]


def yosys_values(questions, folder, options="-sop"):
    """The values of each question's outputs in row order, as strings of 0, 1 and x. Without -sop a table of zeros is x."""
    script = []
    for number, question in enumerate(questions):
        script += [f"log QUESTION {number}", f"read_blif {options} {question.path.resolve()}"]
        script += [f"eval -table {','.join(question.inputs)} panel", "design -reset"]
    (folder / "script").write_text("".join(line + "\n" for line in script))
    status, said = run(["yosys", "-Q", "-T", "-s", "script"], folder)
    if status != 0:
        raise ToolError(f"Yosys ended with status {status}; its last words were\n{said[-2000:]}")
    return [yosys_table(lines, question) for lines, question in zip(parts(said, len(questions)), questions)]


def yosys_table(lines, question):
    """The values of each output that Yosys printed, from lines such as

     \\a  \\b |  \\g  \\f
     --- --- | --- ---
     1'0 1'0 | 1'1 1'x
    """
    headings = [number for number, line in enumerate(lines) if re.fullmatch(r"( *\\\w+)+ \|( +\\\w+)+", line)]
    if len(headings) != 1 or any("Warning" in line or "ERROR" in line for line in lines):
        raise ToolError("Yosys said\n" + "\n".join(lines[:20]))
    heading = headings[0]
    inputs, outputs = ([word[1:] for word in side.split()] for side in lines[heading].split("|"))
    rows = [[side.split() for side in line.split("|")] for line in lines[heading + 2 :]]
    wanted = [[f"1'{digit}" for digit in f"{row:0{len(inputs)}b}"] for row in range(2 ** len(inputs))]
    if inputs != question.inputs or sorted(outputs) != sorted(question.outputs) or [row[0] for row in rows] != wanted:
        raise ToolError("Yosys printed another table\n" + "\n".join(lines[:20]))
    columns = dict(zip(outputs, zip(*(row[1] for row in rows))))
    return ["".join(word.removeprefix("1'") for word in columns[name]) for name in question.outputs]
