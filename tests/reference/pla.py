#!/usr/bin/env python3
"""Panels that arrive as PLA, from the words of the specification: the examination of a pair, which is a PLA text and a second text
with the `bound` line and the `limit` line. Table, Map, Check and the cause of refusal 8 are cellref's, on the design that the pair
gives.

An output has its cubes as they stand in the text, and is looked up in them row by row; no formula is made of them.

    pla.py table PLA BOARD OUTPUT [BUFFER]        written K DIGITS, or refused N line L
    pla.py map PLA BOARD [BUFFER]                 the first network in byte order, or refused N line L
    pla.py check PLA BOARD NETWORK                same, differs output O row R, or refused N line L
    pla.py cause PLA BOARD                        the numbers of the outputs that are the cause of refusal 8, or none
"""

import re
import sys

import cellref
from cellref import Refusal

MAX_PLA = 32768


class Cube:
    """A cube: a character for each input, a character for each output, and the line that it stands on."""

    def __init__(self, literals, marks, line):
        self.literals = literals
        self.marks = marks
        self.line = line

    def covers(self, inputs, given):
        return all(literal in ("-", str(given[name])) for name, literal in zip(inputs, self.literals))


class Output:
    """An output of a PLA text: its name, and the cubes of its on-set."""

    def __init__(self, name, inputs, cubes):
        self.name = name
        self.inputs = inputs
        self.cubes = cubes

    def value(self, given):
        """1 where some cube of the on-set covers the inputs' values, else 0."""
        return int(any(cube.covers(self.inputs, given) for cube in self.cubes))


class Pla:
    """What a text that passes question 12 says."""

    def __init__(self, inputs, outputs, cubes):
        self.inputs = inputs
        self.outputs = outputs
        self.cubes = cubes


# ---- the lines of a PLA text: what each says, or None where it is misspelled


def number_line(line, word, least):
    match = re.fullmatch(re.escape(word) + r" (0|[1-9][0-9]{0,4})", line)
    return None if match is None or int(match.group(1)) < least else int(match.group(1))


def names_line(line, word, count):
    first, *names = line.split(" ")
    return names if first == word and len(names) == count and all(map(cellref.is_name, names)) else None


def cube_line(line, inputs, outputs, number):
    """The output part is any characters, as many as there are outputs: question 14 asks what they are."""
    literals, space, marks = line[:inputs], line[inputs : inputs + 1], line[inputs + 1 :]
    if len(literals) < inputs or set(literals) - set("01-") or space != " " or len(marks) != outputs:
        return None
    return Cube(literals, marks, number)


# ---- the examination


def read_pla(text):
    """Question 12: what the text says, or the refusal raised."""
    if not 1 <= len(text) <= MAX_PLA:
        raise Refusal(12, 0)
    *ended, unended = text.decode("latin-1").split("\n")
    # A line without its end is bad whatever it holds, and stands where a missing line would: one past the ended ones.
    lines = cellref.Lines(ended, 12)

    def take(read, *words):
        said = read(lines.take(), *words)
        if said is None:
            lines.refuse()
        return said

    input_count = take(number_line, ".i", 1)
    output_count = take(number_line, ".o", 1)
    inputs = take(names_line, ".ilb", input_count)
    outputs = take(names_line, ".ob", output_count)
    cube_count = take(number_line, ".p", 0)
    cubes = []
    line = lines.take()
    while line != ".e":
        cube = cube_line(line, input_count, output_count, lines.number)
        if cube is None:
            lines.refuse()
        cubes.append(cube)
        line = lines.take()
    if len(cubes) != cube_count:
        lines.refuse()
    if unended or len(ended) > lines.number:
        raise Refusal(12, lines.number + 1)
    return Pla(inputs, outputs, cubes)


def ask_counts(pla):
    """Question 13."""
    if len(pla.inputs) > cellref.MAX_INPUTS:
        raise Refusal(13, 1)
    if len(pla.outputs) > cellref.MAX_OUTPUTS:
        raise Refusal(13, 2)


def ask_marks(pla):
    """Question 14."""
    for cube in pla.cubes:
        if set(cube.marks) - set("01"):
            raise Refusal(14, cube.line)


def read_board(text):
    """Questions 1 and 2 on the second text: the bound inputs and the limit, or the refusal raised."""
    if not cellref.sized(text):
        raise Refusal(1, 0)
    lines = cellref.Lines(text.decode("ascii").split("\n")[:-1], 2)
    bound = cellref.names_line(lines.take(), "bound")
    if bound is None:
        lines.refuse()
    limit = cellref.limit_line(lines.take())
    if limit is None:
        lines.refuse()
    if len(lines.ended) > lines.number:
        lines.take()
        lines.refuse()
    return bound, limit


def ask_names(pla):
    """Question 4 on the PLA text; that names are not too many is question 13's, that there is one question 12's."""
    if cellref.repeats(pla.inputs):
        raise Refusal(4, 3)
    if cellref.repeats(pla.inputs + pla.outputs):
        raise Refusal(4, 4)


def ask_board(inputs, bound, limit):
    """Questions 3 to 5 on the second text."""
    if not 1 <= len(bound) <= cellref.MAX_BOUND:
        raise Refusal(3, 1)
    if cellref.repeats(bound):
        raise Refusal(4, 1)
    if not cellref.all_among(bound, inputs):
        raise Refusal(5, 1)
    if limit > cellref.MAX_LIMIT:
        raise Refusal(3, 2)


def examine(pla_text, board_text):
    """The design that a pair gives, or the refusal raised; its line is a line of the text at fault."""
    pla = read_pla(pla_text)
    ask_counts(pla)
    ask_marks(pla)
    bound, limit = read_board(board_text)
    ask_names(pla)
    ask_board(pla.inputs, bound, limit)
    on_sets = [[cube for cube in pla.cubes if cube.marks[o] == "1"] for o in range(len(pla.outputs))]
    outputs = [Output(name, pla.inputs, cubes) for name, cubes in zip(pla.outputs, on_sets)]
    return cellref.Design(pla.inputs, bound, limit, outputs)


# ---- the operations


def table(pla_text, board_text, output, buffer=cellref.ENDLESS):
    """Table: the digits, or the refusal raised."""
    return cellref.table_of(examine(pla_text, board_text), output, buffer)


def map_pair(pla_text, board_text, buffer=cellref.ENDLESS):
    """Map: the number of cells and the network, or the refusal raised."""
    return cellref.map_of(examine(pla_text, board_text), buffer)


def check(pla_text, board_text, network_text):
    """Check (clause 11.4): None where the network computes the design, else the lowest output that does not agree, and its row."""
    return cellref.check_of(examine(pla_text, board_text), network_text)


def with_outputs(pla_text, chosen):
    """A valid PLA text with some of its outputs alone: five lines stand before the cubes, and `.e` after them."""
    def marks(line):
        literals, mark = line.split(" ")
        return literals + " " + "".join(mark[o] for o in chosen)

    inputs, _, input_names, output_names, count, *cubes, end = pla_text.decode("ascii").splitlines()
    names = output_names.split(" ")[1:]
    head = [inputs, f".o {len(chosen)}", input_names, " ".join([".ob", *(names[o] for o in chosen)]), count]
    return "".join(line + "\n" for line in [*head, *map(marks, cubes), end]).encode("ascii")


def cause(pla_text, board_text):
    """The outputs that are the cause where Map refuses the pair by 8, else None."""
    if not cellref.lacks_cells(examine, pla_text, board_text):
        return None
    count = len(examine(pla_text, board_text).outputs)
    return cellref.first_cause(count, lambda chosen: cellref.lacks_cells(examine, with_outputs(pla_text, chosen), board_text))


# ---- the command line


def run(command, words):
    texts, numbers = cellref.read_files(*words[:2]), words[2:]
    if command == "table" and len(numbers) in (1, 2):
        digits = table(*texts, *map(int, numbers))
        return print(f"written {len(digits)} {digits}")
    if command == "map" and len(numbers) < 2:
        return print(map_pair(*texts, *map(int, numbers))[1], end="")
    if command == "cause" and not numbers:
        return print(cellref.said_cause(cause(*texts)))
    if command == "check" and len(numbers) == 1:
        found = check(*texts, *cellref.read_files(*numbers))
        return print("same" if found is None else f"differs output {found[0]} row {found[1]}")
    sys.exit(__doc__)


def main():
    if len(sys.argv) < 4:
        sys.exit(__doc__)
    try:
        run(sys.argv[1], sys.argv[2:])
    except Refusal as refusal:
        print(refusal)


if __name__ == "__main__":
    main()
