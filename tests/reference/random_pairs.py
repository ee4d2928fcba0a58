"""Random pairs of a PLA text and a second text for the tests: with the tables and the names of a given design, of cubes drawn freely,
and damaged. The dice decide, so that a seed gives them again."""

import cellref
import random_sheets

BYTES = b" .01-2~ioplbe\na9()\x00\xff"


def text_of(lines):
    return "".join(line + "\n" for line in lines).encode("latin-1")


def pla_lines(inputs, outputs, cubes):
    head = [f".i {len(inputs)}", f".o {len(outputs)}", " ".join([".ilb", *inputs]), " ".join([".ob", *outputs])]
    return head + [f".p {len(cubes)}"] + cubes + [".e"]


def board_lines(bound, limit):
    return [f"(bound {' '.join(bound)})", f"(limit {limit})"]


# ---- the tables of a design


def grown(dice, row, digits, inputs):
    """A cube around a row of value 1, as large as it gets when inputs are left out in a random order, or not so large."""
    literals = list(f"{row:0{inputs}b}")
    rows = [row]
    for place in dice.sample(range(inputs), inputs):
        more = [r ^ 1 << (inputs - 1 - place) for r in rows]
        if dice.random() < 0.9 and all(digits[r] == "1" for r in more):
            literals[place] = "-"
            rows += more
    return "".join(literals), rows


def cubes_of(dice, tables, inputs):
    """Cubes with these tables: each output's on-set, some cubes for several outputs, cubes for none, and all of it shuffled."""
    marks = {}
    for output, digits in enumerate(tables):
        left = {row for row, digit in enumerate(digits) if digit == "1"}
        while left:
            cube, rows = grown(dice, dice.choice(sorted(left)), digits, inputs)
            left -= set(rows)
            for other, column in enumerate(tables):
                if other == output or (dice.random() < 0.5 and all(column[row] == "1" for row in rows)):
                    marks.setdefault(cube, set()).add(other)
    cubes = [f"{cube} {''.join('01'[o in own] for o in range(len(tables)))}" for cube, own in marks.items()]
    if dice.random() < 0.2:
        cubes.append(f"{''.join(dice.choice('01-') for _ in range(inputs))} {'0' * len(tables)}")
    if cubes and dice.random() < 0.2:
        cubes.append(dice.choice(cubes))
    dice.shuffle(cubes)
    return cubes


def of_design(dice, design):
    """A pair with the tables of a valid design, and its names, the bound ones in any case"""
    tables = [cellref.digits_of(design, output) for output in range(len(design.outputs))]
    cubes = cubes_of(dice, tables, len(design.inputs))
    names = [output.name for output in design.outputs]
    board = random_sheets.in_any_case(dice, text_of(board_lines(design.bound, design.limit)))
    return text_of(pla_lines(design.inputs, names, cubes)), board


# ---- cubes drawn freely, and damage


def drawn(dice):
    """The lines of a valid pair"""
    taken = []
    for _ in range(dice.randrange(1, 8)):
        taken.append(random_sheets.new_name(dice, taken))
    inputs = list(taken)
    for _ in range(dice.randrange(1, 5)):
        taken.append(random_sheets.new_name(dice, taken))
    outputs = taken[len(inputs) :]
    bound = dice.sample(inputs, dice.randrange(1, min(5, len(inputs)) + 1))
    cubes = []
    for _ in range(dice.randrange(9)):
        literals = "".join(dice.choice("01-") for _ in inputs)
        cubes.append(f"{literals} {''.join(dice.choice('01') for _ in outputs)}")
    return pla_lines(inputs, outputs, cubes), board_lines(bound, dice.randrange(7))


def break_a_rule(dice, lines, board):
    """One rule broken, everything else as it has to be, as far as that can be: both lists of lines are changed in place."""
    inputs, outputs = lines[2].split(" ")[1:], lines[3].split(" ")[1:]
    cubes = lines[5:-1]
    kind = dice.randrange(12)
    if kind == 0:
        lines[4] = f".p {dice.choice((len(cubes) + 1, max(0, len(cubes) - 1), 0, '00', '012', 99999, 100000))}"
    elif kind == 1:
        inputs = inputs[:9] + [f"more{k}" for k in range(11 - len(inputs[:9]))]
    elif kind == 2:
        outputs = outputs[:4] + [f"some{k}" for k in range(5 - len(outputs[:4]))]
    elif kind == 3 and cubes:
        k = dice.randrange(len(cubes))
        cubes[k] = cubes[k][:-1] + dice.choice("~2-/: \x00\xff4")
    elif kind == 4:
        inputs[dice.randrange(len(inputs))] = dice.choice(inputs + ["and", "abcdefghi", "a_", ""])
    elif kind == 5:
        outputs[dice.randrange(len(outputs))] = dice.choice(inputs + outputs + ["not", "abcdefghi", ""])
    elif kind == 6:
        board[0] = dice.choice(("(bound)", "(bound zz)", f"(bound {inputs[0]} {inputs[0]})", "(bound a b c d e f)", "(bound  a)"))
    elif kind == 7:
        board[1] = f"(limit {dice.choice((7, 999, 1000, '00', '07', ''))})"
    elif kind == 8:
        board.insert(dice.randrange(3), dice.choice(("", "(end)", board[0], board[1])))
    elif kind == 9:
        del board[dice.randrange(2)]
    elif kind == 10:
        lines[dice.randrange(2)] = dice.choice((".i 0", ".o 0", ".i 01", ".o 1", ".i 11", ".i 100000", ".i", "# 1"))
        return
    else:
        lines.insert(dice.randrange(len(lines) + 1), dice.choice(lines + [""]))
        return
    if kind in (1, 2):
        cubes = [f"{cube.split(' ', 1)[0]:->{len(inputs)}} {'1' * len(outputs)}" for cube in cubes]
        lines[0], lines[1] = f".i {len(inputs)}", f".o {len(outputs)}"
    lines[2], lines[3] = " ".join([".ilb", *inputs]), " ".join([".ob", *outputs])
    lines[5:-1] = cubes


def byte_damaged(dice, text):
    body = bytearray(text)
    place = dice.randrange(len(body))
    kind = dice.randrange(6)
    if kind == 0:
        body[place] = dice.choice(BYTES)
    elif kind == 1:
        body[place] = dice.randrange(256)
    elif kind == 2:
        del body[place]
    elif kind == 3:
        body.insert(place, dice.choice(BYTES))
    elif kind == 4:
        del body[place:]
    else:
        del body[place : body.find(b"\n", place) + 1]
    return bytes(body)


def damaged(dice):
    """The texts of a pair, mostly with a rule or two broken, or bytes damaged, half of them in any case"""
    lines, board = drawn(dice)
    for _ in range(dice.choice((0, 1, 1, 1, 2))):
        # a second rule is broken where the lines still stand in their places
        if len(board) == 2 and lines[2].startswith(".ilb ") and lines[3].startswith(".ob "):
            break_a_rule(dice, lines, board)
    texts = [text_of(lines), text_of(board)]
    if dice.random() < 0.4:
        which = dice.choice((0, 0, 0, 1))
        texts[which] = byte_damaged(dice, texts[which])
    if dice.random() < 0.5:
        texts = [random_sheets.in_any_case(dice, text) for text in texts]
    return tuple(texts)
