"""Random design sheets for the tests, valid ones and damaged ones, in small letters and in any case. The dice decide, so that a seed
gives them again."""

import re

import cellref

TRICKY = "in out end bound limit design andy nota orx xor1 and1 not0 no an o xo".split()
LETTERS = "abcdefghijklmnopqrstuvwxyz"
BYTES = b" ()01a9z~A_\n2"


# ---- valid sheets


def new_name(dice, taken):
    while True:
        if dice.random() < 0.2:
            name = dice.choice(TRICKY)
        else:
            name = dice.choice(LETTERS) + "".join(dice.choice(LETTERS + "0123456789") for _ in range(dice.randrange(8)))
        if name not in taken and name not in cellref.OPERATORS:
            return name


def atom(dice, inputs):
    return dice.choice("01") if dice.random() < 0.1 else dice.choice(inputs)


def formula(dice, inputs, depth):
    """A formula of exactly this depth: one operand is as deep as that asks, the others are shallow."""
    if depth == 0:
        return atom(dice, inputs)
    operator = dice.choice(cellref.OPERATORS)
    parts = [formula(dice, inputs, depth - 1)]
    if operator != "not":
        for _ in range(dice.choice((1, 1, 1, 1, 2, 2, 3, 4))):
            parts.append(formula(dice, inputs, dice.choice((0, 0, 0, 0, 1)) if depth > 1 else 0))
    dice.shuffle(parts)
    return f"({operator} {' '.join(parts)})"


def sheet(dice, count, most_bound, depths):
    """The lines of a valid sheet of so many inputs, at most so many of them bound, with formulas of these depths."""
    taken = []
    for _ in range(count):
        taken.append(new_name(dice, taken))
    inputs = list(taken)
    bound = dice.sample(inputs, dice.randrange(1, min(most_bound, count) + 1))
    lines = ["(design 1)", f"(in {' '.join(inputs)})", f"(bound {' '.join(bound)})", f"(limit {dice.randrange(7)})"]
    for _ in range(dice.randrange(1, 5)):
        taken.append(new_name(dice, taken))
        lines.append(f"(out {taken[-1]} {formula(dice, inputs, dice.choice(depths))})")
    return lines + ["(end)"]


def valid(dice):
    """The lines of a valid sheet."""
    count = dice.choice((1, 2, 3, 3, 4, 4, 5, 5, 6, 6, 7, 8, 9, 10))
    return sheet(dice, count, 5, (0, 1, 1, 2, 2, 3, 3, 4, 5, 8, 32))


def wide(dice):
    """The lines of a valid sheet of many free inputs."""
    return sheet(dice, dice.choice((8, 9, 10, 10)), 2, (1, 2, 3, 3, 4, 5, 8))


def text_of(lines):
    return "".join(line + "\n" for line in lines).encode("latin-1")


# ---- damage: each function takes the lines of a valid sheet and answers a text


def byte_lost(dice, lines):
    text = text_of(lines)
    at = dice.randrange(len(text))
    return text[:at] + text[at + 1 :]


def byte_more(dice, lines):
    text = text_of(lines)
    at = dice.randrange(len(text) + 1)
    return text[:at] + bytes([dice.choice(BYTES)]) + text[at:]


def byte_changed(dice, lines):
    text = text_of(lines)
    at = dice.randrange(len(text))
    return text[:at] + bytes([dice.choice(BYTES)]) + text[at + 1 :]


def byte_any(dice, lines):
    text = text_of(lines)
    at = dice.randrange(len(text))
    return text[:at] + bytes([dice.randrange(256)]) + text[at + 1 :]


def bytes_swapped(dice, lines):
    text = text_of(lines)
    at = dice.randrange(len(text) - 1)
    return text[:at] + text[at + 1 : at + 2] + text[at : at + 1] + text[at + 2 :]


def text_cut(dice, lines):
    text = text_of(lines)
    return text[: dice.randrange(len(text))]


def line_lost(dice, lines):
    k = dice.randrange(len(lines))
    return text_of(lines[:k] + lines[k + 1 :])


def line_twice(dice, lines):
    k = dice.randrange(len(lines))
    return text_of(lines[: k + 1] + lines[k:])


def lines_swapped(dice, lines):
    k = dice.randrange(1, len(lines))
    return text_of(lines[: k - 1] + [lines[k], lines[k - 1]] + lines[k + 1 :])


def line_cut(dice, lines):
    k = dice.randrange(len(lines))
    return text_of(lines[:k] + [lines[k][: dice.randrange(len(lines[k]))]] + lines[k + 1 :])


def word_changed(dice, lines):
    """One word of a line becomes another word of the sheet, or comes beside it; brackets stay."""
    others = " ".join(lines).replace("(", "").replace(")", "").split() + ["and", "not", "7", "unknown", "ninechars", ""]
    k = dice.randrange(1, len(lines))
    words = lines[k].split(" ")
    at = dice.randrange(len(words))
    inner = words[at].strip("()")
    other = dice.choice(others)
    if inner and dice.random() < 0.7:
        words[at] = words[at].replace(inner, other, 1)
    else:
        words.insert(at, other)
    return text_of(lines[:k] + [" ".join(words)] + lines[k + 1 :])


def names_more(dice, lines):
    """More names on the `in` line or the `bound` line, new ones and old ones."""
    k = dice.choice((1, 2))
    names = lines[k][1:-1].split(" ")[1:]
    old = lines[1][1:-1].split(" ")[1:]
    for _ in range(dice.randrange(1, 6)):
        names.insert(dice.randrange(len(names) + 1), dice.choice(old) if dice.random() < 0.4 else new_name(dice, names))
    return text_of(lines[:k] + [f"({'in' if k == 1 else 'bound'} {' '.join(names)})"] + lines[k + 1 :])


def limit_changed(dice, lines):
    number = dice.choice((str(dice.randrange(6, 9)), str(dice.randrange(1100)), f"{dice.randrange(9):02}"))
    return text_of(lines[:3] + [f"(limit {number})"] + lines[4:])


def outputs_more(dice, lines):
    """More `out` lines, each like an earlier one; a new name, an old one, or an input's."""
    outs = lines[4:-1]
    for _ in range(dice.randrange(1, 5)):
        _, name, rest = dice.choice(outs).split(" ", 2)
        name = dice.choice((name, new_name(dice, []), new_name(dice, []), lines[1][1:-1].split(" ")[1]))
        outs.append(f"(out {name} {rest}")
    return text_of(lines[:4] + outs + ["(end)"])


def formula_deeper(dice, lines):
    """Brackets around a formula, so many that its depth comes near the most that is allowed, or above it."""
    k = dice.randrange(4, len(lines) - 1)
    _, name, rest = lines[k].split(" ", 2)
    more = dice.randrange(28, 36)
    return text_of(lines[:k] + [f"(out {name} {'(not ' * more}{rest[:-1]}{')' * more})"] + lines[k + 1 :])


def output_renamed(dice, lines):
    k = dice.randrange(4, len(lines) - 1)
    _, name, rest = lines[k].split(" ", 2)
    taken = lines[1][1:-1].split(" ")[1:] + [line.split(" ")[1] for line in lines[4:-1] if line.split(" ")[1] != name]
    return text_of(lines[:k] + [f"(out {dice.choice(taken)} {rest}"] + lines[k + 1 :])


DAMAGE = [
    byte_lost,
    byte_more,
    byte_changed,
    byte_any,
    bytes_swapped,
    text_cut,
    line_lost,
    line_twice,
    lines_swapped,
    line_cut,
    word_changed,
    word_changed,
    names_more,
    limit_changed,
    outputs_more,
    formula_deeper,
    output_renamed,
]


def damaged(dice):
    """The text of a sheet with one thing changed, mostly so that it is not valid any more."""
    return dice.choice(DAMAGE)(dice, valid(dice))


# ---- capitals


WORD = rb"[A-Za-z][A-Za-z0-9]*"
WORDS = re.compile(WORD)
NAMES = re.compile(rb"(?<= )" + WORD)  # of every text but a network sheet, whose lists of names open with a bracket
NETWORK_NAMES = re.compile(rb"(?<= )" + WORD + rb"|(?<= \()" + WORD)


def any_case(dice, word):
    each = bytes(dice.choice(letters) for letters in zip(word.lower(), word.upper()))
    return dice.choice((word, word.upper(), word.capitalize(), each))


def in_any_case(dice, text, names=NAMES):
    """A text with its names in any case, each place for itself."""
    return names.sub(lambda name: any_case(dice, name.group()), text)


def word_turned(dice, lines):
    """One word in the other case: a name, an operator or the first of a line."""
    text = text_of(lines)
    word = dice.choice(list(WORDS.finditer(text)))
    return text[: word.start()] + word.group().swapcase() + text[word.end() :]


def mixed(dice):
    """The text of a valid sheet in any case."""
    return in_any_case(dice, text_of(valid(dice)))


def mixed_damaged(dice):
    """The text of a sheet in any case with one thing changed."""
    return in_any_case(dice, dice.choice([*DAMAGE, word_turned, word_turned])(dice, valid(dice)))
