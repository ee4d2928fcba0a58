"""Every kind of refusal with the words that the command-line tool has for it: SHEETS has (command, design sheet, standard error),
NETWORKS (network sheet, standard error) beside the sheet SHEET, PANELS (command, PLA text, second text, standard error). The files
are a.sheet, a.network, a.pla and a.board."""

import sheets_to_try

SHEET, NETWORK = sheets_to_try.sheet("a"), sheets_to_try.network("a")
PLA, BOARD = sheets_to_try.pla("a")
SIZE = "refused by 1: expected 1 to 4096 bytes, all printable or 0x0A, the last 0x0A\n"
AFTER = "expected (out NAME FORMULA) or (end), and nothing after (end)"


def lines(text, first, last, *others):
    """The text with other lines for some of its lines"""
    every = text.splitlines(keepends=True)
    return b"".join(every[: first - 1] + [line.encode("latin-1") + b"\n" for line in others] + every[last:])


def refused(name, number, line, why, shown=None):
    at = f"{name}:{line}" if line else name
    return f"{at}: refused by {number}: {why}\n" + ("" if shown is None else f"    {shown}\n")


def on(name, text):
    """Cases of one line: the text with another line, or without those from there on where the line is None, and what is told of it"""

    def case(number, line, other, why, shown=None):
        if other is None:
            return lines(text, line, len(text)), refused(name, number, line, f"the line is missing; {why}")
        return lines(text, line, line, other), refused(name, number, line, why, other if shown is None else shown)

    return case


sheet = on("a.sheet", SHEET)
network = on("a.network", NETWORK)
panel = on("a.pla", PLA)
board = on("a.board", BOARD)


def deep(depth):
    return "(not " * depth + "a" + ")" * depth


def with_head(bound, limit, *outputs):
    out = "".join(f"(out {output})\n" for output in outputs)
    return f"(design 1)\n(in a b c d e x)\n(bound {bound})\n(limit {limit})\n{out}(end)\n".encode()


# ---- design sheets

LONG = "(out f (and " + "a " * 60 + "2))"
TAKEN = "an output has the name of an input or of an earlier output"
OF_SHEETS = [
    *((text, f"a.sheet: {SIZE}") for text in (b"", SHEET[:-1], SHEET.replace(b"xor ", b"xor\t"), SHEET + b"\n" * 4000)),
    sheet(2, 1, "(design 2)", "expected (design 1)"),
    sheet(2, 2, "(inputs a b)", "expected (in NAME ..)"),
    sheet(2, 2, "(in a b c Xor)", "expected (in NAME ..)"),
    sheet(2, 3, "(bound a AND)", "expected (bound NAME ..)"),
    sheet(2, 4, "(limit 02)", "expected (limit NUMBER)"),
    sheet(2, 5, "(out f (xor a))", AFTER),
    sheet(2, 5, "(out f (Xor a b c d))", AFTER),
    sheet(2, 6, "", AFTER),
    sheet(2, 5, LONG, AFTER, LONG[:100] + " .."),
    *(sheet(2, line, None, why) for line, why in ((2, "expected (in NAME ..)"), (4, "expected (limit NUMBER)"), (7, AFTER))),
    (SHEET + b"(end)\n", refused("a.sheet", 2, 8, AFTER, "(end)")),
    sheet(3, 2, "(in)", "a panel has 1 to 10 inputs"),
    sheet(3, 2, "(in a b c d e f g h i j k)", "a panel has 1 to 10 inputs"),
    sheet(3, 3, "(bound)", "a panel has 1 to 5 bound inputs"),
    sheet(3, 3, "(bound a b c d e f)", "a panel has 1 to 5 bound inputs"),
    sheet(3, 4, "(limit 7)", "the limit is 0 to 6"),
    sheet(3, 5, "(end)", "a panel has at least one output"),
    sheet(3, 5, f"(out f {deep(33)})", "brackets are at most 32 deep", f"(out f {deep(33)})"[:100] + " .."),
    (lines(SHEET, 7, 7, "(out h a)", "(out i a)", "(out j a)", "(end)"), refused("a.sheet", 3, 9, "a panel has at most 4 outputs", "(out j a)")),
    *(sheet(4, 2, line, "an input is given twice") for line in ("(in a b c a)", "(in a b c A)")),
    *(sheet(4, 3, line, "a bound input is given twice") for line in ("(bound a b b)", "(bound a B b)")),
    *(sheet(4, 5, line, TAKEN) for line in ("(out a (xor a b))", "(out D (xor a b))")),
    *(sheet(4, 6, line, TAKEN) for line in ("(out f a)", "(out F a)")),
    *(sheet(5, 3, line, "a name on this line is not an input") for line in ("(bound a e)", "(bound A E)")),
    sheet(5, 6, "(out g (not f))", "a name on this line is not an input"),
    (with_head("a b c d e", 6, "f (xor a (and x b))", "g (xor c (and x d))", "h e"), "a.sheet: refused by 7: a panel has at most 16 global classes\n"),
]
CAUSES = [
    (with_head("a b", 0, "f x", "g (and a b)"), "no network without cells serves the output g, even on its own"),
    (with_head("a b", 1, "f (xor a (and x b))", "g a"), "no single cell serves the output f, even on its own"),
    (with_head("a b", 1, "f x", "g a", "h (and x a)", "i b"), "no single cell serves the outputs g and i; every smaller set of outputs fits"),
    (with_head("a B", 1, "F x", "Go A", "h (and X a)", "I b"), "no single cell serves the outputs Go and I; every smaller set of outputs fits"),
    (with_head("a b", 2, "f a", "g b", "h (xor a b)", "i (and a b)"), "no 2 cells serve the outputs f, g and h; every smaller set of outputs fits"),
    (with_head("a b", 3, "f a", "g b", "h (xor a b)", "i (and a b)"), "no 3 cells serve the outputs f, g, h and i; every smaller set of outputs fits"),
]
OUTPUTS = ["2", "h", "", "a", "out", "1x", "H", "18446744073709551616"]
SHEETS = [
    *((["map"], *case) for case in OF_SHEETS),
    *((["map"], text, f"a.sheet: refused by 8: {why}\n") for text, why in CAUSES),
    *((["table", word], SHEET, f"a.sheet: refused by 6: there is no output {word}\n") for word in OUTPUTS),
    (["table", "h"], b"", f"a.sheet: {SIZE}"),
    (["table", "h"], *sheet(3, 4, "(limit 7)", "the limit is 0 to 6")),
]

# ---- network sheets

NEXT = "expected the lines of a network for this panel, and nothing after (end)"
END = "expected 0x0A at the end of the last line"
LUT = "(lut _0 (a b c) 01101001)"
LUTS = [LUT.replace("_0", f"_{k}") for k in range(2)] + ["(lut _2 (A b C) 01101001)"]
NETWORK_SIZE = "a.network: refused by 10: a network sheet has 1 to 8192 bytes\n"
NETWORKS = [
    *((text, NETWORK_SIZE) for text in (b"", NETWORK + b"\n" * 8192)),
    *(network(10, line, None, NEXT) for line in range(2, 7)),
    network(10, 1, "(network 1)\r", NEXT, "(network 1)\\x0D"),
    network(10, 2, "(lut _0 (a b c) 0110\xff\x001)", NEXT, "(lut _0 (a b c) 0110\\xFF\\x001)"),
    network(10, 2, "(Lut _0 (a b c) 01101001)", NEXT),
    network(10, 3, "(node f (d _0) 0110)", NEXT),
    network(10, 3, "(node G (_0 d) 0110)", NEXT),
    network(10, 5, "(count 2)", NEXT),
    (NETWORK + b"\n", refused("a.network", 10, 7, NEXT, "")),
    (NETWORK[:-1], refused("a.network", 10, 6, END, "(end)")),
    (NETWORK + b"x", refused("a.network", 10, 7, END, "x")),
    (lines(lines(NETWORK, 5, 5, "(count 3)"), 2, 2, *LUTS), refused("a.network", 11, 4, "more lut lines than the limit", LUTS[2])),
    (
        lines(lines(NETWORK, 5, 5, "(count 2)"), 2, 3, *LUTS[:2], "(node F (_0 _1 D) 01100110)"),
        refused("a.network", 11, 4, "the node reads more lut lines than its output's width", "(node F (_0 _1 D) 01100110)"),
    ),
]

# ---- panels as PLA

CUBE = "expected a cube, or .e after as many cubes as .p says, and nothing after .e"
WIDE = ".i 11\n.o 1\n.ilb a b c d e f g h i j k\n.ob o\n.p 0\n.e\n"
MANY = ".i 1\n.o 5\n.ilb a\n.ob f g h i j\n.p 0\n.e\n"
OF_PANELS = [
    *((text, BOARD, "a.pla: refused by 12: a PLA text has 1 to 32768 bytes\n") for text in (b"", PLA + b"\n" * 32768)),
    *(
        (text, BOARD, told)
        for text, told in (
            panel(12, 1, ".i 0", "expected .i NUMBER, 1 or more"),
            panel(12, 2, "# 2", "expected .o NUMBER, 1 or more"),
            panel(12, 3, ".ilb a b c", "expected .ilb and as many names as .i says"),
            panel(12, 3, ".ilb a b c Not", "expected .ilb and as many names as .i says"),
            panel(12, 4, ".ob f g h", "expected .ob and as many names as .o says"),
            panel(12, 5, ".p 012", "expected .p NUMBER"),
            panel(12, 6, "0001 1", CUBE),
            panel(12, 6, "00\x7f1 10", CUBE, "00\\x7F1 10"),
            panel(12, 2, None, "expected .o NUMBER, 1 or more"),
            panel(12, 18, None, CUBE),
            (PLA.replace(b".p 12", b".p 11"), refused("a.pla", 12, 18, CUBE, ".e")),
            (PLA + b".e\n", refused("a.pla", 12, 19, CUBE, ".e")),
            (PLA[:-1], refused("a.pla", 12, 18, END, ".e")),
            (WIDE.encode(), refused("a.pla", 13, 1, "a panel has at most 10 inputs", ".i 11")),
            (MANY.encode(), refused("a.pla", 13, 2, "a panel has at most 4 outputs", ".o 5")),
            panel(14, 7, "0010 1~", "a cube has 0 or 1 for each output"),
            panel(14, 7, "0010 1\xe9", "a cube has 0 or 1 for each output", "0010 1\\xE9"),
            panel(4, 3, ".ilb a b c a", "an input is given twice"),
            panel(4, 3, ".ilb a b c A", "an input is given twice"),
            panel(4, 4, ".ob f a", TAKEN),
            panel(4, 4, ".ob f F", TAKEN),
        )
    ),
    *((PLA, text, f"a.board: {SIZE}") for text in (b"", BOARD[:-1], b"\xff\n")),
    *(
        (PLA, text, told)
        for text, told in (
            board(2, 1, "(limit 2)", "expected (bound NAME ..)"),
            board(2, 2, "(limit)", "expected (limit NUMBER)"),
            board(2, 2, None, "expected (limit NUMBER)"),
            (BOARD + b"(end)\n", refused("a.board", 2, 3, "expected nothing after the limit line", "(end)")),
            board(3, 1, "(bound)", "a panel has 1 to 5 bound inputs"),
            board(3, 2, "(limit 7)", "the limit is 0 to 6"),
            board(4, 1, "(bound a a)", "a bound input is given twice"),
            board(4, 1, "(bound a A)", "a bound input is given twice"),
            board(5, 1, "(bound a x)", "a name on this line is not an input"),
        )
    ),
    (PLA, b"(bound a b c)\n(limit 0)\n", "a.pla: refused by 8: no network without cells serves the output f, even on its own\n"),
    (
        b".i 2\n.o 4\n.ilb a b\n.ob k f g h\n.p 3\n11 0001\n1- 0100\n-1 0010\n.e\n",
        b"(bound a b)\n(limit 2)\n",
        "a.pla: refused by 8: no 2 cells serve the outputs f, g and h; every smaller set of outputs fits\n",
    ),
]
PANELS = [
    *((["map"], *case) for case in OF_PANELS),
    *((["table", word], PLA, BOARD, f"a.pla: refused by 6: there is no output {word}\n") for word in ("2", "h", "")),
    (["table", "h"], *OF_PANELS[0]),
]
