"""Pairs of a PLA text and a second text at every boundary of questions 12, 13 and 14 and of what is asked after them, each with
what Map must answer: the network, or `refused N line L`. Worked by hand; CASES has (name, PLA text, second
text, answer)."""

import sheets_to_try

# Sheet A as PLA: f = a xor b xor c xor d, and g = d where a xor b xor c is 1.
A, BOARD = sheets_to_try.pla("a")
NETWORK = sheets_to_try.network("a").decode("ascii")
FIRST = 6  # the line of the first cube
HEAD = b"".join(A.splitlines(keepends=True)[:4])
CUBES = A.splitlines()[FIRST - 1:-1]
END = FIRST + len(CUBES)  # the line of .e


def text(head, cubes, count=None, end=b".e\n"):
    return head + b".p %d\n" % (len(cubes) if count is None else count) + b"".join(cube + b"\n" for cube in cubes) + end


def refused(number, line):
    return f"refused {number} line {line}\n"


def sized(size):
    """A as a text of so many bytes, near 32,768: the first names are longer, and cubes that are in no on-set come last. A cube takes
    8 bytes, and eight characters can be had by names, so every size can be had."""
    for more in range(8):
        names = [b"a" + b"x" * min(more, 7), b"b", b"c", b"d"]
        head = b".i 4\n.o 2\n.ilb " + b" ".join(names) + b"\n.ob f g\n"
        room = size - len(text(head, [], 1000))
        if room % 8 == 0:
            return text(head, CUBES + [b"---- 00"] * (room // 8 - len(CUBES))), names[0]
    raise ValueError(size)


def sized_case(size, answer=None):
    pla, name = sized(size)
    assert len(pla) == size
    network = NETWORK.replace("(a b c)", f"({name.decode()} b c)")
    return pla, BOARD.replace(b"(bound a ", b"(bound " + name + b" "), network if answer is None else answer


def panel(inputs, outputs, cubes):
    """A PLA text over the names i0, i1 .. and o0, o1 .."""
    names = [[letter + b"%d" % k for k in range(count)] for letter, count in ((b"i", inputs), (b"o", outputs))]
    head = b".i %d\n.o %d\n" % (inputs, outputs) + b".ilb " + b" ".join(names[0]) + b"\n.ob " + b" ".join(names[1]) + b"\n"
    return text(head, cubes)


def nodes(*lines):
    return "".join(line + "\n" for line in ["(network 1)", *lines, "(count 0)", "(end)"])


def line(number, other):
    """A with one line for another"""
    lines = A.split(b"\n")
    lines[number - 1] = other
    return b"\n".join(lines)


CASES = [
    # ---- what is taken
    ("sheet A", A, BOARD, NETWORK),
    ("cubes in any order, one twice", text(HEAD, CUBES[::-1] + CUBES[:1]), BOARD, NETWORK),
    ("cubes for both outputs, some that overlap", text(HEAD, CUBES + [b"000- 00", b"0011 01", b"---- 00"]), BOARD, NETWORK),
    ("no cubes", text(HEAD, []), BOARD, nodes("(node f (d) 00)", "(node g (d) 00)")),
    ("no literals", text(HEAD, [b"---- 10"]), BOARD, nodes("(node f (d) 11)", "(node g (d) 00)")),
    ("a dash is both", text(HEAD, [b"---1 10", b"---0 01"]), BOARD, nodes("(node f (d) 01)", "(node g (d) 10)")),
    ("one input, one output", panel(1, 1, [b"0 1", b"1 1"]), b"(bound i0)\n(limit 0)\n", nodes("(node o0 () 1)")),
    ("capitals", line(3, b".ilb A b C D"), BOARD, NETWORK.replace("(a b c)", "(A b C)").replace(" d)", " D)")),
    ("an output in capitals", line(4, b".ob f G"), BOARD, NETWORK.replace("node g", "node G")),
    ("bound inputs in another case", A, b"(bound A b C)\n(limit 2)\n", NETWORK),
    # ---- 12: the size
    ("no bytes", b"", BOARD, refused(12, 0)),
    ("32,767 bytes", *sized_case(32767)),
    ("32,768 bytes", *sized_case(32768)),
    ("32,769 bytes", *sized_case(32769, refused(12, 0))),
    ("32,769 bytes, the first line bad", b"." + sized(32768)[0], BOARD, refused(12, 0)),
    ("32,768 bytes without an end", b"x" * 32768, BOARD, refused(12, 1)),
    ("nothing but 32,768 ends", b"\n" * 32768, BOARD, refused(12, 1)),
    ("nothing but 32,769 ends", b"\n" * 32769, BOARD, refused(12, 0)),
    # ---- 12: the numbers
    ("`.i 0`", line(1, b".i 0"), BOARD, refused(12, 1)),
    ("`.i 04`", line(1, b".i 04"), BOARD, refused(12, 1)),
    ("`.i 01`", line(1, b".i 01"), BOARD, refused(12, 1)),
    ("`.i 100000`", line(1, b".i 100000"), BOARD, refused(12, 1)),
    ("`.i 99999`: so many names are not there", line(1, b".i 99999"), BOARD, refused(12, 3)),
    ("`.i` without a number", line(1, b".i"), BOARD, refused(12, 1)),
    ("`.i` and a space", line(1, b".i "), BOARD, refused(12, 1)),
    ("two spaces", line(1, b".i  4"), BOARD, refused(12, 1)),
    ("a space after the number", line(1, b".i 4 "), BOARD, refused(12, 1)),
    ("a sign", line(1, b".i +4"), BOARD, refused(12, 1)),
    ("0x0D before 0x0A", line(1, b".i 4\r"), BOARD, refused(12, 1)),
    ("a comment", b"# panel\n" + A, BOARD, refused(12, 1)),
    ("an empty line", b"\n" + A, BOARD, refused(12, 1)),
    ("`.o 0`", line(2, b".o 0"), BOARD, refused(12, 2)),
    ("`.o 02`", line(2, b".o 02"), BOARD, refused(12, 2)),
    ("`.o 100000`", line(2, b".o 100000"), BOARD, refused(12, 2)),
    ("`.o` in the place of `.i`", line(1, b".o 4"), BOARD, refused(12, 1)),
    ("`.p 00`", line(5, b".p 00"), BOARD, refused(12, 5)),
    ("`.p 012`", line(5, b".p 012"), BOARD, refused(12, 5)),
    ("`.p 100000`", line(5, b".p 100000"), BOARD, refused(12, 5)),
    ("`.p` without a number", line(5, b".p"), BOARD, refused(12, 5)),
    ("`.p` missing", line(5, b"0000 00"), BOARD, refused(12, 5)),
    # ---- 12: the names
    ("a name too many", line(3, b".ilb a b c d e"), BOARD, refused(12, 3)),
    ("a name too few", line(3, b".ilb a b c"), BOARD, refused(12, 3)),
    ("no names", line(3, b".ilb"), BOARD, refused(12, 3)),
    ("two spaces between names", line(3, b".ilb a  b c d"), BOARD, refused(12, 3)),
    ("a space after the names", line(3, b".ilb a b c d "), BOARD, refused(12, 3)),
    ("eight characters", text(HEAD.replace(b"d\n", b"abcdefgh\n"), CUBES), BOARD, NETWORK.replace(" d)", " abcdefgh)")),
    ("nine characters", line(3, b".ilb a b c abcdefghi"), BOARD, refused(12, 3)),
    ("an operator word", line(3, b".ilb a b c xor"), BOARD, refused(12, 3)),
    ("an operator word in another case", line(3, b".ilb a b c Xor"), BOARD, refused(12, 3)),
    ("`.ILB`", line(3, b".ILB a b c d"), BOARD, refused(12, 3)),
    ("a digit first", line(3, b".ilb a b c 0d"), BOARD, refused(12, 3)),
    ("no outputs", line(4, b".ob"), BOARD, refused(12, 4)),
    ("`.Ob`", line(4, b".Ob f g"), BOARD, refused(12, 4)),
    ("`.ilb` in the place of `.ob`", line(4, b".ilb f g"), BOARD, refused(12, 4)),
    ("an output too many", line(4, b".ob f g h"), BOARD, refused(12, 4)),
    ("an output too few", line(4, b".ob f"), BOARD, refused(12, 4)),
    ("an operator word as an output", line(4, b".ob f not"), BOARD, refused(12, 4)),
    ("an operator word in another case as an output", line(4, b".ob f NOT"), BOARD, refused(12, 4)),
    ("nine characters of an output", line(4, b".ob f abcdefghi"), BOARD, refused(12, 4)),
    ("outputs before inputs", HEAD.replace(b".ilb a b c d\n.ob f g\n", b".ob f g\n.ilb a b c d\n") + b".p 0\n.e\n", BOARD, refused(12, 3)),
    # ---- 12: the cubes
    ("a cube with a 2", line(FIRST, b"0201 10"), BOARD, refused(12, FIRST)),
    ("a literal too few", line(FIRST, b"001 10"), BOARD, refused(12, FIRST)),
    ("a literal too many", line(FIRST, b"00001 10"), BOARD, refused(12, FIRST)),
    ("no space", line(FIRST, b"000110"), BOARD, refused(12, FIRST)),
    ("two spaces before the output part", line(FIRST, b"0001  10"), BOARD, refused(12, FIRST)),
    ("a tab", line(FIRST, b"0001\t10"), BOARD, refused(12, FIRST)),
    ("an output part too long", line(FIRST, b"0001 100"), BOARD, refused(12, FIRST)),
    ("an output part too short", line(FIRST, b"0001 1"), BOARD, refused(12, FIRST)),
    ("no output part", line(FIRST, b"0001 "), BOARD, refused(12, FIRST)),
    ("an empty line among the cubes", line(FIRST, b""), BOARD, refused(12, FIRST)),
    *((f"a second cube {cube.decode()}", line(FIRST + 1, cube), BOARD, refused(12, FIRST + 1)) for cube in (b"02-1 10", b"0010 1", b"", b".e ", b".e")),
    ("`.p 99999`", text(HEAD, CUBES, 99999), BOARD, refused(12, END)),
    ("`.p` one too many", text(HEAD, CUBES, len(CUBES) + 1), BOARD, refused(12, END)),
    ("`.p` one too few", text(HEAD, CUBES, len(CUBES) - 1), BOARD, refused(12, END)),
    ("`.p 0` before cubes", text(HEAD, CUBES, 0), BOARD, refused(12, END)),
    ("`.p 1` without cubes", text(HEAD, [], 1), BOARD, refused(12, FIRST)),
    ("`.p` wrong and a cube bad: the cube comes first", text(HEAD, CUBES + [b"0"], 0), BOARD, refused(12, END)),
    # ---- 12: the end
    ("`.e` missing", text(HEAD, CUBES, end=b""), BOARD, refused(12, END)),
    ("`.e` missing after `.p 0`", text(HEAD, [], end=b""), BOARD, refused(12, FIRST)),
    ("`.end`", text(HEAD, CUBES, end=b".end\n"), BOARD, refused(12, END)),
    ("`.e` and a space", text(HEAD, CUBES, end=b".e \n"), BOARD, refused(12, END)),
    ("`.e` without 0x0A", text(HEAD, CUBES, end=b".e"), BOARD, refused(12, END)),
    ("`.e` without 0x0A and `.p` wrong", text(HEAD, CUBES, 0, end=b".e"), BOARD, refused(12, END)),
    ("the last cube without 0x0A", text(HEAD, CUBES, end=b"")[:-1], BOARD, refused(12, END - 1)),
    ("a line after `.e`", A + b".e\n", BOARD, refused(12, END + 1)),
    ("an empty line after `.e`", A + b"\n", BOARD, refused(12, END + 1)),
    ("bytes after `.e`", A + b"x", BOARD, refused(12, END + 1)),
    ("a line after `.e` and `.p` wrong", text(HEAD, CUBES, 0) + b"\n", BOARD, refused(12, END)),
    ("no 0x0A and an earlier bad line", line(2, b".o 0")[:-1], BOARD, refused(12, 2)),
    ("the first line alone", b".i 4\n", BOARD, refused(12, 2)),
    ("the first line without 0x0A", b".i 4", BOARD, refused(12, 1)),
    ("four lines", HEAD, BOARD, refused(12, 5)),
    # ---- 13
    ("ten inputs", panel(10, 1, [b"---------1 1"]), b"(bound i0)\n(limit 0)\n", nodes("(node o0 (i1 i2 i3 i4 i5 i6 i7 i8 i9) " + "01" * 256 + ")")),
    ("eleven inputs", panel(11, 1, [b"----------1 1"]), b"(bound i0)\n(limit 0)\n", refused(13, 1)),
    ("four outputs", panel(1, 4, [b"- 1010"]), b"(bound i0)\n(limit 0)\n", nodes(*(f"(node o{k} () {1 - k % 2})" for k in range(4)))),
    ("five outputs", panel(1, 5, [b"- 10101"]), b"(bound i0)\n(limit 0)\n", refused(13, 2)),
    ("eleven inputs and five outputs", panel(11, 5, []), b"(bound i0)\n(limit 0)\n", refused(13, 1)),
    ("a thousand inputs", panel(1000, 1, [b"1" * 1000 + b" 1"]), b"(bound i0)\n(limit 0)\n", refused(13, 1)),
    ("a thousand outputs", panel(1, 1000, [b"1 " + b"1" * 1000]), b"(bound i0)\n(limit 0)\n", refused(13, 2)),
    # ---- 14
    ("`~` in an output part", line(FIRST, b"0001 1~"), BOARD, refused(14, FIRST)),
    ("`2` in an output part", line(FIRST + 3, b"0111 20"), BOARD, refused(14, FIRST + 3)),
    ("`-` in an output part", line(END - 1, b"1111 -1"), BOARD, refused(14, END - 1)),
    ("a space in an output part", line(FIRST, b"0001 1 "), BOARD, refused(14, FIRST)),
    ("`/` in an output part", line(FIRST, b"0001 /1"), BOARD, refused(14, FIRST)),
    ("0xFF in an output part", line(FIRST, b"0001 1\xff"), BOARD, refused(14, FIRST)),
    ("0x80 in an output part", line(FIRST, b"0001 \x80\x80"), BOARD, refused(14, FIRST)),
    ("0x0D in an output part", line(FIRST, b"0001 0\r"), BOARD, refused(14, FIRST)),
    ("0x00 in an output part", line(FIRST, b"0001 \x000"), BOARD, refused(14, FIRST)),
    ("two such lines", line(FIRST, b"0001 1~").replace(b"1111 01", b"1111 2~"), BOARD, refused(14, FIRST)),
    # ---- 12, 13, 14 in turn
    ("14, and `.p` wrong", text(HEAD, [b"0001 1~"], 2), BOARD, refused(12, FIRST + 1)),
    ("14, and a line after `.e`", text(HEAD, [b"0001 1~"]) + b"\n", BOARD, refused(12, FIRST + 2)),
    ("14, and a bad cube after it", text(HEAD, [b"0001 1~", b"0002 10"]), BOARD, refused(12, FIRST + 1)),
    ("13, and `.p` wrong", panel(11, 1, []).replace(b".p 0", b".p 1"), BOARD, refused(12, FIRST)),
    ("13 on `.i` and 14", panel(11, 1, [b"1" * 11 + b" 2"]), BOARD, refused(13, 1)),
    ("13 on `.o` and 14", panel(1, 5, [b"1 00002"]), BOARD, refused(13, 2)),
    ("13 on `.o`, and 4 on `.ilb`", panel(2, 5, []).replace(b".ilb i0 i1", b".ilb i0 i0"), BOARD, refused(13, 2)),
    # ---- the second text: 1
    ("second text: no bytes", A, b"", refused(1, 0)),
    ("second text: no 0x0A at the end", A, BOARD[:-1], refused(1, 0)),
    ("second text: 0x7F", A, BOARD.replace(b"a b", b"a\x7fb"), refused(1, 0)),
    ("second text: 0x09", A, BOARD.replace(b"a b", b"a\tb"), refused(1, 0)),
    ("second text: 0x80", A, BOARD.replace(b"a b", b"a\x80b"), refused(1, 0)),
    ("second text: 0x00", A, BOARD + b"\0\n", refused(1, 0)),
    ("second text: 4,096 bytes", A, b"(bound" + b" a" * 2037 + b" bbb)\n(limit 2)\n", refused(3, 1)),
    ("second text: 4,097 bytes", A, b"(bound" + b" a" * 2037 + b" bbbb)\n(limit 2)\n", refused(1, 0)),
    ("second text: 4,097 bytes, the first line bad", A, b" " * 4096 + b"\n", refused(1, 0)),
    # ---- the second text: 2
    ("second text: one line", A, b"(bound a b c)\n", refused(2, 2)),
    ("second text: the limit alone", A, b"(limit 2)\n", refused(2, 1)),
    ("second text: one empty line", A, b"\n", refused(2, 1)),
    ("second text: three lines", A, BOARD + b"(end)\n", refused(2, 3)),
    ("second text: a third line, empty", A, BOARD + b"\n", refused(2, 3)),
    ("second text: four lines", A, BOARD + BOARD, refused(2, 3)),
    ("second text: a third line, and the limit misspelled", A, b"(bound a)\n(limit 02)\n\n", refused(2, 2)),
    ("second text: the lines exchanged", A, b"(limit 2)\n(bound a b c)\n", refused(2, 1)),
    ("second text: a whole head", A, b"(design 1)\n(in a b c d)\n" + BOARD, refused(2, 1)),
    ("second text: limit misspelled, and six names", A, b"(bound a b c d e f)\n(limit 02)\n", refused(2, 2)),
    ("second text: limit of four digits", A, b"(bound a)\n(limit 1000)\n", refused(2, 2)),
    ("second text: an operator word", A, b"(bound a and)\n(limit 2)\n", refused(2, 1)),
    ("second text: an operator word in another case", A, b"(bound a And)\n(limit 2)\n", refused(2, 1)),
    ("second text: `(Bound ..)`", A, b"(Bound a b c)\n(limit 2)\n", refused(2, 1)),
    ("second text: one line of six names", A, b"(bound a b c d e f)\n", refused(2, 2)),
    ("second text: a third line, and six names", A, b"(bound a b c d e f)\n(limit 7)\n(end)\n", refused(2, 3)),
    # ---- the second text: 3 to 5
    ("no bound inputs", A, b"(bound)\n(limit 2)\n", refused(3, 1)),
    ("six bound inputs", panel(6, 1, []), b"(bound i0 i1 i2 i3 i4 i5)\n(limit 2)\n", refused(3, 1)),
    ("five bound inputs", panel(6, 1, []), b"(bound i0 i1 i2 i3 i4)\n(limit 2)\n", nodes("(node o0 (i5) 00)")),
    ("six names, one twice and one unknown", A, b"(bound a a zz b c d)\n(limit 2)\n", refused(3, 1)),
    ("a bound input twice", A, b"(bound a b a)\n(limit 2)\n", refused(4, 1)),
    ("a bound input twice, in two cases", A, b"(bound a b A)\n(limit 2)\n", refused(4, 1)),
    ("a bound input twice and an unknown one", A, b"(bound zz a a)\n(limit 2)\n", refused(4, 1)),
    ("an unknown bound input", A, b"(bound zz)\n(limit 2)\n", refused(5, 1)),
    ("an output as a bound input", A, b"(bound f)\n(limit 2)\n", refused(5, 1)),
    ("`(limit 7)`", A, b"(bound a b c)\n(limit 7)\n", refused(3, 2)),
    ("`(limit 999)`", A, b"(bound a b c)\n(limit 999)\n", refused(3, 2)),
    ("an unknown bound input, and `(limit 7)`", A, b"(bound zz)\n(limit 7)\n", refused(5, 1)),
    ("an unknown bound input after one in another case", A, b"(bound A E)\n(limit 2)\n", refused(5, 1)),
    ("no bound inputs, and `(limit 7)`", A, b"(bound)\n(limit 7)\n", refused(3, 1)),
    ("a bound input twice, and `(limit 7)`", A, b"(bound a zz a)\n(limit 7)\n", refused(4, 1)),
    # ---- the PLA's names: 4
    ("an input twice", line(3, b".ilb a b c a"), BOARD, refused(4, 3)),
    ("an input twice, in two cases", line(3, b".ilb a b c A"), BOARD, refused(4, 3)),
    ("an output that is an input", line(4, b".ob f a"), BOARD, refused(4, 4)),
    ("an output that is an input in another case", line(4, b".ob f A"), BOARD, refused(4, 4)),
    ("an output twice", line(4, b".ob f f"), BOARD, refused(4, 4)),
    ("an output twice, in two cases", line(4, b".ob f F"), BOARD, refused(4, 4)),
    ("an input twice and an output twice", line(3, b".ilb a b c a").replace(b".ob f g", b".ob f f"), BOARD, refused(4, 3)),
    # ---- the two texts in turn
    ("both texts empty", b"", b"", refused(12, 0)),
    ("12, and the second text empty", A[:-1], b"", refused(12, END)),
    ("13, and the second text empty", panel(11, 1, []), b"", refused(13, 1)),
    ("14, and the second text empty", line(FIRST, b"0001 1~"), b"", refused(14, FIRST)),
    ("14, and 4 on `.ilb`", line(FIRST, b"0001 1~").replace(b"a b c d", b"a b c a"), BOARD, refused(14, FIRST)),
    ("1 on the second text, and 4 on `.ilb`", line(3, b".ilb a b c a"), b"", refused(1, 0)),
    ("2 on the second text, and 4 on `.ilb`", line(3, b".ilb a b c a"), b"(bound a)\n", refused(2, 2)),
    ("3 on the second text, and 4 on `.ilb`", line(3, b".ilb a b c a"), b"(bound)\n(limit 7)\n", refused(4, 3)),
    ("3 on the second text, and 4 on `.ob`", line(4, b".ob f a"), b"(bound a b c d f g)\n(limit 7)\n", refused(4, 4)),
    # ---- Map's own questions
    ("no cells to spare", A, b"(bound a b c)\n(limit 0)\n", refused(8, 0)),
    (
        "32 global classes",
        panel(7, 4, [b"1----1- 1000", b"----1-1 1000", b"-1---1- 0100", b"--1--1- 0010", b"---1-1- 0001"]),
        b"(bound i0 i1 i2 i3 i4)\n(limit 0)\n",
        refused(7, 0),
    ),
]
