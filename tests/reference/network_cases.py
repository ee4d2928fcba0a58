"""Network sheets beside design sheets at every boundary of questions 10 and 11, and with each letter of a network in the other case,
each with what Check must answer. By hand; CASES has (name, design sheet, network sheet, answer)."""

import sheets_to_try

A = sheets_to_try.sheet("a")
NET = sheets_to_try.network("a")
LUT = b"(lut _%d (a b c) 01101001)\n"
WIDE = A.replace(b"(limit 2)", b"(limit 6)")
OPEN = b"(design 1)\n(in c d)\n(bound c)\n(limit 1)\n(out f d)\n(end)\n"  # width 0, a free input
SHUT = b"(design 1)\n(in a b)\n(bound a b)\n(limit 1)\n(out f (and a b))\n(end)\n"  # no free inputs
FLAT = b"(design 1)\n(in a)\n(bound a)\n(limit 0)\n(out f 1)\n(end)\n"  # width 0, no free inputs
TEN = b"(design 1)\n(in a b c d e v w x y z)\n(bound e a)\n(limit 2)\n(out f (and a b c d e v w x y z))\n(end)\n"
MIXED = sheets_to_try.sheet("capitals")


def luts(count, tail):
    return b"(network 1)\n" + b"".join(LUT % i for i in range(count)) + tail


def tail(count):
    return b"(node f (_0 d) 0110)\n(node g (_0 d) 0001)\n(count %d)\n(end)\n" % count


LINES = NET.splitlines(keepends=True)
CASES = [
    *((f"{network} beside {sheet}", sheets_to_try.sheet(sheet), sheets_to_try.network(network), answer) for sheet, network, answer in sheets_to_try.checks()),
    ("six luts", WIDE, luts(6, tail(6)), "same"),
    ("seven luts", WIDE, luts(7, tail(7)), "refused 10 line 8"),
    ("no luts, tables named", A, luts(0, tail(0)), "refused 10 line 2"),
    ("no luts", OPEN, b"(network 1)\n(node f (d) 01)\n(count 0)\n(end)\n", "same"),
    ("U wrong", A, NET.replace(b"(count 1)", b"(count 2)"), "refused 10 line 5"),
    ("U with a leading zero", A, NET.replace(b"(count 1)", b"(count 01)"), "refused 10 line 5"),
    ("lut out of order", A, NET.replace(b"lut _0", b"lut _1"), "refused 10 line 2"),
    ("lut twice", A, NET.replace(LUT % 0, LUT % 0 + LUT % 0), "refused 10 line 3"),
    ("lut after a node", A, NET.replace(b"(count", LUT % 1 + b"(count"), "refused 10 line 5"),
    ("lut of other inputs", A, NET.replace(b"(a b c)", b"(a c b)"), "refused 10 line 2"),
    ("node of another output", A, NET.replace(b"node f", b"node g"), "refused 10 line 3"),
    ("a lut that is not there", A, NET.replace(b"f (_0 d)", b"f (_1 d)"), "refused 10 line 3"),
    ("two luts falling", WIDE, luts(2, tail(2)).replace(b"f (_0 d) 0110", b"f (_1 _0 d) 01100110"), "refused 10 line 4"),
    ("two luts equal", WIDE, luts(2, tail(2)).replace(b"f (_0 d) 0110", b"f (_0 _0 d) 01100110"), "refused 10 line 4"),
    ("two luts rising, over the width", WIDE, luts(2, tail(2)).replace(b"f (_0 d) 0110", b"f (_0 _1 d) 01100110"), "refused 11 line 4"),
    ("a lut read twice", A, NET.replace(b"f (_0 d)", b"f (_0 _0 d)"), "refused 10 line 3"),
    ("free input missing", A, NET.replace(b"f (_0 d) 0110", b"f (_0) 01"), "refused 10 line 3"),
    ("free input first", A, NET.replace(b"f (_0 d)", b"f (d _0)"), "refused 10 line 3"),
    ("a bound input read", A, NET.replace(b"f (_0 d)", b"f (a d)"), "refused 10 line 3"),
    ("a digit too many", A, NET.replace(b"0110)", b"01100)"), "refused 10 line 3"),
    ("a digit too few", A, NET.replace(b"0110)", b"011)"), "refused 10 line 3"),
    ("a digit 2", A, NET.replace(b"0110)", b"0112)"), "refused 10 line 3"),
    ("lut digit 2", A, NET.replace(b"01101001", b"01101002"), "refused 10 line 2"),
    ("lut digit too few", A, NET.replace(b"01101001", b"0110100"), "refused 10 line 2"),
    ("lut digit too many", A, NET.replace(b"01101001", b"011010010"), "refused 10 line 2"),
    ("width 0 with a free input", OPEN, b"(network 1)\n(node f (d) 01)\n(count 0)\n(end)\n", "same"),
    ("width 0, a table read", OPEN, b"(network 1)\n(lut _0 (c) 01)\n(node f (_0 d) 0101)\n(count 1)\n(end)\n", "refused 11 line 3"),
    ("width 0, a table unread", OPEN, b"(network 1)\n(lut _0 (c) 01)\n(node f (d) 01)\n(count 1)\n(end)\n", "same"),
    ("width 0, no free inputs", FLAT, b"(network 1)\n(node f () 1)\n(count 0)\n(end)\n", "same"),
    ("width 0, no free inputs, wrong", FLAT, b"(network 1)\n(node f () 0)\n(count 0)\n(end)\n", "differs output 0 row 0"),
    ("no free inputs", SHUT, b"(network 1)\n(lut _0 (a b) 0001)\n(node f (_0) 01)\n(count 1)\n(end)\n", "same"),
    ("no free inputs, turned", SHUT, b"(network 1)\n(lut _0 (a b) 0001)\n(node f (_0) 10)\n(count 1)\n(end)\n", "differs output 0 row 0"),
    ("luts above N", A, luts(3, tail(3)), "refused 11 line 4"),
    ("luts above N, and a node over its width", A, luts(3, tail(3)).replace(b"f (_0 d) 0110", b"f (_0 _1 d) 01100110"), "refused 11 line 4"),
    ("luts within N, and a node over its width", A, luts(2, tail(2)).replace(b"g (_0 d) 0001", b"g (_0 _1 d) 00000001"), "refused 11 line 5"),
    ("a table unread", A, luts(2, tail(2)), "same"),
    ("the last row of ten inputs", TEN, b"(network 1)\n(node f (b c d v w x y z) " + b"0" * 256 + b")\n(count 0)\n(end)\n", "differs output 0 row 1023"),
    ("another edition", A, NET.replace(b"(network 1)", b"(network 2)"), "refused 10 line 1"),
    ("an empty line", A, b"\n", "refused 10 line 1"),
    ("8,192 bytes without an end", A, b"0" * 8192, "refused 10 line 1"),
    ("8,193 bytes without an end", A, b"0" * 8193, "refused 10 line 0"),
    ("8,192 bytes, bad line 2", A, b"(network 1)\n" + b"x" * 8179 + b"\n", "refused 10 line 2"),
    ("8,193 bytes", A, b"(network 1)\n" + b"x" * 8180 + b"\n", "refused 10 line 0"),
    ("no bytes", A, b"", "refused 10 line 0"),
    ("no final 0x0A", A, NET[:-1], "refused 10 line 6"),
    ("no final 0x0A, an earlier bad line", A, NET.replace(b"0110)", b"011)")[:-1], "refused 10 line 3"),
    ("bytes after the end", A, NET + b"x", "refused 10 line 7"),
    ("a space after the end", A, NET.replace(b"(end)", b"(end) "), "refused 10 line 6"),
    ("byte 0x80 before a line", A, NET.replace(b"(node g", b"\x80(node g"), "refused 10 line 4"),
    ("a surplus line", A, NET + b"(end)\n", "refused 10 line 7"),
    ("a surplus empty line", A, NET + b"\n", "refused 10 line 7"),
    ("byte 0x80", A, NET.replace(b"(end)", b"(end\x80"), "refused 10 line 6"),
    ("names as the sheet gives them elsewhere", MIXED, NET.replace(b"a b c", b"a B c").replace(b"d) 0110", b"D) 0110"), "same"),
    ("names in a spelling of the network's own, g's digits", A, NET.replace(b"a b c", b"A b C").replace(b"f (_0 d)", b"F (_0 D)").replace(b"0001", b"0011"), "differs output 1 row 2"),
    ("capitals, another order", A, NET.replace(b"(a b c)", b"(A C B)"), "refused 10 line 2"),
    ("capitals, another output", A, NET.replace(b"node f", b"node G"), "refused 10 line 3"),
    ("an input in two cases", A.replace(b"(in a b c d)", b"(in a b c d A)"), NET, "refused 4 line 2"),
    ("an operator word in another case as an input", A.replace(b"(in a b c d)", b"(in a b c d Xor)"), NET, "refused 2 line 2"),
    ("an operator in another case", A.replace(b"(out f (xor", b"(out f (Xor"), NET, "refused 2 line 5"),
    ("an output that is an input in another case", A.replace(b"(out g", b"(out D"), NET, "refused 4 line 6"),
    ("a bound input that is no input in any case", A.replace(b"(bound a b c)", b"(bound a b E)"), NET, "refused 5 line 3"),
]
SPELLED_OTHERWISE = NET.replace(b"a b c", b"A b C").replace(b"f (_0 d)", b"F (_0 D)")
CASES += [("names in a spelling of the network's own", design, SPELLED_OTHERWISE, "same") for design in (A, MIXED)]
for number in range(len(LINES)):
    CASES.append((f"{number + 1} lines, the last without 0x0A", A, b"".join(LINES[: number + 1])[:-1], f"refused 10 line {number + 1}"))
    if number > 0:
        CASES.append((f"{number} lines", A, b"".join(LINES[:number]), f"refused 10 line {number + 1}"))
    CASES.append((f"line {number + 1} missing", A, b"".join(LINES[:number] + LINES[number + 1 :]), f"refused 10 line {number + 1}"))
for place, byte in enumerate(NET):
    if chr(byte).isalpha():
        # the first word of a line has small letters
        *before, line = NET[:place].split(b"\n")
        wanted = "same" if b" " in line else f"refused 10 line {len(before) + 1}"
        CASES.append((f"byte {place} in the other case", A, NET[:place] + bytes([byte ^ 0x20]) + NET[place + 1 :], wanted))
