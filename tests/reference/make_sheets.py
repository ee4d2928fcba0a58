#!/usr/bin/env python3
"""Makes what the program `tablecases` is run on: crates/tablecases/stdin, and crates/tablecases/stdout with what it must write.

Each sheet stands here beside the answer that a person expects of it. This script compares every such answer with
cellref.py, and the program compares it with the library, so that three sources agree. Then come random sheets, valid
and damaged, in small letters and in any case, whose answers are cellref.py's.

    make_sheets.py            writes the two files
    make_sheets.py --check    says whether they are what this script writes
"""

import pathlib
import random
import sys

import cellref
import random_sheets
import sheets_to_try

CRATE = pathlib.Path(__file__).resolve().parents[2] / "crates/tablecases"
MAX_TEXT = 600 * 1024
LARGEST = 2**64 - 1
SEED = 1

CASES = []


def case(name, sheet, expected, output=0, buffer=70):
    """A sheet, as bytes or as text with / for 0x0A, and what Table must answer."""
    text = sheet if isinstance(sheet, bytes) else sheet.replace("/", "\n").encode("ascii")
    CASES.append((name, text, expected, output, buffer))


def no(question, line):
    return f"refused {question} line {line}"


def yes(digits):
    return f"written {len(digits)} {digits}"


def rows(inputs, rule):
    """The answer whose digit on row r says whether the rule holds of r."""
    return yes("".join("1" if rule(r) else "0" for r in range(2**inputs)))


def ones(row):
    return bin(row).count("1")


def cases(name, sheet_with, lines, expected):
    """Several sheets with one answer, numbered from 1: each has one of the lines where sheet_with puts it."""
    for k, line in enumerate(lines, 1):
        case(f"{name}-{k}", sheet_with(line), expected)


# ---- sheets with one line of interest


def with_design(line):
    return f"{line}/(in a b)/(bound a)/(limit 1)/(out f (and a b))/(end)/"


def with_in(line, bound="a"):
    return f"(design 1)/{line}/(bound {bound})/(limit 1)/(out f {bound})/(end)/"


def with_bound(line):
    return f"(design 1)/(in a b c d e g)/{line}/(limit 1)/(out f a)/(end)/"


def with_limit(line):
    return f"(design 1)/(in a b)/(bound a)/{line}/(out f (xor a b))/(end)/"


def with_out(line):
    return f"(design 1)/(in a b c)/(bound a)/(limit 1)/{line}/(end)/"


def with_formula(formula):
    return with_out(f"(out f {formula})")


def sheet_of(inputs, bound, formula):
    return f"(design 1)/(in {inputs})/(bound {bound})/(limit 0)/(out f {formula})/(end)/"


def with_end(line):
    return f"(design 1)/(in a b)/(bound a)/(limit 1)/(out f (or a b))/{line}/"


def with_more(line):
    return GOOD + line + "/"


GOOD = "(design 1)/(in a b)/(bound a)/(limit 1)/(out f (and a b))/(end)/"
GOOD_BYTES = GOOD.replace("/", "\n").encode("ascii")
FOUR = "(design 1)/(in a b)/(bound a)/(limit 1)/(out f a)/(out g b)/(out h (not a))/(out i (xor a b))/(end)/"


# ---- question 1


def question_1():
    case("good", GOOD, yes("0001"))
    case("q1-empty", b"", no(1, 0))
    case("q1-one-newline", b"\n", no(2, 1))
    case("q1-two-newlines", b"\n\n", no(2, 1))
    case("q1-one-letter", b"a", no(1, 0))
    case("q1-one-space", b" ", no(1, 0))
    case("q1-no-last-newline", GOOD_BYTES[:-1], no(1, 0))
    case("q1-space-for-last-newline", GOOD_BYTES[:-1] + b" ", no(1, 0))
    case("q1-space-after-last-newline", GOOD_BYTES + b" ", no(1, 0))
    case("q1-text-after-end-unended", GOOD_BYTES + b"(end)", no(1, 0))
    for byte in (0x00, 0x01, 0x09, 0x0B, 0x0D, 0x1F, 0x7F, 0x80, 0xA0, 0xC3, 0xFF):
        bad = bytes([byte])
        case(f"q1-{byte:02x}-first", bad + GOOD_BYTES[1:], no(1, 0))
        case(f"q1-{byte:02x}-inside", GOOD_BYTES[:17] + bad + GOOD_BYTES[18:], no(1, 0))
        case(f"q1-{byte:02x}-last", GOOD_BYTES[:-1] + bad, no(1, 0))
        case(f"q1-{byte:02x}-before-last-newline", GOOD_BYTES[:-1] + bad + b"\n", no(1, 0))
        case(f"q1-{byte:02x}-alone", bad, no(1, 0))
        case(f"q1-{byte:02x}-after-end", GOOD_BYTES + bad + b"\n", no(1, 0))
    case("q1-0d-0a-line-ends", GOOD_BYTES.replace(b"\n", b"\r\n"), no(1, 0))
    # 0x20 and 0x7E may stand in a text, and a line that has them in the wrong place is misspelled.
    case("q1-20-inside", with_in("(in a  b)"), no(2, 2))
    case("q1-7e-inside", with_in("(in a~ b)"), no(2, 2))
    case("q1-7e-first", "~design 1)/", no(2, 1))
    # Question 1 is asked of the whole text before any line.
    case("q1-before-2", b"(desing 1)\n\x80\n", no(1, 0))
    case("q1-before-3", with_limit("(limit 7)").replace("/", "\n").encode("ascii")[:-1], no(1, 0))


def long_sheet(size):
    """A valid sheet of so many bytes, an `or` of a with itself; the name takes the odd byte."""
    tail = "))/(end)/"
    for name in ("f", "ff"):
        head = f"(design 1)/(in a)/(bound a)/(limit 0)/(out {name} (or"
        room = size - len(head) - len(tail)
        if room % 2 == 0:
            return head + " a" * (room // 2) + tail


def length_of_text():
    for size in (100, 2048, 4094, 4095, 4096):
        case(f"q1-bytes-{size}", long_sheet(size), yes("01"))
    for size in (4097, 4098, 5000, 8192):
        case(f"q1-bytes-{size}", long_sheet(size), no(1, 0))
    case("q1-newlines-4096", b"\n" * 4096, no(2, 1))
    case("q1-newlines-4097", b"\n" * 4097, no(1, 0))
    case("q1-spaces-4095", b" " * 4095 + b"\n", no(2, 1))
    case("q1-letters-4096-unended", b"a" * 4096, no(1, 0))
    case("q1-bad-byte-at-4095", b"a" * 4094 + b"\x7f\n", no(1, 0))
    # A good sheet with lines after it, up to the longest text and past it.
    case("q1-surplus-4096", GOOD_BYTES + b"\n" * (4096 - len(GOOD_BYTES)), no(2, 7))
    case("q1-surplus-4097", GOOD_BYTES + b"\n" * (4097 - len(GOOD_BYTES)), no(1, 0))


# ---- every place


def each_byte():
    """A comma, which no line has, in the place of each byte of a good sheet, and before each."""
    outs = "(out f (and a (not b)))/(out g (xor a (or b 1)))/"
    text = f"(design 1)/(in a b)/(bound a)/(limit 1)/{outs}(end)/".replace("/", "\n").encode("ascii")
    case("comma-nowhere", text, yes("0010"))
    for at in range(len(text)):
        misspelled = no(2, text[:at].count(b"\n") + 1)
        last = at == len(text) - 1
        case(f"comma-for-{at}", text[:at] + b"," + text[at + 1 :], no(1, 0) if last else misspelled)
        case(f"comma-before-{at}", text[:at] + b"," + text[at:], misspelled)


# ---- the first line


def design_line():
    cases(
        "design",
        with_design,
        [
            "", "(design)", "(design )", "(design 0)", "(design 2)", "(design 11)", "(design 01)",
            "(design 1 )", "( design 1)", "(design  1)", " (design 1)", "(design 1) ", "(design 1", "design 1)",
            "(design 1))", "((design 1)", "(Design 1)", "(design1)", "(design a)", "(desig 1)", "(designs 1)",
            "(network 1)", "(in a b)", "(end)",
        ],
        no(2, 1),
    )


# ---- the `in` line


def in_line():
    cases(
        "in-bad",
        with_in,
        [
            "", "(in", "in a", "(in )", "( in a)", "(in a )", "(in  a)", "(in a  b)", "(in ( a)", " (in a)",
            "(in a) ", "(in a", "(in a))", "((in a)", "(in (a))", "(ina)", "(inn a)", "(i a)", "(IN a)",
            "(in 1)", "(in 1a)", "(in 0)", "(in a,b)", "(in a-b)", "(in a_b)", "(in _0)",
            "(in a.)", "(in a 2)", "(in a)(bound a)", "(bound a)", "(end)",
        ],
        no(2, 2),
    )
    # The bytes on both sides of the letters and of the digits.
    cases("in-bytes", with_in, [f"(in a{b})" for b in "`{:@["], no(2, 2))
    cases("in-first", with_in, [f"(in {b}a)" for b in "`{09@["], no(2, 2))
    case("in-a-z-0-9", with_in("(in az09)", "az09"), yes("01"))
    case("in-z", with_in("(in z)", "z"), yes("01"))
    case("in-digits", with_in("(in a0123456)", "a0123456"), yes("01"))
    # Operator words are no names; words that merely begin with one are, and so are all other words of the sheet.
    for word in ("not", "and", "or", "xor"):
        case(f"in-{word}", with_in(f"(in {word})"), no(2, 2))
        case(f"in-a-{word}", with_in(f"(in a {word})"), no(2, 2))
        case(f"in-{word}1", with_in(f"(in {word}1)", f"{word}1"), yes("01"))
        case(f"in-{word}x", with_in(f"(in {word}x)", f"{word}x"), yes("01"))
        case(f"in-y{word}", with_in(f"(in y{word})", f"y{word}"), yes("01"))
        case(f"in-{word}{word}", with_in(f"(in {word}{word})", f"{word}{word}"), yes("01"))
    for word in "no an o xo nor nand andy nota orx in out bound limit end design".split():
        case(f"in-word-{word}", with_in(f"(in {word})", word), yes("01"))
    case("in-in-out", "(design 1)/(in in out)/(bound out)/(limit 0)/(out end (and in out))/(end)/", yes("0001"))
    words = "(design 1)/(in design bound limit end)/(bound end)/(limit 0)/(out out (xor design end))/(end)/"
    case("in-sheet-words", words, yes("0101010110101010"))
    # Eight characters and nine.
    case("in-8", with_in("(in abcdefgh)", "abcdefgh"), yes("01"))
    case("in-9", with_in("(in abcdefghi)", "a"), no(2, 2))
    case("in-9-digits", with_in("(in a12345678)", "a"), no(2, 2))
    case("in-100", with_in(f"(in {'a' * 100})", "a"), no(2, 2))
    case("in-8-tell-apart", sheet_of("abcdefgh abcdefgi", "abcdefgi", "abcdefgi"), yes("0101"))
    case("in-7-and-8", sheet_of("abcdefg abcdefgh", "abcdefg", "abcdefg"), yes("0011"))
    case("in-prefixes", sheet_of("a aa aaa", "aa", "aa"), yes("00110011"))
    case("in-9-beside-8", sheet_of("abcdefgh abcdefghi", "abcdefgh", "a"), no(2, 2))
    # Counts.
    case("in-0", with_in("(in)"), no(3, 2))
    case("in-1", with_in("(in a)"), yes("01"))
    case("in-10", with_in("(in a b c d e f1 g h i j)"), rows(10, lambda r: r >= 512), buffer=1024)
    case("in-11", with_in("(in a b c d e f1 g h i j k)"), no(3, 2))
    case("in-11-last-repeats", with_in("(in a b c d e f1 g h i j a)"), no(3, 2))
    case("in-11-last-misspelled", with_in("(in a b c d e f1 g h i j k_)"), no(2, 2))
    case("in-11-last-and", with_in("(in a b c d e f1 g h i j and)"), no(2, 2))
    case("in-12-unended", with_in("(in a b c d e f1 g h i j k l"), no(2, 2))
    case("in-26", with_in("(in a b c d e f g h i j k l m n o p q r s t u v w x y z)"), no(3, 2))
    case("in-300-same", with_in("(in" + " a" * 300 + ")"), no(3, 2))
    case("in-300-last-misspelled", with_in("(in" + " a" * 300 + " )"), no(2, 2))
    # Repeats.
    case("in-repeat-2", with_in("(in a a)"), no(4, 2))
    case("in-repeat-ends", with_in("(in a b c d e f1 g h i a)"), no(4, 2))
    case("in-repeat-last-two", with_in("(in a b c d e f1 g h i i)"), no(4, 2))
    case("in-repeat-8", with_in("(in abcdefgh b abcdefgh)"), no(4, 2))


# ---- the `bound` line


def bound_line():
    cases(
        "bound-bad",
        with_bound,
        [
            "", "(bound", "bound a", "(bound )", "( bound a)", "(bound a )", "(bound  a)", "(bound a  b)",
            " (bound a)", "(bound a) ", "(bound a", "(bound a))", "(bound (a))", "(bounda)", "(boun a)",
            "(bounds a)", "(BOUND a)", "(bound 1)", "(bound 0)", "(bound a,b)",
            "(bound abcdefghi)", "(bound not)", "(bound and)", "(bound or)", "(bound xor)", "(in a)",
            "(limit 1)", "(end)",
        ],
        no(2, 3),
    )
    case("bound-0", with_bound("(bound)"), no(3, 3))
    case("bound-1", with_bound("(bound a)"), rows(6, lambda r: r >= 32))
    case("bound-1-last", with_bound("(bound g)"), rows(6, lambda r: r >= 32))
    case("bound-5", with_bound("(bound a b c d e)"), rows(6, lambda r: r >= 32))
    case("bound-5-any-order", with_bound("(bound g a e b d)"), rows(6, lambda r: r >= 32))
    case("bound-6", with_bound("(bound a b c d e g)"), no(3, 3))
    case("bound-6-repeat", with_bound("(bound a b c d e a)"), no(3, 3))
    case("bound-6-unknown", with_bound("(bound a b c d e z)"), no(3, 3))
    case("bound-6-repeat-unknown", with_bound("(bound a a b c d z)"), no(3, 3))
    case("bound-6-misspelled", with_bound("(bound a b c d e g_)"), no(2, 3))
    case("bound-11", with_bound("(bound a b c d e g a b c d e)"), no(3, 3))
    case("bound-repeat", with_bound("(bound a a)"), no(4, 3))
    case("bound-repeat-far", with_bound("(bound e a b c e)"), no(4, 3))
    case("bound-repeat-unknown", with_bound("(bound a a z)"), no(4, 3))
    case("bound-unknown-repeat", with_bound("(bound z a a)"), no(4, 3))
    case("bound-unknown-twice", with_bound("(bound z z)"), no(4, 3))
    case("bound-unknown", with_bound("(bound z)"), no(5, 3))
    case("bound-unknown-last", with_bound("(bound a b c d z)"), no(5, 3))
    case("bound-unknown-longer", with_bound("(bound aa)"), no(5, 3))
    case("bound-unknown-prefix", sheet_of("aa", "a", "aa"), no(5, 3))
    case("bound-output-name", with_bound("(bound f)"), no(5, 3))
    case("bound-all", sheet_of("a b", "b a", "a"), yes("0011"))
    case("bound-more-than-in", sheet_of("a", "a b", "a"), no(5, 3))


# ---- the `limit` line


def limit_line():
    for n in range(7):
        case(f"limit-{n}", with_limit(f"(limit {n})"), yes("0110"))
    for n in (7, 8, 9, 10, 16, 60, 66, 99, 100, 106, 256, 600, 998, 999):
        case(f"limit-{n}", with_limit(f"(limit {n})"), no(3, 4))
    cases(
        "limit-bad",
        with_limit,
        [
            "", "(limit", "(limit)", "(limit )", "(limit 07)", "(limit 00)", "(limit 01)", "(limit 000)",
            "(limit 006)", "(limit 099)", "(limit 1000)", "(limit 0000)", "(limit 9999)", "(limit 65536)",
            "(limit 4294967296)", "(limit 18446744073709551616)", "(limit 1 )", "(limit  1)", "( limit 1)",
            " (limit 1)", "(limit 1) ", "(limit 1", "(limit 1))", "(limit 1 2)", "(limit 1a)", "(limit a)",
            "(limit -1)", "(limit +1)", "(limit 0x1)", "(limit 1.)", "(limit (1))", "limit 1", "(limit1)",
            "(limits 1)", "(Limit 1)", "(count 1)", "(out f a)", "(end)",
        ],
        no(2, 4),
    )
    # The bytes on both sides of the digits.
    cases("limit-bytes", with_limit, [f"(limit {n})" for n in (":", "1:", "10:", "9:9", "!")], no(2, 4))


# ---- the `out` lines


def out_line():
    cases(
        "out-bad",
        with_out,
        [
            "", " ", "(out)", "(out )", "(out f)", "(out f )", "(out  f a)", "( out f a)", "(out f  a)",
            "(out f a )", "(out f a", "(out f a))", "((out f a))", " (out f a)", "(out f a) ", "out f a",
            "(out f a b)", "(out f a 1)", "(out f (not a) b)", "(out (f) a)", "(out fa)", "(outf a)",
            "(output f a)", "(ou f a)", "(OUT f a)", "(out 1 a)", "(out 0f a)", "(out f_ a)",
            "(out not a)", "(out and a)", "(out or a)", "(out xor a)", "(out abcdefghi a)",
            "(out f a)(out g b)", "(in a b c)", "(limit 1)", "(node f (a) 01)", "(design 1)",
        ],
        no(2, 5),
    )
    for name in "g abcdefgh f1234567 andy nota orx xor1 in out end bound limit design".split():
        case(f"out-name-{name}", with_out(f"(out {name} a)"), yes("00001111"))


def formula_spelling():
    cases(
        "formula-bad",
        with_formula,
        [
            # atoms
            "2", "9", "01", "00", "10", "11", "0a", "1a", "0(not a)", "-", "a-", "a_", "a0_", "~a", "and",
            "or", "not", "xor", "abcdefghi", "a1234567890",
            # brackets
            "()", "(", ")", "(a)", "(0)", "(1)", "(a b)", "(0 a)", "((not a))", "((a))", "(() a)",
            # too few and too many operands
            "(not)", "(and)", "(or)", "(xor)", "(not )", "(and )", "(and a)", "(or a)", "(xor a)",
            "(and (not a))", "(or 0)", "(xor (xor a b))", "(not a b)", "(not a b c)", "(not (not a) b)",
            # operators
            "(nand a b)", "(nor a b)", "(no a)", "(an a b)", "(o a b)", "(xo a b)", "(nota b)", "(and1 a b)",
            "(orx a b)", "(xors a b)", "(nott a)", "(AND a b)", "(And a b)", "(Not a)", "(OR a b)", "(xoR a b)", "(xnor a b)", "(f a b)",
            "(not not)", "(not and)", "(and a and)", "(and or a)", "(or a xor b)",
            # spaces
            "( and a b)", "(and  a b)", "(and a  b)", "(and a b )", "(and a b  c)", "( not a)", "(not  a)",
            "(not a )", "(and(not a) b)", "(and (not a)b)", "(and (not a)  b)", "(and ( not a) b)",
            "(and (not a) b )", "(and (not a )b)", "(and a(not b))", "(and a,b)", "(and a, b)", "(not(a))",
            "(not(not a))", "(not 0 )", "(or 0  1)", "(or 01)", "(or 0 1a)", "(or ab c )",
            # unbalanced
            "(not a", "(not a))", "(and a b", "(and a b))", "(and (or a b)", "(and (or a b) c",
            "(and (or a b) c))", "(and a b)c", "(and a b)(or a b)", "(not a)0", "a)", "(and a b) (or a b)",
            "a b",
            # a bad one far inside
            "(and (or a b) (xor a (not 2)))", "(and (or a b) (xor a (not b_)))", "(and (or a b) (xor a (nOt b)))",
            "(and (or a b) (xor a (and c)))", "(and (or a b) (xor a (not c c)))",
            "(and (or a b) (xor a (not abcdefghi)))", "(and (or a b) (xor z (not 2)))",
        ],
        no(2, 5),
    )
    # Spelled right, with a name that is no input.
    cases(
        "formula-unknown",
        with_formula,
        [
            "z", "aa", "a0", "a1", "andy", "nota", "orx", "and1", "not0", "xorxor", "abcdefgh", "f", "in",
            "end", "(not z)", "(and a z)", "(and z a)", "(or 1 z)", "(and 0 z)", "(xor a b c z)",
            "(and nota b)", "(and (or a b) (xor a (not z)))",
        ],
        no(5, 5),
    )


def nested(count, inside, opening="(not ", closing=")"):
    return opening * count + inside + closing * count


def depth():
    alternating = yes("00001111"), yes("11110000")
    for count in (0, 1, 2, 16, 30, 31, 32):
        case(f"depth-not-{count}", with_formula(nested(count, "a")), alternating[count % 2])
    for count in (33, 34, 63, 64, 65, 128, 255, 256, 257, 600):
        case(f"depth-not-{count}", with_formula(nested(count, "a")), no(3, 5))
    case("depth-and-32", with_formula(nested(32, "b", "(and a ")), yes("00000011"))
    case("depth-and-33", with_formula(nested(33, "b", "(and a ")), no(3, 5))
    case("depth-or-32-first", with_formula(nested(32, "b", "(or ", " a)")), yes("00111111"))
    case("depth-or-33-first", with_formula(nested(33, "b", "(or ", " a)")), no(3, 5))
    case("depth-xor-32", with_formula(nested(32, "c", "(xor a ")), yes("01010101"))
    case("depth-xor-31", with_formula(nested(31, "c", "(xor a ")), yes("01011010"))
    case("depth-xor-33", with_formula(nested(33, "c", "(xor a ")), no(3, 5))
    case("depth-32-digit", with_formula(nested(32, "0")), yes("00000000"))
    case("depth-33-digit", with_formula(nested(33, "0")), no(3, 5))
    # The deepest operand decides, wherever it stands.
    case("depth-32-beside", with_formula(f"(and {nested(31, 'a')} {nested(30, 'b')})"), yes("00110000"))
    case("depth-33-first", with_formula(f"(and {nested(32, 'a')} b)"), no(3, 5))
    case("depth-33-last", with_formula(f"(and b c {nested(32, 'a')})"), no(3, 5))
    case("depth-33-middle", with_formula(f"(and b {nested(32, 'a')} c)"), no(3, 5))
    case("depth-32-twice", with_formula(f"(xor {nested(31, 'a')} {nested(31, 'a')})"), yes("00000000"))
    case("depth-32-then-33", with_formula(f"(or {nested(31, 'a')} {nested(32, 'a')})"), no(3, 5))
    # Many brackets side by side are not deep.
    case("depth-wide", with_formula(f"(xor{' (not a)' * 101})"), yes("11110000"))
    # All brackets of a deep formula are read before its depth is asked.
    case("depth-600-bad-inside", with_formula(nested(600, "2")), no(2, 5))
    case("depth-600-unclosed", with_formula(nested(600, "a")[:-1]), no(2, 5))
    case("depth-600-closed-twice", with_formula(nested(600, "a") + ")"), no(2, 5))
    case("depth-600-two-operands", with_formula(nested(600, "a b")), no(2, 5))
    case("depth-600-empty", with_formula(nested(600, "")), no(2, 5))
    case("depth-600-unknown", with_formula(nested(600, "z")), no(3, 5))
    case("depth-560-or", with_formula(nested(560, "a", "(or a ")), no(3, 5))
    case("depth-560-or-bad", with_formula(nested(560, "a ", "(or a ")), no(2, 5))
    case("depth-33-bad-inside", with_formula(nested(33, "2")), no(2, 5))
    case("depth-33-bad-after", with_formula(f"(and {nested(33, 'a')} 2)"), no(2, 5))
    case("depth-33-unended", with_formula(nested(33, "a")[:-1]), no(2, 5))
    case("depth-32-unknown", with_formula(nested(32, "z")), no(5, 5))
    case("depth-33-unknown", with_formula(nested(33, "z")), no(3, 5))
    case("depth-33-old-name", with_out(f"(out a {nested(33, 'a')})"), no(3, 5))
    case("depth-33-misspelled-name", with_out(f"(out and {nested(33, 'a')})"), no(2, 5))
    case("depth-33-second", with_out(f"(out f a)/(out g {nested(33, 'a')})"), no(3, 6))
    # As many brackets as a text has room for.
    head, tail = "(design 1)/(in a)/(bound a)/(limit 0)/(out f ", ")/(end)/"
    most = (4096 - len(head) - len(tail) - 1) // 6
    case("depth-most", head + nested(most, "a") + tail, no(3, 5))
    case("depth-most-bad", head + nested(most, "2") + tail, no(2, 5))
    case("depth-most-and-more", head + nested(most + 1, "a") + tail, no(1, 0))
    case("brackets-open-only", head + "(not " * 700 + tail, no(2, 5))
    case("brackets-open-bare", head + "(" * 4000 + tail, no(2, 5))
    case("brackets-close-only", head + ")" * 4000 + tail, no(2, 5))


def outputs():
    out = ["(out f a)", "(out g b)", "(out h (not a))", "(out i (xor a b))", "(out j 1)"]
    head = "(design 1)/(in a b)/(bound a)/(limit 1)/"
    digits = ["0011", "0101", "1100", "0110"]
    for count in range(1, 5):
        for k in range(count):
            case(f"outputs-{count}-of-{k}", head + "/".join(out[:count]) + "/(end)/", yes(digits[k]), output=k)
    case("outputs-0", head + "(end)/", no(3, 5))
    case("outputs-0-then-more", head + "(end)/(out f a)/(end)/", no(3, 5))
    case("outputs-0-then-newline", head + "(end)//", no(3, 5))
    case("outputs-0-misspelled-end", head + "(end )/", no(2, 5))
    case("outputs-5", head + "/".join(out) + "/(end)/", no(3, 9))
    case("outputs-5-no-end", head + "/".join(out) + "/", no(3, 9))
    four = head + "/".join(out[:4]) + "/"
    case("outputs-4-no-end", four, no(2, 9))
    case("outputs-5-old-name", four + "(out f a)/(end)/", no(3, 9))
    case("outputs-5-input-name", four + "(out a a)/(end)/", no(3, 9))
    case("outputs-5-unknown", four + "(out j z)/(end)/", no(3, 9))
    case("outputs-5-deep", four + f"(out j {nested(33, 'a')})/(end)/", no(3, 9))
    case("outputs-5-misspelled", four + "(out j 2)/(end)/", no(2, 9))
    case("outputs-5-misspelled-name", four + "(out and a)/(end)/", no(2, 9))
    case("outputs-6", four + "(out j a)/(out k a)/(end)/", no(3, 9))
    case("outputs-4-then-other-line", four + "(limit 1)/(end)/", no(2, 9))
    # Names are new, beside inputs and earlier outputs; only NAME is asked that.
    case("out-old-input", head + "(out a b)/(end)/", no(4, 5))
    case("out-old-free-input", head + "(out b a)/(end)/", no(4, 5))
    case("out-old-output", head + "(out f a)/(out f b)/(end)/", no(4, 6))
    case("out-old-first-of-three", head + "(out f a)/(out g b)/(out h a)/(out f b)/(end)/", no(4, 8))
    case("out-old-and-unknown", head + "(out a z)/(end)/", no(4, 5))
    case("out-old-output-unknown", head + "(out f a)/(out f z)/(end)/", no(4, 6))
    case("out-old-misspelled", head + "(out a 2)/(end)/", no(2, 5))
    case("out-name-in-own-formula", head + "(out f (not f))/(end)/", no(5, 5))
    case("out-name-in-later-formula", head + "(out f a)/(out g (not f))/(end)/", no(5, 6))
    case("out-name-in-earlier-formula", head + "(out f (not g))/(out g a)/(end)/", no(5, 5))
    case("out-unknown-second", head + "(out f a)/(out g c)/(end)/", no(5, 6))
    case("out-same-formula", head + "(out f (and a b))/(out g (and a b))/(end)/", yes("0001"), output=1)
    case("out-prefix-names", head + "(out f a)/(out ff b)/(out fff 1)/(end)/", yes("0101"), output=1)


# ---- capitals


def capitals():
    """Capitals and small letters are the same letters in names; operators and the first words of lines have small ones."""
    for letter in "ABCDEFGHIJKLMNOPQRSTUVWXYZ":
        case(f"case-in-{letter}", with_in(f"(in {letter})", letter.lower()).replace("(out f", "(out f0"), yes("01"))
    case("case-in-8", with_in("(in ABCdefGH)", "abcDEFgh"), yes("01"))
    case("case-in-9", with_in("(in ABCDEFGHI)", "a"), no(2, 2))
    case("case-in-digits", with_in("(in Z09)", "z09"), yes("01"))
    case("case-bound", with_bound("(bound A g B)"), rows(6, lambda r: r >= 32))
    case("case-out", with_out("(out F A)"), yes("00001111"))
    case("case-formula", sheet_of("Ab aC B", "b AB", "(xor aB (and AC b) (and ac B))"), yes("00001111"))
    # Letters and digits stay apart.
    for digit, letter in zip("0123456789", "PQRSTUVWXY"):
        case(f"case-{digit}-and-{letter}", sheet_of(f"a{digit} a{letter}", f"a{letter}", f"A{letter.lower()}"), yes("0101"))
    # Operator words in any case are no names, and words that merely begin with one are.
    for k, word in enumerate("Not NOT nOt And AND anD Or OR oR Xor XOR xoR".split(), 1):
        case(f"case-in-operator-{k}", with_in(f"(in {word})", word), no(2, 2))
        case(f"case-in-longer-{k}", with_in(f"(in {word}1)", f"{word}1"), yes("01"))
        case(f"case-bound-operator-{k}", with_bound(f"(bound {word})"), no(2, 3))
        case(f"case-out-operator-{k}", with_out(f"(out {word} a)"), no(2, 5))
        case(f"case-atom-operator-{k}", with_formula(word), no(2, 5))
        case(f"case-opening-{k}", with_formula(f"({word} a b)" if word.lower() != "not" else f"({word} a)"), no(2, 5))
    # Names given twice, and names that are not there.
    cases("case-in-repeat", with_in, ["(in a A)", "(in A b a)", "(in abcdefgh b ABCDEFGH)", "(in a1 A1)"], no(4, 2))
    cases("case-bound-repeat", with_bound, ["(bound a A)", "(bound B a b)", "(bound Z z)"], no(4, 3))
    cases("case-out-old", with_out, ["(out A a)", "(out A 1)", "(out B (not z))"], no(4, 5))
    case("case-out-twice", with_out("(out f a)/(out F b)"), no(4, 6))
    cases("case-bound-unknown", with_bound, ["(bound Z)", "(bound a B AA)"], no(5, 3))
    cases("case-formula-unknown", with_formula, ["Z", "(and A AA)", "F"], no(5, 5))
    a = "(design 1)/(in A B C d)/(bound a b c)/(limit 2)/(out f (xor a B c D))/(out G (and (xor A b C) d))/(end)/"
    case("case-sheet-a-f", a, yes("0110100110010110"))
    case("case-sheet-a-g", a, yes("0001010001000001"), output=1)


# ---- `(end)`, missing and surplus lines, and which line comes first


def end_line():
    cases("end-bad", with_end, ["", " ", "()", "(end )", "( end)", " (end)", "(end) "], no(2, 6))
    cases("end-brackets", with_end, ["(end", "end)", "end", "(end))", "((end))"], no(2, 6))
    cases("end-words", with_end, ["(End)", "(END)", "(end 1)", "(en)", "(ends)"], no(2, 6))
    surplus = ["", " ", "(end)", "(out g a)", "(design 1)", "x", "/", "///", "(out g 2)/(end)"]
    cases("end-surplus", with_more, surplus, no(2, 7))
    case("end-then-whole-sheet", GOOD + GOOD, no(2, 7))


def joined(lines):
    return "".join(line + "/" for line in lines)


def missing_lines():
    lines = GOOD.split("/")[:-1]
    for n in range(1, len(lines)):
        before, line, after = lines[: n - 1], lines[n - 1], lines[n:]
        # The fifth line is the `out` line: without it `(end)` stands too early, and twice it gives its name twice.
        early = no(3, 5) if n == 5 else no(2, n)
        again = no(4, 6) if n == 5 else no(2, n + 1)
        case(f"lines-first-{n}", joined(before + [line]), no(2, n + 1))
        case(f"lines-without-{n}", joined(before + after), early)
        case(f"lines-twice-{n}", joined(before + [line, line] + after), again)
        case(f"lines-empty-before-{n}", joined(before + ["", line] + after), no(2, n))
        case(f"lines-end-for-{n}", joined(before + ["(end)"] + after), early)
    case("lines-end-only", "(end)/", no(2, 1))
    case("lines-design-end", "(design 1)/(end)/", no(2, 2))
    case("lines-joined", GOOD.replace("/", " ", 1), no(2, 1))
    case("lines-in-bound-swapped", "(design 1)/(bound a)/(in a b)/(limit 1)/(out f a)/(end)/", no(2, 2))
    case("lines-limit-out-swapped", "(design 1)/(in a b)/(bound a)/(out f a)/(limit 1)/(end)/", no(2, 4))
    case("lines-out-after-end", "(design 1)/(in a b)/(bound a)/(limit 1)/(out f a)/(end)/(out g b)/", no(2, 7))
    # The first line with any "no" decides, and on it the lowest question.
    case("first-4-on-2", "(design 1)/(in a a)/(bound )/(limit 7)/(out f 2)/", no(4, 2))
    case("first-3-on-2", "(design 1)/(in)/(bound)/(limit 07)/(out f 2)/", no(3, 2))
    case("first-5-on-3", "(design 1)/(in a b)/(bound z)/(limit 07)/(out f 2)/", no(5, 3))
    case("first-4-on-3", "(design 1)/(in a b)/(bound a a)/(limit 7)/(out a a)/", no(4, 3))
    case("first-3-on-4", "(design 1)/(in a b)/(bound a)/(limit 7)/(out f 2)/", no(3, 4))
    case("first-5-on-5", "(design 1)/(in a b)/(bound a)/(limit 1)/(out f z)/(out f 2)/x/", no(5, 5))
    case("first-4-on-6", "(design 1)/(in a b)/(bound a)/(limit 1)/(out f a)/(out f z)/(out g 2)/", no(4, 6))
    case("first-3-on-9", FOUR.replace("(end)", "(out f z)/(out g 2)"), no(3, 9))


# ---- the output number and the buffer


def output_and_buffer():
    case("q6-0", GOOD, yes("0001"), output=0)
    for number in (1, 2, 4, 255, 256, 2**32, 2**63, LARGEST - 1, LARGEST):
        case(f"q6-one-output-{number}", GOOD, no(6, 0), output=number)
    for number, digits in enumerate(("0011", "0101", "1100", "0110")):
        case(f"q6-four-outputs-{number}", FOUR, yes(digits), output=number)
    for number in (4, 5, 2**32, 2**32 + 1, LARGEST):
        case(f"q6-four-outputs-{number}", FOUR, no(6, 0), output=number)
    case("q6-before-9", GOOD, no(6, 0), output=1, buffer=0)
    case("q6-after-1", b"", no(1, 0), output=LARGEST, buffer=0)
    case("q6-after-2", with_end("(end )"), no(2, 6), output=LARGEST, buffer=0)
    case("q6-after-3", with_limit("(limit 7)"), no(3, 4), output=LARGEST, buffer=0)
    case("q6-after-4", with_out("(out a a)"), no(4, 5), output=LARGEST, buffer=0)
    case("q6-after-5", with_out("(out f z)"), no(5, 5), output=LARGEST, buffer=0)
    case("q9-after-2", with_end("(end )"), no(2, 6), buffer=0)
    names = "a b c d e g h i j k".split()
    for count in range(1, 11):
        sheet = sheet_of(" ".join(names[:count]), "a", names[count - 1])
        size = 2**count
        for buffer in sorted({0, 1, size // 2, size - 1}):
            case(f"q9-{count}-inputs-{buffer}", sheet, no(9, 0), buffer=buffer)
        for buffer in sorted({size, size + 1, 2 * size, 2048}):
            case(f"q9-{count}-inputs-{buffer}", sheet, rows(count, lambda r: r % 2), buffer=buffer)


# ---- values


def values():
    atoms = {"a": "01", "0": "00", "1": "11", "(not a)": "10", "(not 0)": "11", "(not 1)": "00", "(not (not a))": "01"}
    for k, (formula, digits) in enumerate(atoms.items(), 1):
        case(f"value-1-{k}", sheet_of("a", "a", formula), yes(digits))
    two = {
        "a": "0011",
        "b": "0101",
        "0": "0000",
        "1": "1111",
        "(and a b)": "0001",
        "(or a b)": "0111",
        "(xor a b)": "0110",
        "(and b a)": "0001",
        "(and a a)": "0011",
        "(or b b)": "0101",
        "(xor a a)": "0000",
        "(xor a a a)": "0011",
        "(and a 0)": "0000",
        "(and a 1)": "0011",
        "(or 0 b)": "0101",
        "(or 1 b)": "1111",
        "(xor 0 b)": "0101",
        "(xor 1 b)": "1010",
        "(xor 1 1)": "0000",
        "(xor 1 1 1)": "1111",
        "(and 1 1)": "1111",
        "(or 0 0)": "0000",
        "(not (and a b))": "1110",
        "(not (or a b))": "1000",
        "(not (xor a b))": "1001",
        "(and (not a) b)": "0100",
        "(or (not a) (not b))": "1110",
    }
    for k, (formula, digits) in enumerate(two.items(), 1):
        case(f"value-2-{k}", sheet_of("a b", "b", formula), yes(digits))
    three = {
        "a": "00001111",
        "b": "00110011",
        "c": "01010101",
        "(and a b c)": "00000001",
        "(or a b c)": "01111111",
        "(xor a b c)": "01101001",
        "(and (or a b) c)": "00010101",
        "(or (and a b) (and (not a) c))": "01010011",
        "(or (and a b) (and b c) (and a c))": "00010111",
        "(xor (and a b) c)": "01010110",
        "(xor a (xor b c))": "01101001",
        "(not (xor a b c))": "10010110",
    }
    for k, (formula, digits) in enumerate(three.items(), 1):
        case(f"value-3-{k}", sheet_of("a b c", "c a", formula), yes(digits))
    case("value-4-xor", sheet_of("a b c d", "a", "(xor a b c d)"), yes("0110100110010110"))
    case("value-4-mux", sheet_of("s t x y", "s", "(or (and s x) (and (not s) y))"), yes("0101010100110011"))
    # The order of the `in` line decides, not that of the alphabet or of the `bound` line.
    case("value-order-in", sheet_of("b a", "a b", "a"), yes("0101"))
    case("value-order-bound", sheet_of("c a b", "b a c", "(and c (not b))"), yes("00001010"))


def wide_values():
    names = "a b c d e g h i j k".split()
    for count in range(1, 11):
        given = names[:count]
        listed = " ".join(given)
        top, low, last = 2 ** (count - 1), 1, 2**count - 1
        rules = {
            "first": (given[0], lambda r: r & top),
            "last": (given[-1], lambda r: r & low),
            "zero": ("0", lambda r: False),
            "one": ("1", lambda r: True),
            "not": (f"(not {given[-1]})", lambda r: not r & low),
        }
        if count > 1:
            rules["and"] = (f"(and {listed})", lambda r: r == last)
            rules["or"] = (f"(or {listed})", lambda r: r != 0)
            rules["xor"] = (f"(xor {listed})", lambda r: ones(r) % 2 == 1)
            rules["mixed"] = (
                f"(or (and {given[0]} (not {given[1]})) (xor {listed} 1))",
                lambda r: r & top and not r & top // 2 or ones(r) % 2 == 0,
            )
        for word, (formula, rule) in rules.items():
            if count > 7 and word in ("zero", "one", "last"):
                continue
            case(f"wide-{count}-{word}", sheet_of(listed, "a", formula), rows(count, rule), buffer=1024)
    # xor is odd parity, and no "just one true".
    for count in (3, 4, 5):
        given = " ".join(names[:count])
        turned = " ".join(reversed(names[:count]))
        odd = rows(count, lambda r: ones(r) in (1, 3, 5))
        even = rows(count, lambda r: ones(r) in (0, 2, 4))
        case(f"xor-{count}", sheet_of(given, "a", f"(xor {given})"), odd)
        case(f"xor-{count}-turned", sheet_of(given, "a", f"(xor {turned})"), odd)
        case(f"xor-{count}-and-one", sheet_of(given, "a", f"(xor {given} 1)"), even)
        case(f"xor-{count}-digits", sheet_of(given, "a", f"(xor{' 1' * count})"), rows(count, lambda r: count != 4))
    # Each input alone, beside nine others: every place of a row number.
    for k, name in enumerate(names):
        sheet = sheet_of(" ".join(names), "k", name)
        case(f"place-{k}", sheet, rows(10, lambda r: r >> (9 - k) & 1), buffer=1024)


def specification():
    """The specification's own sheets, by their tables."""
    a, d, e, i = (sheets_to_try.sheet(name) for name in ("a", "d-limit-3", "e", "i-four-outputs"))
    case("sheet-a-f", a, yes("0110100110010110"))
    case("sheet-a-g", a, yes("0001010001000001"), output=1)
    case("sheet-d-f", d, yes("01011010"))
    case("sheet-d-g", d, yes("01100110"), output=1)
    case("sheet-d-h", d, yes("01101001"), output=2)
    case("sheet-e-f", e, yes("0000010100110111"))
    case("sheet-e-g", e, yes("0011110011000011"), output=1)
    case("sheet-f", sheets_to_try.sheet("f"), yes("0111011101110111"))
    case("sheet-g", sheets_to_try.sheet("g-limit-2"), yes("0000010101010011"))
    case("sheet-h", sheets_to_try.sheet("h"), yes("0001"))
    case("sheet-i-f", i, rows(7, lambda r: r & 64 and r & 2 or r & 4 and r & 1), buffer=128)
    case("sheet-i-i", i, rows(7, lambda r: bool(r & 8) != bool(r & 2)), output=3, buffer=128)
    case("sheet-k-empty", sheets_to_try.sheet("k-empty"), no(1, 0))
    case("sheet-k-limit", sheets_to_try.sheet("k-limit-7"), no(3, 4))


# ---- random sheets


def random_cases(count):
    dice = random.Random(SEED)
    for k in range(1, count + 1):
        lines = random_sheets.valid(dice)
        output = dice.randrange(len(lines) - 5 + (k % 10 == 0))
        buffer = dice.choice((1024, 1024, 1024, 1100, 2048, 2 ** len(lines[1].split(" ")[1:]), 7))
        CASES.append((f"random-{k}", random_sheets.text_of(lines), None, output, buffer))
    for k in range(1, count + 1):
        CASES.append((f"damaged-{k}", random_sheets.damaged(dice), None, 0, 1024))
    for k in range(1, count // 12 + 1):
        CASES.append((f"mixed-{k}", random_sheets.mixed(dice), None, 0, 1024))
        CASES.append((f"mixed-damaged-{k}", random_sheets.mixed_damaged(dice), None, 0, 1024))


# ---- the files


def answer(text, output, buffer):
    try:
        return yes(cellref.table(text, output, buffer))
    except cellref.Refusal as refusal:
        return str(refusal)


def blocks():
    """The bytes of all blocks, and the names; a person's answer that cellref.py does not give ends the run."""
    names, made, apart = [], [], 0
    for name, text, expected, output, buffer in CASES:
        found = answer(text, output, buffer)
        if expected is not None and expected != found:
            apart += 1
            print(f"{name}: expected {expected}, cellref.py answers {found}", file=sys.stderr)
        names.append(name)
        made.append(f"{name} {output} {buffer} {len(text)} {found}\n".encode("ascii") + text + b"\n")
    if len(set(names)) < len(names):
        sys.exit(f"names twice: {sorted(name for name in set(names) if names.count(name) > 1)}")
    if apart:
        sys.exit(f"{apart} answers apart")
    return names, b"".join(made)


def make():
    """Makes all cases, and answers how many of them are by hand."""
    for part in (
        question_1,
        length_of_text,
        each_byte,
        design_line,
        in_line,
        bound_line,
        limit_line,
        out_line,
        formula_spelling,
        depth,
        outputs,
        capitals,
        end_line,
        missing_lines,
        output_and_buffer,
        values,
        wide_values,
        specification,
    ):
        part()
    by_hand = len(CASES)
    random_cases(300)
    return by_hand


def main():
    by_hand = make()
    names, given = blocks()
    wanted = "".join(f"{name} ok\n" for name in names) + f"{len(names)} sheets, 0 wrong\n"
    if len(given) > MAX_TEXT:
        sys.exit(f"{len(given)} bytes are too many")
    files = {CRATE / "stdin": given, CRATE / "stdout": wanted.encode("ascii")}
    if sys.argv[1:] == ["--check"]:
        for path, content in files.items():
            if path.read_bytes() != content:
                sys.exit(f"{path.name} is not what this script writes")
    else:
        for path, content in files.items():
            path.write_bytes(content)
    print(f"{by_hand} sheets by hand, {len(names) - by_hand} random, {len(given)} bytes")


if __name__ == "__main__":
    main()
