#!/usr/bin/env python3
"""The reference on the specification's sheets in tests/sheets/, on names in either case, its two searches for the fewest cells compared with each
other, its first network with all permitted ones and with those of bench/first/, the lines that refusals name, and the causes of
refusal 8."""

import itertools
import pathlib
import random
import unittest

import cellref
import network_cases
import random_sheets
import sheets_to_try


def sheet(inputs, bound, limit, *outputs):
    lines = ["(design 1)", f"(in {inputs})", f"(bound {bound})", f"(limit {limit})"]
    lines += [f"(out {name} {formula})" for name, formula in zip("fghi", outputs)]
    return "".join(line + "\n" for line in lines + ["(end)"]).encode("ascii")


A = sheets_to_try.sheet("a")
A_NETWORK = sheets_to_try.network("a").decode("ascii")


def refusal(function, *words):
    try:
        function(*words)
    except cellref.Refusal as refused:
        return refused.number, refused.line
    return None


def check_answer(design, network):
    """Check's answer in the words of the program cellcheck"""
    refused = refusal(cellref.check, design, network)
    if refused:
        return "refused {} line {}".format(*refused)
    found = cellref.check(design, network)
    return "same" if found is None else "differs output {} row {}".format(*found)


def permitted(design, count):
    """Every network of so many tables, 0 at vertex 0, that computes the design within its widths, as a text."""
    classes = cellref.Classes(design)
    vertices = 2 ** len(design.bound)
    for tables in itertools.product([(0, *rest) for rest in itertools.product((0, 1), repeat=vertices - 1)], repeat=count):
        nodes = [cellref.node_lines(design, classes, output, tables) for output in range(len(design.outputs))]
        for lines in itertools.product(*nodes):
            luts = [f"(lut _{k} ({' '.join(design.bound)}) {''.join(map(str, table))})\n" for k, table in enumerate(tables)]
            yield "".join(["(network 1)\n", *luts, *lines, f"(count {count})\n", "(end)\n"])


class Sheets(unittest.TestCase):
    """The sheets of tests/sheets/."""

    def test_map(self):
        for name, wanted, outputs in sheets_to_try.maps():
            with self.subTest(name):
                text = sheets_to_try.sheet(name)
                if wanted.startswith("refused"):
                    self.assertEqual("refused {} line {}\n".format(*refusal(cellref.map_sheet, text)), wanted)
                else:
                    self.assertEqual(cellref.map_sheet(text), (wanted.count("(lut "), wanted))
                    self.assertIsNone(cellref.check(text, wanted.encode("ascii")))
                self.assertEqual(sorted(cellref.cause(text) or []), outputs)

    def test_b(self):
        self.assertEqual(len(A_NETWORK), 96)
        self.assertEqual(refusal(cellref.map_sheet, A, 95), (9, 0))
        self.assertEqual(cellref.map_sheet(A, 96), (1, A_NETWORK))

    def test_classes(self):
        three = cellref.Classes(cellref.examine(sheets_to_try.sheet("g-limit-2")))
        self.assertEqual((max(three.local[0]) + 1, three.widths), (3, [2]))
        self.assertEqual(cellref.Classes(cellref.examine(sheets_to_try.sheet("d-limit-3"))).global_count(), 4)
        self.assertEqual(cellref.Classes(cellref.examine(sheets_to_try.sheet("i-limit-4"))).global_count(), 16)


class Networks(unittest.TestCase):
    def test_cases_by_hand(self):
        for name, design, network, wanted in network_cases.CASES:
            with self.subTest(name):
                self.assertEqual(check_answer(design, network), wanted)


A_BLIF = """.model panel
.inputs a b c d
.outputs f g
.names a b c CC_0
001 1
010 1
100 1
111 1
.names CC_0 d f
01 1
10 1
.names CC_0 d g
11 1
.end
"""


class Exports(unittest.TestCase):
    """Texts spelled by hand."""

    def exported(self, text, *lines):
        network = "".join(line + "\n" for line in ("(network 1)", *lines, "(end)"))
        return cellref.export(text, network.encode("ascii")).splitlines()

    def test_a(self):
        network = A_NETWORK.encode("ascii")
        self.assertEqual(cellref.export(A, network), A_BLIF)
        self.assertEqual(cellref.export(A, network, len(A_BLIF)), A_BLIF)
        self.assertEqual(refusal(cellref.export, A, network, len(A_BLIF) - 1), (9, 0))
        self.assertEqual(refusal(cellref.export, A, network, 0), (9, 0))

    def test_network_that_differs(self):
        other = A_NETWORK.replace("0001)", "0011)").encode("ascii")
        self.assertIsNotNone(cellref.check(A, other))
        self.assertEqual(cellref.export(A, other), A_BLIF.replace("11 1\n.end", "10 1\n11 1\n.end"))

    def test_constants_without_inputs(self):
        text = sheet("a b", "b a", 0, "1", "0")
        head = [".model panel", ".inputs a b", ".outputs f g"]
        said = self.exported(text, "(node f () 1)", "(node g () 0)", "(count 0)")
        self.assertEqual(said, head + [".names f", "1", ".names g", ".end"])
        said = self.exported(text, "(node f () 0)", "(node g () 1)", "(count 0)")
        self.assertEqual(said, head + [".names f", ".names g", "1", ".end"])

    def test_tables_of_zeros_and_of_ones(self):
        text = sheet("x b y", "b", 2, "0", "1", "(xor b x)")
        said = self.exported(
            text,
            "(lut _0 (b) 00)",
            "(lut _1 (b) 11)",
            "(node f (x y) 0000)",
            "(node g (x y) 1111)",
            "(node h (_1 x y) 10000001)",
            "(count 2)",
        )
        blocks = [".names b CC_0", ".names b CC_1", "0 1", "1 1", ".names x y f", ".names x y g", "00 1", "01 1", "10 1", "11 1"]
        blocks += [".names CC_1 x y h", "000 1", "111 1", ".end"]
        self.assertEqual(said, [".model panel", ".inputs x b y", ".outputs f g h"] + blocks)

    def test_cells_that_no_node_reads(self):
        text = sheet("a b c", "c a", 3, "(xor a c)")
        luts = ["(lut _0 (c a) 0001)", "(lut _1 (c a) 0110)", "(lut _2 (c a) 1000)"]
        said = self.exported(text, *luts, "(node f (_1 b) 0011)", "(count 3)")
        blocks = [".names c a CC_0", "11 1", ".names c a CC_1", "01 1", "10 1", ".names c a CC_2", "00 1", ".names CC_1 b f"]
        self.assertEqual(said, [".model panel", ".inputs a b c", ".outputs f"] + blocks + ["10 1", "11 1", ".end"])

    def test_examined_as_check_examines(self):
        over_limit = sheet("a b", "a", 0, "(xor a b)")
        over_width = sheet("a b", "a", 1, "b")
        network = b"(network 1)\n(lut _0 (a) 01)\n(node f (_0 b) 0110)\n(count 1)\n(end)\n"
        for buffer in (0, 10**6):
            self.assertEqual(refusal(cellref.export, b"", network, buffer), (1, 0))
            self.assertEqual(refusal(cellref.export, over_limit[1:], network, buffer), (2, 1))
            self.assertEqual(refusal(cellref.export, over_limit, b"", buffer), (10, 0))
            self.assertEqual(refusal(cellref.export, over_limit, network[:-1], buffer), (10, 5))
            self.assertEqual(refusal(cellref.export, over_limit, network, buffer), (11, 2))
            self.assertEqual(refusal(cellref.export, over_width, network, buffer), (11, 3))


class Capitals(unittest.TestCase):
    """Names in either case."""

    MIXED = sheets_to_try.sheet("capitals")
    NETWORK = sheets_to_try.network("capitals").decode("ascii")

    def test_spelled_as_first_given(self):
        self.assertEqual(cellref.map_sheet(self.MIXED), (1, self.NETWORK))
        self.assertEqual(cellref.map_sheet(self.MIXED.replace(b"a B c", b"c A b"))[1], self.NETWORK.replace("A B C", "C A B"))
        blif = A_BLIF.replace("a b c", "A B C").replace("f g", "f G").replace("d g", "d G")
        for network in (self.NETWORK, A_NETWORK):
            self.assertEqual(cellref.export(self.MIXED, network.encode("ascii")), blif)

    def test_refusals(self):
        refused = {
            b"(in a b c D A)": (4, 2),
            b"(in a b c d aB Ab)": (4, 2),
            b"(in a b c Xor)": (2, 2),
            b"(in a b c d AND)": (2, 2),
            b"(bound a b A)": (4, 3),
            b"(bound a B e)": (5, 3),
            b"(bound a nOt)": (2, 3),
            b"(out f (XOR a b c d))": (2, 5),
            b"(out f Not)": (2, 5),
            b"(out oR (xor a b c d))": (2, 5),
            b"(out D 1)": (4, 5),
            b"(out G 1)": (4, 6),
            b"(out f (xor A E))": (5, 5),
        }
        lines = A.splitlines(keepends=True)
        for line, wanted in refused.items():
            number = {b"(in": 2, b"(bound": 3, b"(out": 5}[line.split(b" ")[0]]
            text = b"".join(lines[: number - 1] + [line + b"\n"] + lines[number:])
            self.assertEqual(refusal(cellref.map_sheet, text), wanted, line)

    def test_words_that_are_longer_than_operators(self):
        text = sheet("And1 NOTE xOrs", "note aNd1", 2, "(or AND1 (and NOTe XORS))")
        self.assertEqual(cellref.table(text, 0), "00011111")

    def test_small_letters_say_the_same(self):
        """A sheet in any case, valid or damaged, is answered as the one with the same names in small letters."""
        dice = random.Random(17)

        def lowered(text):
            return random_sheets.NAMES.sub(lambda name: name.group().lower(), text)

        def answer(text):
            try:
                return cellref.map_sheet(text)
            except cellref.Refusal as refused:
                return str(refused)

        mapped = 0
        for _ in range(60):
            text = random_sheets.in_any_case(dice, random_sheets.text_of(random_sheets.sheet(dice, dice.randrange(1, 6), 3, (0, 1, 2, 3))))
            said, small = answer(text), answer(lowered(text))
            mapped += not isinstance(said, str)
            self.assertEqual(said if isinstance(said, str) else (said[0], said[1].lower()), small)
        self.assertGreater(mapped, 20)
        for _ in range(1000):
            text = random_sheets.mixed_damaged(dice)
            self.assertEqual(refusal(cellref.examine, text), refusal(cellref.examine, lowered(text)))


class Lines(unittest.TestCase):
    """The lines that refusals name."""

    def test_each_line_of_both_sheets(self):
        network = A_NETWORK.encode("ascii")
        for text, numbers, second in ((A, (2, 3, 4, 5), False), (network, (10, 11), True)):
            start = 0
            for n, line in enumerate(text.split(b"\n")[:-1], 1):
                for number in numbers:
                    self.assertEqual(cellref.line_at(A, network, number, n), (second, start, line))
                start += len(line) + 1
            self.assertEqual(start, len(text))

    def test_no_such_line(self):
        network = A_NETWORK.encode("ascii")
        for line in (0, 8, 9, 100, 2**64 - 1):
            for number in (2, 3, 4, 5):
                self.assertEqual(cellref.line_at(A, network, number, line), (False, len(A), b""))
            for number in (10, 11):
                self.assertEqual(cellref.line_at(A, network, number, line), (True, len(network), b""))

    def test_other_numbers(self):
        for number in (0, 1, 6, 7, 8, 9, *range(12, 21), 2**64 - 1):
            for line in range(9):
                self.assertEqual(cellref.line_at(A, b"x\ny\n", number, line), (False, len(A), b""))

    def test_last_line_without_its_end(self):
        self.assertEqual(cellref.line_at(b"ab\ncd", b"e", 2, 1), (False, 0, b"ab"))
        self.assertEqual(cellref.line_at(b"ab\ncd", b"e", 2, 2), (False, 3, b"cd"))
        self.assertEqual(cellref.line_at(b"ab\ncd", b"e", 2, 3), (False, 5, b""))
        self.assertEqual(cellref.line_at(b"ab\ncd", b"e", 10, 1), (True, 0, b"e"))
        self.assertEqual(cellref.line_at(b"ab\ncd", b"e", 10, 2), (True, 1, b""))

    def test_empty_texts_and_lines(self):
        for number in (2, 10):
            for line in range(3):
                self.assertEqual(cellref.line_at(b"", b"", number, line), (number == 10, 0, b""))
        self.assertEqual(cellref.line_at(b"\n\nx\n", b"", 5, 1), (False, 0, b""))
        self.assertEqual(cellref.line_at(b"\n\nx\n", b"", 5, 2), (False, 1, b""))
        self.assertEqual(cellref.line_at(b"\n\nx\n", b"", 5, 3), (False, 2, b"x"))
        self.assertEqual(cellref.line_at(b"\n\nx\n", b"", 5, 4), (False, 4, b""))
        self.assertEqual(cellref.line_at(b"", b"\x00\xff\n", 11, 1), (True, 0, b"\x00\xff"))

    def test_lines_by_their_bounds(self):
        """A line within the text starts after as many 0x0A as lines before it, has none, and one or the end stands after it."""
        dice = random.Random(21)
        for _ in range(2000):
            text = bytes(dice.choice(b"\n\nab\x00") for _ in range(dice.randrange(9)))
            lines = text.count(b"\n") + (text[-1:] not in (b"\n", b""))
            for line in range(lines + 3):
                _, start, part = cellref.line_at(text, b"", dice.choice((2, 3, 4, 5)), line)
                end = start + len(part)
                self.assertEqual(text[start:end], part)
                if not 1 <= line <= lines:
                    self.assertEqual((start, end), (len(text), len(text)))
                    continue
                self.assertEqual(text[:start].count(b"\n"), line - 1)
                self.assertIn(text[:start][-1:], (b"\n", b""))
                self.assertNotIn(b"\n", part)
                self.assertIn(text[end : end + 1], (b"\n", b""))

    def test_lines_that_refusals_name(self):
        self.assertEqual(refusal(cellref.map_sheet, A.replace(b"2)", b"7)")), (3, 4))
        self.assertEqual(cellref.line_at(A.replace(b"2)", b"7)"), b"", 3, 4), (False, 38, b"(limit 7)"))
        network = A_NETWORK.replace("0001)", "000)").encode("ascii")
        self.assertEqual(refusal(cellref.check, A, network), (10, 4))
        self.assertEqual(cellref.line_at(A, network, 10, 4), (True, 59, b"(node g (_0 d) 000)"))
        cut = A_NETWORK.encode("ascii")[:-6]
        self.assertEqual(refusal(cellref.check, A, cut), (10, 6))
        self.assertEqual(cellref.line_at(A, cut, 10, 6), (True, 90, b""))


def sub_design(design, chosen):
    return cellref.Design(design.inputs, design.bound, design.limit, [design.outputs[o] for o in chosen])


def lacking(design, chosen):
    """Whether these outputs alone need more cells than the limit, by trying all tables."""
    return cellref.fewest_by_brute_force(sub_design(design, chosen), design.limit) is None


def is_cause(design, outputs):
    """The definition: it lacks cells, every smaller set but the empty one has enough, and so has every earlier one as large."""
    mine = tuple(sorted(outputs))
    sets = [chosen for size in range(1, len(mine) + 1) for chosen in itertools.combinations(range(len(design.outputs)), size)]
    before = [chosen for chosen in sets if len(chosen) < len(mine) or chosen < mine]
    return lacking(design, mine) and not any(lacking(design, chosen) for chosen in before)


class Causes(unittest.TestCase):
    """The causes of refusal 8."""

    TWO = ("(xor a c)", "(xor b c)")
    THREE = TWO + ("(xor a b c)",)

    def test_one_limit_lower(self):
        """The lower the limit, the fewer outputs."""
        self.assertEqual(cellref.cause(sheet("a b c", "a b", 1, *self.THREE)), {0, 1})
        self.assertEqual(cellref.cause(sheet("a b c", "a b", 0, *self.THREE)), {0})
        three = sheets_to_try.sheet("i-limit-3")
        self.assertEqual(cellref.cause(three.replace(b"(limit 3)", b"(limit 2)")), {0, 1})
        self.assertEqual(cellref.cause(three.replace(b"(limit 3)", b"(limit 1)")), {0})

    def test_first_of_as_many(self):
        a, b = self.TWO
        self.assertEqual(cellref.cause(sheet("a b c", "a b", 1, a, a, b, b)), {0, 2})
        self.assertEqual(cellref.cause(sheet("a b c", "a b", 1, "c", a, a, b)), {1, 3})
        self.assertEqual(cellref.cause(sheet("a b c", "a b", 0, "c", "(not c)", a, b)), {2})
        four = ("(xor a x)", "(xor b x)", "(xor a b x)")
        self.assertEqual(cellref.cause(sheet("a b x", "a b", 2, four[0], *four)), {0, 2, 3})
        whole = ("(xor a x)", "(xor b x)", "(xor c x)", "(xor d x)")
        self.assertEqual(cellref.cause(sheet("a b c d x", "a b c d", 3, *whole)), {0, 1, 2, 3})

    def test_examples(self):
        folder = pathlib.Path(__file__).resolve().parents[2] / "examples"
        for path in sorted(folder.glob("*.sheet")):
            self.assertEqual(cellref.cause(path.read_bytes()), {0, 1, 2} if path.stem == "axles" else None, path.name)

    def test_refused_by_another_number(self):
        valid = sheet("a b c", "a b", 1, *self.TWO)
        self.assertEqual(cellref.cause(valid), {0, 1})
        changes = [(b"(end)\n", b"(end)", 1), (b"(xor a c)", b"(xor a)", 2), (b"limit 1", b"limit 7", 3)]
        changes += [(b"out g", b"out f", 4), (b"(xor b c)", b"(xor b d)", 5)]
        for old, new, number in changes:
            text = valid.replace(old, new)
            self.assertEqual(refusal(cellref.map_sheet, text)[0], number)
            self.assertIsNone(cellref.cause(text))

    def test_definition_on_random_sheets(self):
        """One cell fewer than the fewest: what is found is the cause by its definition. With as many it maps."""
        dice = random.Random(5)
        forms = ["(xor {} x)"] * 5 + ["(and {} x)", "(or {} y)", "(xor {} x y)", "(and x y)", "(or (and {} x) (and {} y))"]
        sizes = {}
        for _ in range(200):
            bound = dice.choice(("a b", "a b", "a b c"))
            pool = [random_sheets.formula(dice, bound.split(), dice.randrange(1, 3)) for _ in range(5)]
            if dice.random() < 0.5:
                pool = dice.sample(["a", "b", "(and a b)", "(or a b)", "(xor a b)", "(and a (not b))", "(and b (not a))"], 5)
            outputs = [dice.choice(forms).format(pool[k], pool[k + 1]) for k in range(dice.randrange(1, 5))]
            fewest = cellref.fewest(cellref.Classes(cellref.examine(sheet(bound + " x y", bound, 6, *outputs))))[0]
            self.assertIsNone(cellref.cause(sheet(bound + " x y", bound, fewest, *outputs)))
            if 0 < fewest < (4 if "c" in bound else 6):
                text = sheet(bound + " x y", bound, fewest - 1, *outputs)
                found = cellref.cause(text)
                self.assertTrue(is_cause(cellref.examine(text), found))
                sizes[len(found)] = sizes.get(len(found), 0) + 1
        self.assertTrue(all(sizes.get(size, 0) > 3 for size in range(1, 5)), sizes)


class Searches(unittest.TestCase):
    def test_both_searches_agree(self):
        dice = random.Random(7)
        for _ in range(60):
            inputs = "abcde"[: dice.randrange(2, 6)]
            bound = inputs[: dice.randrange(1, min(3, len(inputs)) + 1)]
            outputs = [random_sheets.formula(dice, inputs, dice.randrange(4)) for _ in range(dice.randrange(1, 4))]
            design = cellref.examine(sheet(" ".join(inputs), " ".join(bound), 6, *outputs))
            found = cellref.fewest(cellref.Classes(design))
            if found is not None and found[0] < 4:
                self.assertEqual(found[0], cellref.fewest_by_brute_force(design))

    def test_first_of_all_permitted(self):
        dice = random.Random(3)
        several = 0
        for _ in range(150):
            inputs = "abcd"[: dice.randrange(2, 5)]
            bound = dice.sample(inputs, dice.randrange(1, 3))
            outputs = [random_sheets.formula(dice, inputs, dice.randrange(4)) for _ in range(dice.randrange(1, 4))]
            text = sheet(" ".join(inputs), " ".join(bound), 3, *outputs)
            count, network = cellref.map_sheet(text)
            texts = list(permitted(cellref.examine(text), count))
            self.assertEqual(network, min(texts))
            self.assertEqual(list(permitted(cellref.examine(text), count - 1)) if count else [], [])
            several += len(texts) > 1
        self.assertGreater(several, 20)

    def test_first_networks_of_the_repository(self):
        paths = sorted((pathlib.Path(__file__).resolve().parents[2] / "bench" / "first").glob("*.sheet"))
        self.assertEqual(len(paths), 40)
        for path in paths:
            self.assertEqual(cellref.map_sheet(path.read_bytes())[1], path.with_suffix(".network").read_text(), path.name)


if __name__ == "__main__":
    unittest.main()
