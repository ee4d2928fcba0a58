#!/usr/bin/env python3
"""The reference on pairs of a PLA text and a second text: the cases by hand, the example, and random panels printed as a sheet and
as a pair, of which Table, Map, Check and the cause must say the same."""

import pathlib
import random
import unittest

import cellref
import pla
import pla_cases
import random_pairs
import random_sheets

ROOT = pathlib.Path(__file__).resolve().parents[2]


def answer(function, *words):
    """What a function says, or the number and line of the refusal."""
    try:
        return function(*words)
    except cellref.Refusal as refused:
        return str(refused)


class Cases(unittest.TestCase):
    def test_cases_by_hand(self):
        for name, text, board, wanted in pla_cases.CASES:
            with self.subTest(name):
                said = answer(pla.map_pair, text, board)
                self.assertEqual(said + "\n" if isinstance(said, str) else said[1], wanted)

    def test_all_three_refuse_alike(self):
        for name, text, board, wanted in pla_cases.CASES:
            number = int(wanted.split()[1]) if wanted.startswith("refused") else 0
            if number not in (0, 7, 8):
                with self.subTest(name):
                    self.assertEqual(answer(pla.table, text, board, 0, 0) + "\n", wanted)
                    self.assertEqual(answer(pla.check, text, board, b"") + "\n", wanted)

    def test_buffers_and_outputs(self):
        a, board = pla_cases.A, pla_cases.BOARD
        self.assertEqual(pla.table(a, board, 0, 16), "0110100110010110")
        self.assertEqual(pla.table(a, board, 1), "0001010001000001")
        self.assertEqual(answer(pla.table, a, board, 1, 15), "refused 9 line 0")
        self.assertEqual(answer(pla.table, a, board, 2, 0), "refused 6 line 0")
        self.assertEqual(pla.map_pair(a, board, 96), (1, pla_cases.NETWORK))
        self.assertEqual(answer(pla.map_pair, a, board, 95), "refused 9 line 0")

    def test_check(self):
        a, board, network = pla_cases.A, pla_cases.BOARD, pla_cases.NETWORK.encode()
        self.assertIsNone(pla.check(a, board, network))
        self.assertEqual(pla.check(a, board, network.replace(b"0001", b"0011")), (1, 2))
        self.assertEqual(answer(pla.check, a, board, network[:-1]), "refused 10 line 6")
        self.assertEqual(answer(pla.check, a, b"(bound a b c)\n(limit 0)\n", network), "refused 11 line 2")

    def test_example(self):
        pair = cellref.read_files(ROOT / "examples/departure.pla", ROOT / "examples/departure.board")
        sheet = (ROOT / "examples/departure.sheet").read_bytes()
        self.assertEqual(pla.map_pair(*pair)[1], (ROOT / "examples/departure.network").read_text())
        for output in range(3):
            self.assertEqual(pla.table(*pair, output), cellref.table(sheet, output))


class Causes(unittest.TestCase):
    C = b".i 3\n.o 2\n.ilb a b c\n.ob f g\n.p 4\n0-1 10\n1-0 10\n-01 01\n-10 01\n.e\n"

    def test_sheet_c(self):
        self.assertEqual(pla.cause(self.C, b"(bound a b)\n(limit 1)\n"), {0, 1})
        self.assertEqual(pla.cause(self.C, b"(bound a b)\n(limit 0)\n"), {0})
        self.assertIsNone(pla.cause(self.C, b"(bound a b)\n(limit 2)\n"))

    def test_refused_by_another_number(self):
        board = b"(bound a b)\n(limit 1)\n"
        pairs = [(b"", board), (self.C[:-1], board), (self.C.replace(b" 10\n", b" 1~\n"), board), (self.C.replace(b" g", b" f"), board)]
        pairs += [(self.C, b""), (self.C, board[:-1]), (self.C, b"(bound a d)\n(limit 1)\n"), (self.C, b"(bound a b)\n(limit 7)\n")]
        for pair in pairs:
            self.assertIn("refused", answer(pla.map_pair, *pair))
            self.assertIsNone(pla.cause(*pair))

    def test_some_outputs(self):
        text = self.C.replace(b".p 4", b".p 5").replace(b".e", b"--- 00\n.e")
        self.assertEqual(pla.with_outputs(text, (1,)), b".i 3\n.o 1\n.ilb a b c\n.ob g\n.p 5\n0-1 0\n1-0 0\n-01 1\n-10 1\n--- 0\n.e\n")
        self.assertEqual(pla.with_outputs(text, (0, 1)), text)

    def test_cases_by_hand(self):
        for name, text, board, wanted in pla_cases.CASES:
            with self.subTest(name):
                self.assertEqual(pla.cause(text, board) is not None, wanted.startswith("refused 8 "))


class Panels(unittest.TestCase):
    def test_a_sheet_and_a_pair_with_the_same_tables(self):
        dice = random.Random(11)
        mapped = causes = 0
        for _ in range(60):
            lines = random_sheets.sheet(dice, dice.randrange(1, 7), 4, (0, 1, 2, 3, 4))
            sheet = random_sheets.in_any_case(dice, random_sheets.text_of(lines))
            pair = random_pairs.of_design(dice, cellref.examine(sheet))
            for output in range(5):
                self.assertEqual(answer(pla.table, *pair, output), answer(cellref.table, sheet, output))
            said = answer(cellref.map_sheet, sheet)
            self.assertEqual(answer(pla.map_pair, *pair), said)
            found = cellref.cause(sheet)
            self.assertEqual(pla.cause(*pair), found)
            causes += found is not None
            if not isinstance(said, str):
                mapped += 1
                network = bytearray(said[1].encode())
                self.assertIsNone(pla.check(*pair, bytes(network)))
                network = bytearray(random_sheets.in_any_case(dice, bytes(network), random_sheets.NETWORK_NAMES))
                self.assertIsNone(pla.check(*pair, bytes(network)))
                place = dice.choice([i for i, b in enumerate(network) if b in b"01"])
                network[place] ^= 1
                self.assertEqual(answer(pla.check, *pair, bytes(network)), answer(cellref.check, sheet, bytes(network)))
        self.assertGreater(mapped, 20)
        self.assertGreater(causes, 8)

    def test_every_number_comes(self):
        """Damaged pairs end, with an answer of the examination's."""
        dice = random.Random(12)
        numbers = set()
        for _ in range(4000):
            said = answer(pla.examine, *random_pairs.damaged(dice))
            numbers.add(int(said.split()[1]) if isinstance(said, str) else 0)
        self.assertEqual(numbers, {0, 1, 2, 3, 4, 5, 12, 13, 14})


if __name__ == "__main__":
    unittest.main()
