#!/usr/bin/env python3
"""write_cases.py FOLDER: writes the cases by hand, each with its answer, for tests/library/, one file for each kind:

    sheets    Table's cases of make_sheets.py     one text      OUTPUT BUFFER and `refused N line L` or `written K DIGITS`
    networks  Check's cases of network_cases.py   two texts     `same`, `differs output O row R` or `refused N line L`
    plas      Map's cases of pla_cases.py         three texts   `refused N line L`, or `mapped`, and the third text is the network

A case is a line with the lengths of its texts, in so many words, and the answer; then the texts, one after another; then 0x0A."""
import pathlib
import sys

import make_sheets
import network_cases
import pla_cases


def block(texts, answer):
    head = " ".join([*(str(len(text)) for text in texts), answer])
    return head.encode("ascii") + b"\n" + b"".join(texts) + b"\n"


def sheets():
    make_sheets.make()
    for _, text, _, output, buffer in make_sheets.CASES:
        yield block([text], f"{output} {buffer} {make_sheets.answer(text, output, buffer)}")


def networks():
    for _, design, network, answer in network_cases.CASES:
        yield block([design, network], answer)


def plas():
    for _, text, board, answer in pla_cases.CASES:
        refused = answer.startswith("refused")
        yield block([text, board, b"" if refused else answer.encode("ascii")], answer.strip() if refused else "mapped")


def main():
    folder = pathlib.Path(sys.argv[1])
    folder.mkdir(parents=True, exist_ok=True)
    for kind in (sheets, networks, plas):
        (folder / kind.__name__).write_bytes(b"".join(kind()))


if __name__ == "__main__":
    main()
