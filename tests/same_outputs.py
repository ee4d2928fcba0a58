#!/usr/bin/env python3
"""same_outputs.py [--small] OTHER [COUNT [SEED]]: whether cellmap, cellcheck and cellblif answer byte for byte as those of another
checkout do, whose target/bin/ has them built (cellblif is left out where it has none). The sheets are those of bench/ and examples/,
COUNT random valid ones, as many of many free inputs, as many damaged, and as many of the first and the last kind in any case (3,000
unless given); beside each sheet that maps Check and Export are asked of the network, of it with its names in any case, with a table's
digit turned, with any one byte changed, with a line lost, and cut off. With --small only texts without capitals are asked, and the
cells in OTHER's BLIF may be C0, C1 and so on, as where names have small letters alone. The last line counts the answers by kind,
and those that differ."""
import argparse
import collections
import pathlib
import random
import re
import subprocess
import sys

import programs
from progress import Progress

ROOT = programs.ROOT
sys.path.insert(0, str(ROOT / "tests/reference"))
import random_sheets  # noqa: E402


CELL = re.compile(rb"(?<= )C(?=[0-9])")


def run(checkout, program, text):
    return subprocess.run([checkout / "target/bin" / program], input=text, capture_output=True).stdout


def turned(dice, network):
    """the network with one digit of a lut or node line turned, which leaves it spelled right"""
    lines = network.split(b"\n")
    number = dice.choice([i for i, line in enumerate(lines) if line.startswith((b"(lut", b"(node"))])
    line = bytearray(lines[number])
    place = dice.randrange(line.rindex(b" ") + 1, len(line) - 1)
    line[place] ^= 1
    return b"\n".join(lines[:number] + [bytes(line)] + lines[number + 1:])


def changed(dice, network):
    place = dice.randrange(len(network))
    return network[:place] + bytes([dice.choice(random_sheets.BYTES)]) + network[place + 1:]


def shortened(dice, network):
    lines = network.split(b"\n")
    number = dice.randrange(len(lines) - 1)
    return b"\n".join(lines[:number] + lines[number + 1:])


def kind(answer):
    words = [word.decode() for word in answer.split()[:2]] or ["nothing"]
    if words[0] == "refused":
        return " ".join(words)
    return {"(network": "mapped", ".model": "written"}.get(words[0], words[0])


def main():
    parser = argparse.ArgumentParser(description=__doc__, formatter_class=argparse.RawDescriptionHelpFormatter)
    parser.add_argument("--small", action="store_true")
    parser.add_argument("other", type=pathlib.Path)
    parser.add_argument("count", nargs="?", type=int, default=3000)
    parser.add_argument("seed", nargs="?", type=int, default=1)
    args = parser.parse_args()
    programs.need("cellmap", "cellcheck", "cellblif")
    programs.need("cellmap", folder=args.other.resolve() / "target/bin")
    other, dice = args.other.resolve(), random.Random(args.seed)
    sheets = [p.read_bytes() for d in ("bench/border", "bench/large", "bench/wide", "examples") for p in sorted((ROOT / d).glob("*.sheet"))]
    for _ in range(args.count):
        drawn = [random_sheets.valid(dice), random_sheets.wide(dice)]
        sheets += [*map(random_sheets.text_of, drawn), random_sheets.damaged(dice), random_sheets.mixed(dice), random_sheets.mixed_damaged(dice)]
    of_pairs = [name for name in ("cellcheck", "cellblif") if (other / "target/bin" / name).exists()]
    kinds, differ = collections.Counter(), 0
    progress = Progress("sheets", len(sheets))
    for sheet in sheets:
        progress.step()
        asked = [("cellmap", sheet)]
        network = run(ROOT, "cellmap", sheet)
        if network.startswith(b"(network"):
            cases = [network, random_sheets.in_any_case(dice, network, random_sheets.NETWORK_NAMES), turned(dice, network)]
            cases += [changed(dice, network), shortened(dice, network), network[:-3]]
            asked += [(name, sheet + b"\0" + case) for name in of_pairs for case in cases]
        for program, text in asked:
            if args.small and text != text.lower():
                continue
            mine, others = run(ROOT, program, text), run(other, program, text)
            if args.small and program == "cellblif":
                others = CELL.sub(b"CC_", others)
            kinds[f"{program} {kind(mine)}"] += 1
            if mine != others:
                differ += 1
                print("differs:", program, text[:60])
    progress.end()
    print("; ".join(f"{k} {n}" for k, n in sorted(kinds.items())))
    print(f"{len(sheets)} sheets, {sum(kinds.values())} answers, {differ} differ")
    return 1 if differ else 0


if __name__ == "__main__":
    sys.exit(main())
