#!/usr/bin/env python3
"""vectors.py [--quiet] DIR: maps every sheet of DIR with target/bin/cellmap and compares the number of cells with DIR/ANSWERS
(lines 'NAME FEWEST ..', FEWEST a number, or 'inf' for a refusal by 8; or 'NAME refused N line L'). Where NAME.network stands beside a sheet, the network must
be that byte for byte. Shows each sheet as it comes, or with --quiet those that are wrong; the last line counts."""
import argparse
import pathlib
import re
import sys
import time

import programs
from progress import Progress


def read_answers(path):
    """name: what Map must answer"""
    lines = (line.split(" ", 1) for line in path.read_text().splitlines() if line.strip())
    return {name: rest if rest.startswith("refused") else rest.split()[0] for name, rest in lines}


def answer(folder, name, wanted):
    """What Map answers, in the words of ANSWERS"""
    out = programs.said("cellmap", (folder / f"{name}.sheet").read_bytes()).decode()
    count = re.search(r"^\(count (\d+)\)$", out, re.M)
    got = count.group(1) if count else ("inf" if out == "refused 8 line 0\n" else out.strip())
    network = folder / f"{name}.network"
    if network.exists() and got == wanted and out.encode() != network.read_bytes():
        got += ", not the first network"
    return got


def main():
    parser = argparse.ArgumentParser(description=__doc__, formatter_class=argparse.RawDescriptionHelpFormatter)
    parser.add_argument("--quiet", action="store_true")
    parser.add_argument("folder", type=pathlib.Path, metavar="DIR")
    args = parser.parse_args()
    if not (args.folder / "ANSWERS").is_file():
        sys.exit(f"vectors.py: {args.folder} has no file ANSWERS")
    programs.need("cellmap")
    answers = read_answers(args.folder / "ANSWERS")
    progress = Progress(str(args.folder), len(answers))
    wrong = 0
    for name, wanted in sorted(answers.items()):
        start = time.monotonic()
        got = answer(args.folder, name, wanted)
        took = time.monotonic() - start
        wrong += got != wanted
        if got != wanted or not args.quiet:
            print(f"{name} {got} {'ok' if got == wanted else 'WRONG, wanted ' + wanted} {took * 1000:.1f} ms", flush=True)
        else:
            progress.step()
    progress.end()
    print(f"{len(answers) - wrong} passed, {wrong} failed")
    return wrong != 0


if __name__ == "__main__":
    sys.exit(main())
