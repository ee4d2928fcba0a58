#!/usr/bin/env python3
"""Runs Map's and Check's programs on the specification's sheets in tests/sheets/, and compares what they print byte for byte; then
the program `plamap` on sheet A as PLA, and `cellmap` on a text of a megabyte. Sheet B, with buffers of its own, is executed by the
program `worked`."""
import pathlib
import subprocess
import sys

import programs

sys.path.insert(0, str(pathlib.Path(__file__).resolve().parent / "reference"))
import sheets_to_try  # noqa: E402


def answers():
    """What was asked, what the program said and what it must say"""
    for name, wanted, _ in sheets_to_try.maps():
        yield f"Map of {name}", programs.said("cellmap", sheets_to_try.sheet(name)), wanted.encode()
    for sheet, network, wanted in sheets_to_try.checks():
        both = sheets_to_try.sheet(sheet) + b"\0" + sheets_to_try.network(network)
        yield f"Check of {network} beside {sheet}", programs.said("cellcheck", both), wanted.encode() + b"\n"
    yield "Map of a as PLA", programs.said("plamap", b"\0".join(sheets_to_try.pla("a"))), sheets_to_try.network("a")
    # refused by 1, and read to its end: what writes it is not cut off
    writer = subprocess.run(
        ["bash", "-c", f"set -o pipefail; head -c 1000000 /dev/zero | tr '\\0' a | {programs.BIN / 'cellmap'}"], capture_output=True, check=False)
    yield "a megabyte", b"status %d\n" % writer.returncode + writer.stdout, b"status 0\nrefused 1 line 0\n"


def main():
    programs.need("cellmap", "cellcheck", "plamap")
    count = wrong = 0
    for name, said, wanted in answers():
        count += 1
        if said != wanted:
            wrong += 1
            print(f"{name}: said {said!r}, and {wanted!r} was expected")
    print(f"{count - wrong} passed, {wrong} failed")
    return 1 if wrong else 0


if __name__ == "__main__":
    sys.exit(main())
