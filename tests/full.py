#!/usr/bin/env python3
"""full.py: each program writes its answer to /dev/full, to which nothing can be written, and to a closed standard output. It must say
so on standard error, in one line with its name (border after each problem), and must say nothing there where the answer is written.
Runs on the stored inputs of the programs, and on a text that is refused."""
import pathlib
import subprocess
import sys

import programs
import stored

WORDS = ": the answer could not be written\n"


def told(name, text, output):
    """What a program says on standard error, where standard output goes as the shell's words say; border has lines of its own there"""
    done = subprocess.run(["sh", "-c", f'"$0" {output}', programs.BIN / name], input=text, stderr=subprocess.PIPE, check=False)
    return [line for line in done.stderr.decode().splitlines(keepends=True) if name != "border" or line.startswith("border")]


def cases():
    """A program, a text, and how often it has to say that it could not write"""
    for name in ("cellmap", "plamap", "cellcheck", "cellblif", "border", stored.crate_of_table_cases()):
        text = (programs.ROOT / "crates" / name / "stdin").read_bytes()
        yield name, text, text.count(b"\n") if name == "border" else 1
    yield "worked", b"", 1
    for name in ("cellmap", "plamap", "cellcheck", "cellblif"):
        yield name, b"x", 1


def main():
    if not pathlib.Path("/dev/full").exists():
        print("no /dev/full here: left out")
        return 0
    every = list(cases())
    programs.need(*dict.fromkeys(name for name, _, _ in every))
    wrong = 0
    for name, text, times in every:
        said = [told(name, text, output) for output in (">/dev/full", ">&-", ">/dev/null")]
        if said != [[name + WORDS] * times, [name + WORDS] * times, []]:
            wrong += 1
            print(f"{name}: on a full device, a closed output and one that takes all it said {said}")
    print(f"{len(every) - wrong} passed, {wrong} failed")
    return 1 if wrong else 0


if __name__ == "__main__":
    sys.exit(main())
