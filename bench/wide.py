"""Map on wide panels, before and after: the sheets of bench/wide/ and the two of bench/large/ with 1 and 2 bound inputs, all of
10 inputs and 4 outputs, with the archive of this checkout and with that of another commit, which is built in a clone of its own.
Times are processor time, the best of several batches taken in turns: of Map, and of putting the network sheet down once, which
is what Map takes longer than with a buffer of no bytes. Instructions are counted by callgrind, in one call of Map and, of it, in
writer::put_network, which puts the network sheet down twice, first without a buffer. Networks that are not the same byte for
byte end the run, as they may be beside a commit before landing 2026-03, whose networks need not be the first."""
import pathlib
import re
import shutil
import subprocess
import sys

ROUNDS = 9
SHEETS = ["bench/wide/*.sheet", "bench/large/bound[12].sheet"]
HEAD = ["sheet", "cells", "bytes", *(f"{what} {when}" for what in ("network", "Map", "network µs", "Map µs") for when in ("before", "after", "ratio"))]


def archive_of(root, out, commit):
    """the archive of another commit, proved and built in a clone below out unless it stands there already"""
    said = subprocess.run(["git", "-C", root, "rev-parse", "--short", commit], capture_output=True, text=True, check=True)
    clone = out / f"before-{said.stdout.strip()}"
    archive = clone / "target" / "staticlib" / "libcellmapper.a"
    if not archive.exists():
        shutil.rmtree(clone, ignore_errors=True)
        subprocess.run(["git", "clone", "-q", root, clone], check=True)
        subprocess.run(["git", "-C", clone, "checkout", "-q", said.stdout.strip()], check=True)
        subprocess.run(["rt", "staticlib", "cellmapper"], cwd=clone, check=True, stdout=sys.stderr)
    return archive


def microseconds(program, path):
    """of a call of Map, and of one with a buffer of no bytes"""
    said = subprocess.run([program, "wide", path], capture_output=True, text=True, check=True).stdout.split()
    return [int(word) / 1000 for word in said]


def instructions(program, path, out):
    """in what puts the network sheet down, and in the whole call of Map; the network"""
    counts = out / "callgrind.out"
    done = subprocess.run(["valgrind", "--tool=callgrind", f"--callgrind-out-file={counts}", program, "once", path],
                          capture_output=True, check=True)
    said = subprocess.run(["callgrind_annotate", "--inclusive=yes", "--threshold=100", counts], capture_output=True, text=True, check=True)
    found = []
    for name in ("writer::put_network", "cellmapper_map"):
        line = re.search(rf"^\s*([0-9,]+) .*:{name} ", said.stdout, re.MULTILINE)
        if line is None:
            sys.exit(f"callgrind says nothing of {name} in {program}")
        found.append(int(line[1].replace(",", "")))
    return found, done.stdout


def compared(programs, path, out):
    """the row of one sheet"""
    (before, network), (after, same) = (instructions(program, path, out) for program in programs)
    if network != same:
        sys.exit(f"{path}: the two networks differ")
    turns = [[microseconds(program, path) for program in programs] for _ in range(ROUNDS)]
    old, new = ([min(times) for times in zip(*(turn[i] for turn in turns))] for i in range(2))
    row = [f"{path.parent.name}/{path.stem}", str(network.count(b"(lut ")), str(len(network))]
    for a, b in zip(before, after):
        row += [f"{a:,}", f"{b:,}", f"{b / a:.2f}"]
    for a, b in ((old[0] - old[1], new[0] - new[1]), (old[0], new[0])):
        row += [f"{a:.1f}", f"{b:.1f}", f"{b / a:.2f}"]
    return row


def table(root, programs, out, say):
    """the rows for programs linked to the archives of before and after"""
    paths = [path for pattern in SHEETS for path in sorted(pathlib.Path(root).glob(pattern))]
    rows = []
    for at, path in enumerate(paths):
        say(f"{path.stem}: sheet {at + 1} of {len(paths)}")
        rows.append(compared(programs, path, out))
    return rows
