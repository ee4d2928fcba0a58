"""Map beside finding the fewest cells alone: the sheets of bench/border/ and bench/slow/ with the archive of this checkout and
with that of another commit, whose Map stops at the first core with the fewest cells that it finds. Times are processor time,
the best of several batches; those of one sheet are taken right after one another. A sheet of bench/border/ may take 5 times as
long, or 50 ms longer where that is more; one of bench/slow/ 10 times."""
import pathlib
import subprocess

HEAD = ["sheet", "answer", "fewest cells alone", "Map", "ratio", "longer", "allowed", "within"]


def milliseconds(program, path):
    """what Map says, and how long a call takes"""
    said = subprocess.run([program, "map", path], capture_output=True, text=True, check=True).stdout.splitlines()[0].split()
    return said[1], int(said[2]) / 1e6


def figure(ms):
    return f"{ms:.3f}" if ms < 1 else f"{ms:.2f}" if ms < 100 else f"{ms:.0f}"


def compared(programs, path):
    """the row of one sheet"""
    (before, alone), (now, ms) = (milliseconds(program, path) for program in programs)
    if before != now:
        raise SystemExit(f"{path}: {before} before, {now} now")
    allowed = 10 * alone if path.parent.name == "slow" else max(5 * alone, alone + 50)
    answer = "refused by 8" if now == "refused-8" else f"{now} cells"
    return [path.stem, answer, figure(alone), figure(ms), f"{ms / alone:.1f}", figure(ms - alone), figure(allowed), "yes" if ms <= allowed else "no"]


def table(root, programs, say):
    """the rows for programs linked to the archives of before and now"""
    paths = [path for kind in ("border", "slow") for path in sorted((pathlib.Path(root) / "bench" / kind).glob("*.sheet"))]
    rows = []
    for at, path in enumerate(paths):
        say(f"{path.stem}: sheet {at + 1} of {len(paths)}" + (", up to a minute or two" if path.parent.name == "slow" else ""))
        rows.append(compared(programs, path))
    return rows
