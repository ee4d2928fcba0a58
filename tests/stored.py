#!/usr/bin/env python3
"""stored.py [--write | --run]: whether what the programs are run on, crates/NAME/stdin, and what they must print, crates/NAME/stdout,
is made of the sheets that stand elsewhere: examples/, tests/sheets/ and bench/border/. With --write the files are written; with --run
each program is run on them, and what it prints is compared. tests/reference/make_sheets.py makes those of the program of Table's cases,
and is asked here too. Of the program border the problems of bench/border/ and of the specification's sheets are made; those after
them, and how often its search gives a vertex a code, stand in its files alone."""
import argparse
import subprocess
import sys

import border
import programs

ROOT = programs.ROOT
sys.path.insert(0, str(ROOT / "tests/reference"))
import cellref  # noqa: E402
import sheets_to_try  # noqa: E402

# the problems of border after those of bench/border/: the name, the sheet, and a limit where it is another one
OF_SHEETS = [("C_1", "c-limit-1", None), ("C_2", "c-limit-2", None), ("D_2", "d-limit-2", None), ("D_3", "d-limit-3", None), ("E_2", "e", None)]
OF_SHEETS += [("F_0", "f", None), ("G_1", "g-limit-1", None), ("H_1", "h", None), ("I_4", "i-limit-4", None), ("I_3", "i-limit-3", None)]
OF_SHEETS += [("I_6", "i-four-outputs", 6)]


def crate_of_table_cases():
    """The crate that make_sheets.py writes to"""
    import make_sheets
    return make_sheets.CRATE.name


def example(suffix):
    return (ROOT / "examples" / f"departure.{suffix}").read_bytes()


def border_lines():
    """The lines of the problems that are made"""
    for path in sorted((ROOT / "bench/border").glob("*.labels")):
        (vertices, _, limit), *labels = [[int(word) for word in line.split()] for line in path.read_text().splitlines()]
        yield border.line(path.stem, border.Problem(vertices, limit, labels, [border.width(row) for row in labels]))
    for name, sheet, limit in OF_SHEETS:
        design = cellref.examine(sheets_to_try.sheet(sheet))
        classes = cellref.Classes(design)
        labels = [border.numbered(row) for row in classes.local]
        yield border.line(name, border.Problem(2 ** len(design.bound), design.limit if limit is None else limit, labels, classes.widths))


def border_input():
    made = list(border_lines())
    kept = (ROOT / "crates/border/stdin").read_bytes().splitlines(keepends=True)[len(made):]
    return b"".join(made + kept)


def files():
    """Each file and what it must hold"""
    a, network = sheets_to_try.sheet("a"), sheets_to_try.network("a")
    # a cell of zeros that no node reads, and a node of zeros
    zeros = network.replace(b"(node f", b"(lut _1 (a b c) 00000000)\n(node f").replace(b"0001", b"0000").replace(b"(count 1)", b"(count 2)")
    made = {
        "cellmap": (example("sheet"), example("network")),
        "plamap": (example("pla") + b"\0" + example("board"), example("network")),
        "cellcheck": (a + b"\0" + sheets_to_try.network("j-differs"), b"differs output 1 row 2\n"),
        "cellblif": (a + b"\0" + zeros, cellref.export(a, zeros).encode("ascii")),
        "border": (border_input(), None),
    }
    for name, (given, wanted) in made.items():
        yield ROOT / "crates" / name / "stdin", given
        if wanted is not None:
            yield ROOT / "crates" / name / "stdout", wanted


def compare(write):
    """How many files are not as they must be; with write they are written."""
    wrong = count = 0
    for path, content in files():
        count += 1
        if write:
            path.write_bytes(content)
        elif path.read_bytes() != content:
            wrong += 1
            print(f"{path.relative_to(ROOT)} is not what this script writes")
    script = [sys.executable, ROOT / "tests/reference/make_sheets.py", *([] if write else ["--check"])]
    wrong += subprocess.run(script, stdout=subprocess.DEVNULL, check=False).returncode != 0
    print(f"{count + 2 - wrong} files as they are made, {wrong} not")
    return wrong


def run():
    """How many programs print something else than they must."""
    names = ["cellmap", "plamap", "cellcheck", "cellblif", "border", "worked", crate_of_table_cases()]
    programs.need(*names)
    wrong = 0
    for name in names:
        folder = ROOT / "crates" / name
        given = (folder / "stdin").read_bytes() if (folder / "stdin").exists() else b""
        if programs.said(name, given) != (folder / "stdout").read_bytes():
            wrong += 1
            print(f"{name} does not print what {folder.relative_to(ROOT)}/stdout has")
    print(f"{len(names) - wrong} programs print what they must, {wrong} do not")
    return wrong


def main():
    parser = argparse.ArgumentParser(description=__doc__, formatter_class=argparse.RawDescriptionHelpFormatter)
    parser.add_argument("--write", action="store_true")
    parser.add_argument("--run", action="store_true")
    args = parser.parse_args()
    return 1 if (run() if args.run else compare(args.write)) else 0


if __name__ == "__main__":
    sys.exit(main())
