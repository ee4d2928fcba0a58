#!/usr/bin/env python3
"""compare.py [PANELS [SEED]], called by run: PLA texts through target/bin/plamap and through the archive. compare.py --cases: only the
cases worked by hand, which need neither ABC nor the archive.

- Cases worked by hand (tests/reference/pla_cases.py) at every boundary of questions 12, 13 and 14, and of what is asked after
  them: plamap must print what stands beside each.
- The example sheets that map, parities of ten inputs, and PANELS random sheets in any case that map (300 unless given): the network
  is exported in BLIF, ABC collapses it and writes it in PLA, and its comment line is dropped. Nothing else of what ABC writes is
  changed; it must be the form that is accepted. With the sheet's own `bound` and `limit` lines Table must give the sheet's digits
  and plamap the sheet's network, byte for byte.
- The same panels with other cubes, which the reference in Python draws: the same answers.

ABC gives each output cubes of its own, so four parities of ten inputs take 2,048 cubes and more than 32,768 bytes: that text must
be refused by 12, line 0, and is counted. Shows progress; the last line counts."""
import collections
import pathlib
import random
import re
import subprocess
import sys
import time

ROOT = pathlib.Path(__file__).resolve().parents[2]
FOLDER = ROOT / "target/pla"
sys.path[:0] = [str(ROOT / folder) for folder in ("tests/reference", "tests/blif", "tests")]
import cellref  # noqa: E402
import pla  # noqa: E402
import pla_cases  # noqa: E402
import programs  # noqa: E402
import random_pairs  # noqa: E402
import random_sheets  # noqa: E402
import tools  # noqa: E402
from progress import Progress  # noqa: E402

COMMENT = re.compile(rb"# [^\n]*\n")
HEAD = [rb"\.i [0-9]+", rb"\.o [0-9]+", rb"\.ilb( [A-Za-z0-9]+)+", rb"\.ob( [A-Za-z0-9]+)+", rb"\.p [0-9]+"]


def fail(what, *texts):
    sys.exit("\n".join([f"FAILED: {what}", *(text if isinstance(text, str) else text.decode("latin-1") for text in texts)]))


def program(name, text):
    return subprocess.run([ROOT / "target/bin" / name], input=text, capture_output=True, check=False).stdout


def plamap(text, board):
    return program("plamap", text + b"\0" + board)


def table(*paths):
    """Table's digits of each output, through the archive"""
    return subprocess.run([FOLDER / "table", *paths], capture_output=True, check=True).stdout.decode().split("\n")[:-1]


def run_cases():
    """The program parts its input at the first 0x00, so a PLA text that holds one is left to the tests of the archive."""
    ran = 0
    for name, text, board, wanted in pla_cases.CASES:
        if b"\0" not in text:
            ran += 1
            said = plamap(text, board)
            if said != wanted.encode():
                fail(f"{name}: plamap printed", said, "and must print", wanted)
    said = program("plamap", pla_cases.A)
    if said != b"refused 1 line 0\n":
        fail("without a 0x00 the second text is empty; plamap printed", said)
    print(f"{ran + 1} cases by hand as they must be", flush=True)


# ---- what ABC writes


class Panel:
    """A sheet, Map's network of it, and its export as ABC reads it"""

    def __init__(self, name, sheet, network):
        self.sheet, self.network = sheet, network
        self.design = cellref.examine(sheet)
        self.path = FOLDER / name
        self.board = b"".join(sheet.splitlines(keepends=True)[2:4])
        export = program("cellblif", sheet + b"\0" + network).decode()
        self.suffixed(".sheet").write_bytes(sheet)
        self.suffixed(".board").write_bytes(self.board)
        self.suffixed(".blif").write_text(tools.without_inputs_where_without_rows(export))

    def suffixed(self, suffix):
        return self.path.with_name(self.path.name + suffix)


def write_plas(panels):
    """ABC on all panels at once; it must say nothing."""
    script = []
    for panel in panels:
        script += [f"read_blif {panel.path.name}.blif", "collapse", f"write_pla {panel.path.name}.written"]
    (FOLDER / "script").write_text("".join(line + "\n" for line in script))
    _, said = tools.run(["berkeley-abc", "-q", "source script"], FOLDER)
    if said.strip():
        fail("ABC said", said[:2000])


def without_comment(text):
    """ABC's text without its first line, which must be its one comment; the rest must have the accepted form, line by line."""
    comment = COMMENT.match(text)
    if comment is None:
        fail("ABC wrote no comment first", text[:2000])
    text = text[comment.end() :]
    lines = text.split(b"\n")
    inputs, outputs = (int(line.split(b" ")[1]) for line in lines[:2])
    for line, form in zip(lines, HEAD):
        if re.fullmatch(form, line) is None:
            fail("ABC wrote another line than is accepted", line)
    for line in lines[5:-2]:
        if re.fullmatch(rb"[01-]{%d} [01]{%d}" % (inputs, outputs), line) is None:
            fail("ABC wrote another cube than is accepted", line)
    if lines[-2:] != [b".e", b""]:
        fail("ABC wrote another end than is accepted", text[-200:])
    return text


# ---- panels


def parities(outputs):
    """A sheet with so many outputs, each of which has 512 cubes"""
    lines = ["(design 1)", "(in a b c d e f g h i j)", "(bound c a e)", "(limit 1)"]
    return random_sheets.text_of(lines + [f"(out p{k} (xor {k % 2} a b c d e f g h i j))" for k in range(outputs)] + ["(end)"])


def mapped_panels(dice, count):
    """Panels of the examples, of parities, and of random sheets that map, until there are so many"""
    sheets = [(path.stem, path.read_bytes()) for path in sorted((ROOT / "examples").glob("*.sheet"))]
    panels = []
    for name, sheet in [*sheets, ("parities-3", parities(3)), ("parities-4", parities(4))]:
        network = program("cellmap", sheet)
        if not network.startswith(b"refused"):
            panels.append(Panel(name, sheet, network))
    examples = len(panels)
    if examples < 3:
        fail("no example sheet maps")
    progress = Progress("pla: random sheets mapped", count)
    while len(panels) < examples + count:
        lines = (random_sheets.wide if dice.random() < 0.1 else random_sheets.valid)(dice)
        sheet = random_sheets.in_any_case(dice, random_sheets.text_of(lines))
        network = program("cellmap", sheet)
        if not network.startswith(b"refused"):
            panels.append(Panel(f"panel-{len(panels) - examples}", sheet, network))
            progress.step()
    progress.end()
    print(f"{examples} examples, parities among them, and {count} random sheets, mapped and exported", flush=True)
    return panels


def compare(panel, kind, text):
    """What came of it: the same answers, or refused for its size"""
    path = panel.suffixed(f".{kind}.pla")
    path.write_bytes(text)
    said, digits = plamap(text, panel.board), table(path, panel.suffixed(".board"))
    if len(text) > pla.MAX_PLA:
        if said != b"refused 12 line 0\n" or digits != ["refused 12 line 0"]:
            fail(f"{path} is too long", said, *digits)
        return "too long"
    if digits != table(panel.suffixed(".sheet")):
        fail(f"Table of {path}", *digits, *table(panel.suffixed(".sheet")))
    if said != panel.network:
        fail(f"Map of {path}", said, panel.network)
    return "same"


def compare_all(panels, kind, text_of):
    """Answers how many texts were too long."""
    came = collections.Counter()
    progress = Progress(f"pla: {kind}", len(panels))
    for panel in panels:
        came[compare(panel, kind, text_of(panel))] += 1
        progress.step()
    progress.end()
    print(f"{kind}: {came['same']} panels with the sheet's digits and network, {came['too long']} refused for their size", flush=True)
    return came["too long"]


def show_shapes(panels):
    """Counts what ABC's texts have; nothing may be missing."""
    shapes = collections.Counter()
    for panel in panels:
        design = panel.design
        tables = [set(cellref.digits_of(design, output)) for output in range(len(design.outputs))]
        shapes["outputs of zeros"] += tables.count({"0"})
        shapes["outputs of ones"] += tables.count({"1"})
        shapes["texts without cubes"] += all(digits == {"0"} for digits in tables)
        shapes["ten inputs"] += len(design.inputs) == 10
        shapes["four outputs"] += len(design.outputs) == 4
    print("in all:", "; ".join(f"{shape} {count}" for shape, count in shapes.items()), flush=True)
    if not all(shapes.values()):
        fail("one kind of panel is missing")


def main():
    programs.need("plamap")
    if sys.argv[1:] == ["--cases"]:
        return run_cases()
    count, seed = [int(word) for word in sys.argv[1:]] + [300, 1][len(sys.argv) - 1 :]
    start = time.monotonic()
    print(tools.run(["berkeley-abc", "-q", "version"], FOLDER)[1].strip())
    run_cases()
    dice = random.Random(seed)
    panels = mapped_panels(dice, count)
    show_shapes(panels)
    write_plas(panels)
    too_long = compare_all(panels, "abc", lambda panel: without_comment(panel.suffixed(".written").read_bytes()))
    if not 1 <= too_long <= 1 + count // 20:
        fail(f"{too_long} of ABC's texts are too long, and one must be, or a few more")
    if compare_all(panels, "drawn", lambda panel: random_pairs.of_design(dice, panel.design)[0]):
        fail("cubes for several outputs fit")
    print(f"{2 * len(panels)} PLA texts as they must be, from seed {seed}, {time.monotonic() - start:.0f} s")


if __name__ == "__main__":
    main()
