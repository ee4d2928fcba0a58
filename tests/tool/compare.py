#!/usr/bin/env python3
"""compare.py [CASES [SEED]], called by run: what the command-line tool prints on standard output and standard error, and its exit
status.

- Every command on every example, beside the networks in examples/ and the independent implementation in tests/reference/.
- Every kind of refusal, on each line that it can name, with its words (refusals.py).
- CASES random sheets, panels as PLA and networks, most of them damaged (100 of each unless given): the refusal must have the number,
  the file and the line that the reference says, and that line's own text below it; a refusal by 8 must name the cause, which is
  found here by trying every set of outputs.
- Standard input, files that cannot be read, output that cannot be written, wrong use, and texts for ABC, which reads them where it
  is installed.
- The seconds that a slow search shows on a terminal.

Shows progress; the last line counts."""
import itertools
import os
import pathlib
import pty
import random
import re
import shutil
import subprocess
import sys

ROOT = pathlib.Path(__file__).resolve().parents[2]
FOLDER = ROOT / "target/tests/tool"
TOOL = FOLDER / "cellmapper"
EXAMPLES = ROOT / "examples"
sys.path[:0] = [str(ROOT / folder) for folder in ("tests/reference", "tests/blif", "tests")]
import cellref  # noqa: E402
import pla  # noqa: E402
import random_pairs  # noqa: E402
import random_sheets  # noqa: E402
import refusals  # noqa: E402
import tools  # noqa: E402
from progress import Progress  # noqa: E402

HINT = " (see cellmapper --help)\n"
ran = 0


def put(name, text):
    (FOLDER / name).write_bytes(text)
    return name


def said(words, stdin=b"", folder=FOLDER, **streams):
    """Standard output, standard error and the status, as text; a stream that is given elsewhere is None."""
    streams = {"stdout": subprocess.PIPE, "stderr": subprocess.PIPE, **streams}
    done = subprocess.run([TOOL, *words], input=stdin, cwd=folder, check=False, **streams)
    return *(None if text is None else text.decode() for text in (done.stdout, done.stderr)), done.returncode


def differs(words, got, wanted):
    sys.exit(f"FAILED: cellmapper {' '.join(map(str, words))}\nprinted  {got}\nand must  {wanted}")


def expect(words, out="", err="", status=0, **how):
    global ran
    ran += 1
    got = said(words, **how)
    if got != (out, err, status):
        differs(words, got, (out, err, status))


def passed(what):
    print(f"{ran} cases: {what}", flush=True)


def turns(what, count):
    """So many turns, with a counter"""
    shown = Progress(f"tool: {what}", count)
    for turn in range(count):
        yield turn
        shown.step()
    shown.end()


# ---- what the reference says, in the tool's words


def row_words(design, output, row):
    given = cellref.assignment(design.inputs, row)
    wanted = design.outputs[output].value(given)
    values = " ".join(f"{name}={value}" for name, value in given.items())
    return f"differs: output {design.outputs[output].name} is {1 - wanted} and must be {wanted} on row {row} ({values})\n"


def is_refused(design):
    try:
        cellref.map_of(design)
    except cellref.Refusal as refusal:
        return refusal.number == 8
    return False


def cause(design):
    """The outputs of the first of the smallest sets of outputs that are refused by 8 on their own"""
    for count in range(1, len(design.outputs) + 1):
        for outputs in itertools.combinations(design.outputs, count):
            if is_refused(cellref.Design(design.inputs, design.bound, design.limit, outputs)):
                return [output.name for output in outputs]
    raise ValueError("not refused by 8")


def cause_words(design):
    names = cause(design)
    cells = ["no network without cells serves", "no single cell serves"][design.limit] if design.limit < 2 else f"no {design.limit} cells serve"
    if len(names) == 1:
        return f"refused by 8: {cells} the output {names[0]}, even on its own\n"
    return f"refused by 8: {cells} the outputs {', '.join(names[:-1])} and {names[-1]}; every smaller set of outputs fits\n"


# ---- the examples


def run_examples():
    for path in sorted(EXAMPLES.glob("*.sheet")):
        name, text = f"examples/{path.name}", path.read_bytes()
        design = cellref.examine(text)
        for o, output in enumerate(design.outputs):
            for word in (str(o), output.name, output.name.swapcase()):
                expect(["table", name, word], cellref.digits_of(design, o) + "\n", folder=ROOT)
        if path.with_suffix(".network").exists():
            run_mapped(path, text, design)
        else:
            for command in ("map", "why"):
                expect([command, name], err=f"{name}: {cause_words(design)}", status=1, folder=ROOT)
    run_pla_example()
    passed("the examples")


def run_mapped(path, text, design):
    name, network = f"examples/{path.name}", f"examples/{path.stem}.network"
    wanted = (ROOT / network).read_text()
    cells = wanted.count("(lut ")
    expect(["map", name], wanted, folder=ROOT)
    expect(["why", name], f"{name}: maps with {cells} cell{'s' * (cells != 1)}; the limit is {design.limit}\n", folder=ROOT)
    expect(["check", name, network], "same\n", folder=ROOT)
    expect(["why", name, network], "same\n", folder=ROOT)
    other_case = random_sheets.NETWORK_NAMES.sub(lambda word: word.group().swapcase(), wanted.encode())
    expect(["check", name, "-"], "same\n", stdin=other_case, folder=ROOT)
    export = cellref.export(text, wanted.encode())
    expect(["export", name, network], export, folder=ROOT)
    expect(["export", name, network, "--abc"], tools.without_inputs_where_without_rows(export), folder=ROOT)
    for digit in re.finditer(r"[01](?=[01]*\)\n)", wanted):
        turned = wanted[: digit.start()] + "10"[int(digit.group())] + wanted[digit.end() :]
        found = cellref.check(text, turned.encode()) if digit.start() % 7 == 0 else None
        if found is not None:
            for command in ("check", "why"):
                expect([command, name, "-"], row_words(design, *found), status=1, stdin=turned.encode(), folder=ROOT)


def run_pla_example():
    texts = ["--pla", "examples/departure.board", "examples/departure.pla"]
    network = "examples/departure.network"
    design = cellref.examine((EXAMPLES / "departure.sheet").read_bytes())
    expect(["map", *texts], (ROOT / network).read_text(), folder=ROOT)
    expect(["check", *texts, network], "same\n", folder=ROOT)
    turned = (ROOT / network).read_bytes().replace(b"01011101", b"01011111")
    found = row_words(design, *cellref.check((EXAMPLES / "departure.sheet").read_bytes(), turned))
    expect(["check", *texts, "-"], found, status=1, stdin=turned, folder=ROOT)
    for o, output in enumerate(design.outputs):
        for word in (str(o), output.name, output.name.swapcase()):
            expect(["table", *texts, word], cellref.digits_of(design, o) + "\n", folder=ROOT)


# ---- refusals


def run_refusals():
    for command, sheet, err in refusals.SHEETS:
        put("a.sheet", sheet)
        expect([command[0], "a.sheet", *command[1:]], err=err, status=1)
        if command == ["map"]:
            expect(["why", "a.sheet"], err=err, status=1)
    sheet, panel = [put("a.sheet", refusals.SHEET)], [put("a.pla", refusals.PLA), "--pla", put("a.board", refusals.BOARD)]
    for network, err in refusals.NETWORKS:
        put("a.network", network)
        for command, words in (("check", sheet), ("export", sheet), ("why", sheet), ("check", panel)):
            expect([command, *words, "a.network"], err=err, status=1)
    for command, text, board, err in refusals.PANELS:
        put("a.pla", text)
        put("a.board", board)
        expect([command[0], "--pla", "a.board", "a.pla", *command[1:]], err=err, status=1)
    passed("every kind of refusal")


def shown(text, line):
    """What stands below the first line of a refusal"""
    part = text.split(b"\n")[line - 1]
    escaped = "".join(chr(byte) if 0x20 <= byte <= 0x7E else f"\\x{byte:02X}" for byte in part[:100])
    return f"    {escaped}{' ..' * (len(part) > 100)}\n"


def expect_refusal(words, refusal, name, text):
    """The words of the reason aside, which every kind of refusal has above"""
    global ran
    ran += 1
    got = out, err, status = said(words)
    line = refusal.line
    at = f"{name}:{line}" if line else name
    missing = line > 0 and line > len((text + b"x").removesuffix(b"\nx").split(b"\n"))
    below = shown(text, line) if line and not missing else ""
    first = re.escape(f"{at}: refused by {refusal.number}: {'the line is missing; ' * missing}")
    if out or status != 1 or re.fullmatch(first + "[^\n]+\n" + re.escape(below), err) is None:
        differs(words, got, f"{first} .. {below}")


def answer(question, *texts):
    """What the reference answers, or its refusal"""
    try:
        return question(*texts), None
    except cellref.Refusal as refusal:
        return None, refusal


def run_random_sheets(dice, count):
    for turn in turns("random sheets", count):
        sheet = random_sheets.mixed_damaged(dice) if turn % 2 else random_sheets.damaged(dice)
        put("a.sheet", sheet)
        digits, refusal = answer(cellref.table, sheet, 0)
        if refusal is None:
            expect(["table", "a.sheet", "0"], digits + "\n")
        else:
            expect_refusal(["map", "a.sheet"], refusal, "a.sheet", sheet)
    passed("random sheets")


def run_random_panels(dice, count):
    for _ in turns("random panels as PLA", count):
        text, board = random_pairs.damaged(dice)
        words = ["map", "--pla", put("a.board", board), put("a.pla", text)]
        mapped, refusal = answer(pla.map_pair, text, board)
        if refusal is None:
            expect(words, mapped[1])
        elif refusal.number == 8:
            expect(words, err=f"a.pla: {cause_words(pla.examine(text, board))}", status=1)
        else:
            on_board = refusal.number in (1, 2, 3, 5) or (refusal.number, refusal.line) == (4, 1)
            expect_refusal(words, refusal, *(("a.board", board) if on_board else ("a.pla", text)))
    passed("random panels as PLA")


def run_random_networks(dice, count):
    examples = [path for path in sorted(EXAMPLES.glob("*.sheet")) if path.with_suffix(".network").exists()]
    for _ in turns("random networks", count):
        path = dice.choice(examples)
        sheet, network = path.read_bytes(), path.with_suffix(".network").read_bytes()
        network = random_pairs.byte_damaged(dice, random_sheets.in_any_case(dice, network, random_sheets.NETWORK_NAMES))
        words = [path, put("a.network", network)]
        found, refusal = answer(cellref.check, sheet, network)
        if refusal is not None:
            expect_refusal(["export", *words], refusal, "a.network", network)
        elif found is None:
            expect(["check", *words], "same\n")
        else:
            expect(["check", *words], row_words(cellref.examine(sheet), *found), status=1)
    passed("random networks")


def refused_sheet(dice):
    """A sheet of few bound inputs, at a limit that refuses it"""
    while True:
        lines = random_sheets.sheet(dice, dice.randrange(2, 6), 4, (1, 2, 2, 3))
        lines[3] = f"(limit {dice.randrange(4)})"
        sheet = random_sheets.in_any_case(dice, random_sheets.text_of(lines))
        if is_refused(cellref.examine(sheet)):
            return sheet


def run_random_causes(dice, count):
    for _ in turns("random sheets that are refused by 8", count):
        sheet = refused_sheet(dice)
        put("a.sheet", sheet)
        expect(["map", "a.sheet"], err=f"a.sheet: {cause_words(cellref.examine(sheet))}", status=1)
    passed("random sheets that are refused by 8")


# ---- files, and wrong use


def run_files():
    sheet, network = put("a.sheet", refusals.SHEET), put("a.network", refusals.NETWORK)
    expect(["map", "-"], refusals.NETWORK.decode(), stdin=refusals.SHEET)
    expect(["check", "-", network], "same\n", stdin=refusals.SHEET)
    expect(["check", sheet, "-"], "same\n", stdin=refusals.NETWORK)
    expect(["map", "-", "--pla", put("a.board", refusals.BOARD)], refusals.NETWORK.decode(), stdin=refusals.PLA)
    expect(["map", put("a.pla", refusals.PLA), "--pla", "-"], refusals.NETWORK.decode(), stdin=refusals.BOARD)
    expect(["why", "-"], "<stdin>: maps with 1 cell; the limit is 2\n", stdin=refusals.SHEET)
    expect(["map", "-"], err="<stdin>:1: refused by 2: expected (design 1)\n    \n", status=1, stdin=b"\n")
    long = b"x" * 1000000
    expect(["map", "-"], err=f"<stdin>: {refusals.SIZE}", status=1, stdin=long)
    expect(["check", sheet, "-"], err="<stdin>: refused by 10: a network sheet has 1 to 8192 bytes\n", status=1, stdin=long)
    for name, why in (("none", "No such file or directory"), (".", "Is a directory")):
        for words in (["map", name], ["check", sheet, name], ["map", "--pla", name, "a.pla"]):
            expect(words, err=f"cellmapper: {name}: {why}\n", status=2)
    full = "cellmapper: <stdout>: No space left on device\n"
    wide = put("wide.sheet", b"(design 1)\n(in a b c d e f g h i j)\n(bound a)\n(limit 0)\n(out o (xor b c d e f g h i j))\n(end)\n")
    for words in (["map", wide], ["check", sheet, network], ["table", wide, "o"], ["export", sheet, network], ["why", sheet], ["--help"]):
        with open("/dev/full", "wb") as stdout:
            expect(words, None, full, 2, stdout=stdout)
    with open("/dev/full", "wb") as stderr:
        expect(["map", "none"], err=None, status=2, stderr=stderr)
        expect(["table", sheet, "h"], err=None, status=2, stderr=stderr)
    for words, closed, name in ((["map", "-"], "<&-", "<stdin>"), (["map", sheet], ">&-", "<stdout>")):
        run_closed(words, closed, name)
    passed("files and streams")


def run_closed(words, closed, name):
    global ran
    ran += 1
    done = subprocess.run(["sh", "-c", f'"$0" "$@" {closed}', TOOL, *words], cwd=FOLDER, capture_output=True, check=False)
    wanted = f"cellmapper: {name}: Bad file descriptor\n".encode()
    if (done.stdout, done.stderr, done.returncode) != (b"", wanted, 2):
        differs([*words, closed], done, wanted)


def run_wrong_use():
    for words, err in (
        ([], "a command is missing"),
        (["mop", "a.sheet"], "there is no command mop"),
        (["--pla", "a.board"], "a command is missing"),
        (["map"], "a word is missing after map"),
        (["check", "a.sheet"], "a word is missing after check"),
        (["table", "a.sheet"], "a word is missing after table"),
        (["export", "a.sheet"], "a word is missing after export"),
        (["why"], "a word is missing after why"),
        (["map", "a.sheet", "a.network"], "a word too many: a.network"),
        (["why", "a.sheet", "a.network", "x"], "a word too many: x"),
        (["map", "--plan", "a.sheet"], "there is no option --plan"),
        (["table", "a.sheet", "-1"], "there is no option -1"),
        (["map", "a.sheet", "--pla"], "a file is missing after --pla"),
        (["export", "--pla", "a.board", "a.pla", "a.network"], "--pla does not go with export"),
        (["why", "--pla", "a.board", "a.pla"], "--pla does not go with why"),
        (["map", "--abc", "a.sheet"], "--abc does not go with map"),
        (["check", "-", "-"], "standard input can be one file only"),
        (["map", "--pla", "-", "-"], "standard input can be one file only"),
        (["check", "--pla", "-", "a.pla", "-"], "standard input can be one file only"),
    ):
        expect(words, err=f"cellmapper: {err}{HINT}", status=2)
    for words in (["--help"], ["map", "--help"], ["check", "--help", "a.sheet"]):
        expect_help(words)
    passed("wrong use and help")


def expect_help(words):
    """A line for each command and each option"""
    global ran
    ran += 1
    got = out, err, status = said(words)
    lines = out.split("\n")
    for start in [f"cellmapper {name} " for name in ("map", "check", "table", "export", "why")] + ["--pla ", "--abc ", "--help "]:
        if sum(line.startswith(start) for line in lines) != 1 or err or status != 0:
            differs(words, got, f"a line {start}")


# ---- for ABC


def abc_reads(questions):
    """ABC on the texts as they are: whether each has its digits"""
    script = []
    for number, question in enumerate(questions):
        put(f"{number}.pla", tools.pla(question).encode())
        script += [f"echo QUESTION {number}", f"cec {question.path.name} {number}.pla"]
    put("script", "".join(line + "\n" for line in script).encode())
    _, told = tools.run(["berkeley-abc", "-f", "script"], FOLDER)
    return [tools.abc_verdict(lines) for lines in tools.parts(told, len(questions))]


def run_abc():
    """A cell of zeros, an output of zeros, one with no inputs of its own, and one of ones; names in either case"""
    sheet = b"(design 1)\n(in a B c)\n(bound A b)\n(limit 2)\n(out f (and c 0))\n(out G (xor a b C))\n(out h (or c 1))\n(end)\n"
    network = (
        b"(network 1)\n(lut _0 (a b) 0000)\n(lut _1 (a b) 0110)\n(node f (c) 00)\n(node g (_1 c) 0110)\n(node h (c) 11)\n(count 2)\n(end)\n"
    )
    shut = b"(design 1)\n(in a)\n(bound a)\n(limit 0)\n(out f 0)\n(out g 1)\n(end)\n"
    flat = b"(network 1)\n(node f () 0)\n(node g () 1)\n(count 0)\n(end)\n"
    questions = []
    for number, texts in enumerate(((sheet, network), (shut, flat))):
        words = [put(f"{number}.sheet", texts[0]), put(f"{number}.network", texts[1])]
        plain = cellref.export(*texts)
        expect(["export", *words], plain)
        wanted = tools.without_inputs_where_without_rows(plain)
        expect(["--abc", "export", *words], wanted)
        design = cellref.examine(texts[0])
        digits = [cellref.digits_of(design, o) for o in range(len(design.outputs))]
        path = FOLDER / put(f"exported{number}.blif", wanted.encode())
        questions.append(tools.Question(path, design.inputs, [output.name for output in design.outputs], digits))
    if ".names CC_0\n" not in questions[0].path.read_text() or ".names f\n" not in questions[0].path.read_text():
        sys.exit("FAILED: the inputs are not left off")
    if shutil.which("berkeley-abc") is None:
        return passed("texts for ABC; berkeley-abc is not installed, so it did not read them")
    if not all(abc_reads(questions)):
        sys.exit("FAILED: ABC reads other digits")
    return passed("texts for ABC, which reads them")


# ---- a terminal


def on_terminal(words):
    """What a program prints on standard output, what on a terminal that is its standard error, and the status"""
    ours, theirs = pty.openpty()
    with subprocess.Popen(words, cwd=ROOT, stdin=subprocess.DEVNULL, stdout=subprocess.PIPE, stderr=theirs) as process:
        os.close(theirs)
        told = b""
        try:
            while more := os.read(ours, 4096):
                told += more
        except OSError:  # the last program that had the terminal has ended
            pass
        out = process.stdout.read()
    os.close(ours)
    return out.decode(), told.decode(), process.returncode


def run_terminal():
    """On a quick sheet nothing is shown, on a slow one the seconds, each over the one before, and blanks over the last."""
    global ran
    try:
        for end in pty.openpty():
            os.close(end)
    except OSError as error:
        print(f"no terminal to be had ({error}): what is shown on one is left out", flush=True)
        return
    ran += 2
    quick = on_terminal([TOOL, "map", "examples/departure.sheet"])
    if quick != ((EXAMPLES / "departure.network").read_text(), "", 0):
        differs(["map", "examples/departure.sheet"], quick, "nothing on the terminal")
    print("a slow sheet on a terminal, some seconds", flush=True)
    words = ["map", "bench/slow/s3.sheet"]
    network, told, status = on_terminal([ROOT / "target/cellmapper", *words])
    *seconds, blanks, end = told.split("\r")[1:]
    if not seconds or seconds != [f"cellmapper: searching, {n} s" for n in range(1, len(seconds) + 1)]:
        differs(words, told, "the seconds from 1 on")
    if end or blanks != " " * (len(seconds[-1]) + 1) or status != 0:
        differs(words, (told, status), "blanks at the end, and status 0")
    expect(["check", ROOT / words[1], "-"], "same\n", stdin=network.encode())
    passed("a terminal")


def main():
    count = int(sys.argv[1]) if len(sys.argv) > 1 else 100
    dice = random.Random(int(sys.argv[2]) if len(sys.argv) > 2 else 1)
    run_examples()
    run_refusals()
    for part in (run_random_sheets, run_random_panels, run_random_networks, run_random_causes):
        part(dice, count)
    run_files()
    run_wrong_use()
    run_abc()
    run_terminal()
    print(f"{ran} cases of the command-line tool, none differs")


if __name__ == "__main__":
    main()
