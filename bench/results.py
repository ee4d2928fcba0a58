"""bench/RESULTS.md in parts. A part stands between the lines `<!-- part: NAME -->` and `<!-- end -->`, and a run replaces the
parts that it measured; what stands outside the parts is written by hand."""
import os
import pathlib
import platform
import re
import sys
import time

RESULTS = pathlib.Path(__file__).resolve().parent / "RESULTS.md"


def stamp(what):
    """when, by which command and on what machine something was measured, and what the figures are"""
    command = " ".join(["bench/run", *sys.argv[1:]])
    machine = f"{os.cpu_count()} processors, {platform.machine()}"
    return f"{time.strftime('%Y-%m-%d')}, `{command}`, {machine}; {what}\n\n"


def table(head, rows):
    lines = [head, *rows]
    text = ["| " + " | ".join(line) + " |\n" for line in lines]
    return text[0] + "|" + "---|" * len(head) + "\n" + "".join(text[1:])


def replaced(document, name, text):
    """the document with another text in one of its parts"""
    part = re.compile(rf"(<!-- part: {re.escape(name)} -->\n).*?(<!-- end -->\n)", re.DOTALL)
    if len(part.findall(document)) != 1:
        sys.exit(f"{RESULTS.name} has no part {name}, or several")
    return part.sub(lambda found: found[1] + text + found[2], document)


def put(parts):
    """writes the texts of these parts, by name"""
    document = RESULTS.read_text()
    for name, text in parts.items():
        document = replaced(document, name, text)
    RESULTS.write_text(document)
    print(f"written to bench/{RESULTS.name}: {', '.join(parts)}", file=sys.stderr)
