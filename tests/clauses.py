#!/usr/bin/env python3
"""Compares what the repository cites with docs/SPECIFICATION.md, so that no comment or page sends a reader to a clause that is not
there: each clause and section that is cited must exist, the clauses of a section count up from 1, the limits of clause 2.1 are the
code's, and no file outside docs/landings cites a document or a request that the repository does not hold. Exits 1 with a list of
what is wrong."""
import pathlib
import re
import sys

ROOT = pathlib.Path(__file__).resolve().parent.parent
LEFT_OUT = {".git", "target"}
CLAUSE = r"\d+\.\d+"
CITED = re.compile(rf"\bclauses?\s+({CLAUSE}(?:(?:,|;| and| to|, and)\s+{CLAUSE})*)", re.I)
SECTION = re.compile(r"\bsection (\d+)\b", re.I)
ELSEWHERE = re.compile(r"\bdocument 0[12]\b|\brequests? 20\d\d-\d\d", re.I)
# where a comment goes on in the next line
BREAK = re.compile(r"\s*\n\s*(?:--|//|#|\*)?[ \t]*")


def files():
    """each text of the repository, by its path from the root"""
    for path in sorted(ROOT.rglob("*")):
        name = path.relative_to(ROOT)
        if path.is_file() and not LEFT_OUT & set(name.parts):
            try:
                yield str(name), path.read_text()
            except UnicodeDecodeError:
                continue


def reading_column(text):
    """the third column of READING's table"""
    rows = (line.split("|") for line in text.split("## The promises")[0].splitlines() if line.startswith("| `"))
    return [number for row in rows for number in re.findall(CLAUSE, row[3])]


def numbering(clauses):
    """the clauses that do not come next in their section"""
    last = {}
    for clause in clauses:
        section, number = map(int, clause.split("."))
        if number != last.get(section, 0) + 1:
            yield f"docs/SPECIFICATION.md: clause {clause} does not follow the one before it"
        last[section] = number


def limits(text):
    """the limits of clause 2.1 that are not the code's"""
    code = (ROOT / "crates" / "limits" / "src" / "lib.rt").read_text()
    values = {name: int(value.replace("_", "")) for name, value in re.findall(r"const (\w+): usize = ([\d_]+);", code)}
    for most, name in re.findall(r"^\|[^|]*\|[^|]*\| ([\d,]+) \| `(\w+)` \|", text, re.M):
        if values.get(name) != int(most.replace(",", "")):
            yield f"docs/SPECIFICATION.md: {name} is {values.get(name)} in the code, not {most}"


def main():
    text = (ROOT / "docs" / "SPECIFICATION.md").read_text()
    clauses = re.findall(rf"^\*\*({CLAUSE})\*\*", text, re.M)
    sections = set(re.findall(r"^## (\d+)\.", text, re.M))
    wrong = [*numbering(clauses), *limits(text)]
    count = 0
    for name, content in files():
        joined = BREAK.sub(" ", content)
        cited = [number for part in CITED.findall(joined) for number in re.findall(CLAUSE, part)]
        if name == "docs/READING.md":
            cited += reading_column(content)
        count += len(cited)
        wrong += [f"{name} cites clause {number}, which is not there" for number in sorted(set(cited) - set(clauses))]
        wrong += [f"{name} cites section {number}, which is not there" for number in sorted(set(SECTION.findall(joined)) - sections)]
        if not name.startswith("docs/landings/"):
            found = (f"{name} cites {part!r}, which the repository does not hold" for part in ELSEWHERE.findall(joined))
            wrong += sorted(set(found))
    print("\n".join(wrong) or f"{len(clauses)} clauses, cited {count} times")
    return 1 if wrong else 0


if __name__ == "__main__":
    sys.exit(main())
