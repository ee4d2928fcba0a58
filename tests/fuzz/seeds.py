#!/usr/bin/env python3
"""seeds.py FOLDER: writes inputs for the fuzz target, made of the sheets that stand elsewhere in the repository: those of tests/sheets/
with each network that CHECKS has beside them, those of examples/, the same panels as PLA, and the PLA texts of
tests/reference/pla_cases.py. corpus/ has seeds that stand nowhere else."""
import pathlib
import sys

ROOT = pathlib.Path(__file__).resolve().parents[2]
sys.path.insert(0, str(ROOT / "tests/reference"))
import pla_cases  # noqa: E402
import sheets_to_try  # noqa: E402


def network_beside(path):
    network = path.with_suffix(".network")
    return network.read_bytes() if network.exists() else b""


def seeds():
    """The name of each input and its texts"""
    for folder in (sheets_to_try.FOLDER, ROOT / "examples"):
        for path in sorted(folder.glob("*.sheet")):
            yield path.stem, (path.read_bytes(), network_beside(path))
        for path in sorted(folder.glob("*.pla")):
            yield f"pla-{path.stem}", (path.read_bytes(), path.with_suffix(".board").read_bytes(), network_beside(path))
    for sheet, network, _ in sheets_to_try.checks():
        if sheet != network:
            yield f"{sheet}-with-{network}", (sheets_to_try.sheet(sheet), sheets_to_try.network(network))
    for number, (_, text, board, answer) in enumerate(pla_cases.CASES):
        yield f"pla-case-{number}", (text, board, b"" if answer.startswith("refused") else answer.encode())


def main():
    folder = pathlib.Path(sys.argv[1])
    folder.mkdir(parents=True, exist_ok=True)
    for name, texts in seeds():
        (folder / name).write_bytes(b"\0".join(texts))


if __name__ == "__main__":
    main()
