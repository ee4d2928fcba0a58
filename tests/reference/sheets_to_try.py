"""The sheets of tests/sheets/ and what stands beside them, as tests/sheets/README.md says."""

import pathlib

FOLDER = pathlib.Path(__file__).resolve().parents[1] / "sheets"


def sheet(name):
    return (FOLDER / f"{name}.sheet").read_bytes()


def network(name):
    return (FOLDER / f"{name}.network").read_bytes()


def pla(name):
    """A PLA text and its second text"""
    return (FOLDER / f"{name}.pla").read_bytes(), (FOLDER / f"{name}.board").read_bytes()


def maps():
    """For each sheet its name, what Map answers in the words of the program cellmap, and the outputs that are the cause"""
    for line in (FOLDER / "ANSWERS").read_text().splitlines():
        name, answer, *more = line.split(" ")
        if answer == "inf":
            yield name, "refused 8 line 0\n", [int(output) for output in more]
        elif answer == "refused":
            yield name, " ".join([answer, *more]) + "\n", []
        else:
            yield name, network(name).decode("ascii"), []


def checks():
    """The names of a sheet and of a network, and what Check answers in the words of the program cellcheck"""
    for line in (FOLDER / "CHECKS").read_text().splitlines():
        yield line.split(" ", 2)
