#!/usr/bin/env python3
"""check_cases.py [COUNT]: Check, Export and Map on the programs target/bin/cellcheck, cellblif and cellmap. First cases by hand
(tests/reference/network_cases.py), of which the reference must say too what stands beside them; then COUNT random sheets (300 unless
given), half of them in any case: Map must answer as the reference does, byte for byte, Check must say "same" of its network and of the
same network with its names in any case, and damaged networks must be answered as the reference says. Of every case Export must print
the reference's text, or the refusal that Check prints. Shows progress; the last line counts."""
import pathlib
import random
import sys

import programs
from progress import Progress

sys.path.insert(0, str(pathlib.Path(__file__).resolve().parent / "reference"))
import cellref  # noqa: E402
import random_sheets  # noqa: E402
from network_cases import CASES  # noqa: E402


def reference(design, network):
    try:
        found = cellref.check(design, network)
    except cellref.Refusal as refusal:
        return str(refusal)
    return "same" if found is None else f"differs output {found[0]} row {found[1]}"


def reference_map(design):
    try:
        return cellref.map_sheet(design)[1]
    except cellref.Refusal as refusal:
        return f"{refusal}\n"


def damage(dice, network):
    body = bytearray(network)
    for _ in range(dice.randrange(1, 3)):
        place = dice.randrange(len(body))
        kind = dice.randrange(4)
        if kind == 0:
            body[place] = dice.choice(b"01()_ \nabAB")
        elif kind == 1:
            del body[place]
        elif kind == 2:
            body.insert(place, dice.choice(b"01()_ \nabAB"))
        else:
            digits = [i for i, b in enumerate(body) if b in b"01"]
            body[dice.choice(digits)] ^= 1
    return bytes(body) or b"\n"


ran = wrong = 0


def expect(name, got, wanted):
    global ran, wrong
    ran += 1
    if got != wanted:
        wrong += 1
        print(f"WRONG {name}: got {got}, wanted {wanted}")


def compare(name, design, network, wanted):
    expect(name, programs.said("cellcheck", design + b"\0" + network).decode(), wanted + "\n")
    text = wanted + "\n" if wanted.startswith("refused") else cellref.export(design, network)
    expect(name + ", exported", programs.said("cellblif", design + b"\0" + network).decode(), text)


programs.need("cellmap", "cellcheck", "cellblif")
for name, design, network, wanted in CASES:
    if reference(design, network) != wanted:
        print(f"the reference says {reference(design, network)} of {name}, the list {wanted}")
        wrong += 1
    compare(name, design, network, wanted)
print(f"{ran} answers to cases by hand", flush=True)
dice = random.Random(20261115)
count = int(sys.argv[1]) if len(sys.argv) > 1 else 300
mapped = 0
progress = Progress("random sheets", count)
for turn in range(count):
    progress.step()
    design = random_sheets.mixed(dice) if turn % 2 else random_sheets.text_of(random_sheets.valid(dice))
    network = programs.said("cellmap", design)
    expect("Map's answer", network.decode(), reference_map(design))
    if network.startswith(b"refused"):
        continue
    mapped += 1
    compare("Map's own network", design, network, "same")
    network = random_sheets.in_any_case(dice, network, random_sheets.NETWORK_NAMES)
    compare("Map's own network in any case", design, network, "same")
    for _ in range(4):
        other = damage(dice, network)
        if b"\0" not in other:
            compare("damaged", design, other, reference(design, other))
progress.end()
print(f"{count} random sheets, {mapped} mapped")
print(f"{ran - wrong} passed, {wrong} failed")
sys.exit(wrong != 0)
