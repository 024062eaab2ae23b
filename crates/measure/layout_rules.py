#!/usr/bin/python3
"""Times the check of a layout, and of its artifact rules alone beside in-toto's reference implementation.

usage: layout_rules.py [--rounds N] [--program FILE]

The layout has 16 steps with 64 artifacts and lists of up to 64 rules, with a link by one functionary for each step, then by four, signed with W4, then
with W8, as repositories.py makes it. `measure layout` prints how often per second the rules of all steps are checked, and the whole layout with its
signatures. in-toto (Debian's package of that name, for its own Python, /usr/bin/python3) checks the same rules over the same artifacts; neither side
verifies a signature in what is compared. The program is crates/measure/out/measure, as `rt run` leaves it, and runs first. The exit status is 1 where it is not
ten times as fast.
"""
import argparse
import subprocess
import sys
import tempfile
import time
from pathlib import Path

from in_toto import verifylib
from in_toto.models.layout import Step
from in_toto.models.link import Link
from in_toto.models.metadata import Metablock
from repositories import LAYOUT, PATH, STEPS, chain, key_of, rules_of, sides_of, write

HERE = Path(__file__).resolve().parent


def step(number):
    materials, products = rules_of(number)
    return Step(name=f"s{number:02}", expected_materials=materials, expected_products=products)


def link(number):
    materials, products = ({path: {"sha256": held} for path, held in side.items()} for side in sides_of(number))
    return Link(name=f"s{number:02}", materials=materials, products=products)


def checks_of_in_toto(rounds):
    steps = [step(number) for number in range(STEPS)]
    links = {each.name: Metablock(signed=each) for each in map(link, range(STEPS))}
    start = time.perf_counter()
    for _ in range(rounds):
        verifylib.verify_all_item_rules(steps, links)
    return rounds / (time.perf_counter() - start)


def measured(program, width, functionaries):
    """What the program prints for such a layout."""
    with tempfile.TemporaryDirectory() as name:
        folder = Path(name)
        key = key_of(width)
        roles, files = chain(key, width, functionaries)
        write(folder, key, roles)
        (folder / "layouts").mkdir()
        for path, file in files.items():
            (folder / path).write_bytes(file)
        links = [str(folder / path) for path in files if path != LAYOUT]
        words = ["layout", "100", str(folder / "targets.json"), PATH, str(folder / LAYOUT), *links]
        return subprocess.run([program, *words], capture_output=True, text=True, check=True).stdout.strip()


def main():
    parser = argparse.ArgumentParser()
    parser.add_argument("--rounds", type=int, default=50)
    parser.add_argument("--program", type=Path, default=HERE / "out/measure")
    chosen = parser.parse_args()
    own = 0
    for width in (4, 8):
        for functionaries in (1, 4):
            words = measured(chosen.program, width, functionaries).split()
            own = own or int(words[words.index("rules") + 1])
            print(f"w{width}", *words, flush=True)
    others = checks_of_in_toto(chosen.rounds)
    print(f"in-toto {others:.1f} checks a second, {1000 / others:.1f} ms each; the program {own / others:.0f} times as many")
    sys.exit(0 if own >= 10 * others else 1)


if __name__ == "__main__":
    main()
