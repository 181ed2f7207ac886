"""Compares the two lists of refusals by the commands' own checks: the one that is proved
(`own_refusals` of tpm_step), and the one that the Python package derives from the table's sentences:

    python3 tests/common/own_refusals.py FOLDER

FOLDER contains the crates. The test prints a line for each difference, and then the number of
refusals. Then it removes each refusal from the proved list, one at a time; it must find each of these
mistakes. The status is 1 if there is a difference, or if a mistake is not found.
"""

import pathlib
import re
import sys

from tpmsim.standard.commands import CC
from tpmsim.standard.rows import own_refusals

DEFINITION = "tpm_step/specs/rows/OwnRefusals.antt"
NAMES = "tpm_commands/src/command_code.rt"
# A command's number, and its name in the code.
NUMBERED = re.compile(r"^ +0x([0-9a-f]+) (\w+) \"", re.M)
# A list of refusals: the name of the list or of the command, and the refusals or the name of a list.
LIST = re.compile(r"^(\w+_refusals|own_refusals command\.\w+) =((?:.*\n)(?: +.*\n)*)", re.M)
REFUSAL = re.compile(r"(own|entity|parameter)_refusal action\.(\w+) (?:(\d) )?code\.(\w+)")
CHECKS = {"First": 1, "Second": 2, "Third": 3, "Fourth": 4, "Fifth": 5, "Sixth": 6, "Seventh": 7}
PLACES = {"own": "", "entity": "/h", "parameter": "/p"}
Refusals = list[tuple[str, str]]


def named(code: str) -> str:
    """Returns the standard's name of a response code, such as NV_RANGE for NvRange."""
    return re.sub(r"(?<!^)(?=[A-Z])", "_", code).upper()


def proved_lists(text: str) -> dict[str, Refusals]:
    """Returns the refusals of each command that the definition lists, by its name in the code."""
    lists: dict[str, Refusals] = {}
    for name, body in LIST.findall(text):
        found = [
            (f"A{CHECKS[check]}", f"{named(code)}{PLACES[kind]}{number}")
            for kind, check, number, code in REFUSAL.findall(body)
        ]
        lists[name] = found or lists.get(body.strip(), [])
    return {it.split(".")[1]: lists[it] for it in lists if "." in it}


def differences(proved: dict[str, Refusals], codes: dict[str, CC]) -> list[str]:
    """Returns a line for each command whose lists differ."""
    lines = []
    for name, command in codes.items():
        derived = [(check, code) for check, code, _ in own_refusals(command)]
        listed = proved.get(name, [])
        lines += [f"only derived: {name} {' '.join(it)}" for it in derived if it not in listed]
        lines += [f"only proved: {name} {' '.join(it)}" for it in listed if it not in derived]
        if sorted(listed) == sorted(derived) and listed != derived:
            lines.append(f"in another order: {name}")
    lines += [f"no such command: {name}" for name in proved if name not in codes]
    return lines


def missed(proved: dict[str, Refusals], codes: dict[str, CC]) -> int:
    """Returns how many refusals can be removed from the proved list without a difference."""
    count = 0
    for name, refusals in proved.items():
        for at in range(len(refusals)):
            fewer = {**proved, name: refusals[:at] + refusals[at + 1 :]}
            count += not differences(fewer, codes)
    return count


def main() -> int:
    """Prints the differences; returns the status."""
    (folder,) = map(pathlib.Path, sys.argv[1:])
    names = NUMBERED.findall((folder / NAMES).read_text("utf-8"))
    known = {int(it): it for it in CC}
    codes = {name: known[int(it, 16)] for it, name in names if int(it, 16) in known}
    proved = proved_lists((folder / DEFINITION).read_text("utf-8"))
    found = [f"not in the package: {name}" for it, name in names if int(it, 16) not in known]
    found += differences(proved, codes)
    for line in found:
        print(f"DIFFERS: {line}")
    unnoticed = missed(proved, codes)
    count = sum(map(len, proved.values()))
    print(f"at least {count // 100 * 100} refusals {len(found)} differ")
    print(f"a removed refusal was missed in {unnoticed}")
    return 1 if found or unnoticed else 0


if __name__ == "__main__":
    sys.exit(main())
