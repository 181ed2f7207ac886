"""Compares the numbers of clients/c/tpmsim.h with those that tpmsim_library proves:

    python3 tests/common/library_numbers.py HEADER NUMBERS

NUMBERS is crates/tpmsim_library/specs/Numbers.antt. A record after a comment `-- enum NAME` has a field
for each enumerator of this enum. The test prints a line for each difference, and then the number of
enumerators. The status is 1 if there is a difference.
"""

import pathlib
import re
import sys

ENUM = re.compile(r"^enum (tpmsim_\w+) \{(.*?)\};", re.M | re.S)
ENUMERATOR = re.compile(r"\bTPMSIM_(\w+) = (\d+)")
COMMENT = re.compile(r"/\*.*?\*/", re.S)
RECORD = re.compile(r"^-- enum (tpmsim_\w+)\npub record .*\n((?:  .*\n)+)", re.M)
FIELD = re.compile(r"^  pub (\w+) : (.*)", re.M)
# The kinds of seeds are part of a keeper's text; tpm_kept_laws states them.
ELSEWHERE = {"tpmsim_seed"}
Numbers = dict[str, dict[str, int]]


def declared(text: str) -> Numbers:
    """Returns the enumerators of each enum in the header, in lower case, without TPMSIM_."""
    return {
        name: {it.lower(): int(number) for it, number in ENUMERATOR.findall(COMMENT.sub("", body))}
        for name, body in ENUM.findall(text)
        if name not in ELSEWHERE
    }


def proved(text: str) -> Numbers:
    """Returns the fields of each record about an enum, with the only number in the field's type."""
    numbers: Numbers = {}
    for name, body in RECORD.findall(text):
        numbers[name] = {}
        for field, said in FIELD.findall(body):
            found = re.findall(r"(?<![\w.])\d+", said)
            numbers[name][field] = int(found[0]) if len(found) == 1 else -1
    return numbers


def main() -> int:
    """Compares the files that the command line names."""
    header, numbers = (pathlib.Path(it).read_text(encoding="utf-8") for it in sys.argv[1:3])
    has, says = declared(header), proved(numbers)
    differ = 0
    for enum in sorted(has.keys() | says.keys()):
        one, other = set(has.get(enum, {}).items()), set(says.get(enum, {}).items())
        for name, number in sorted(one ^ other):
            where = "declared" if (name, number) in one else "proved"
            print(f"DIFFERS: {enum}: only {where}: {name} {number}")
            differ += 1
    count = sum(len(it) for it in has.values())
    print(f"{'at least 50' if count >= 50 else count} enumerators, {differ} differ")
    return int(differ > 0)


if __name__ == "__main__":
    sys.exit(main())
