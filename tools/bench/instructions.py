"""Counts the instructions for each row of in_process.py, on libtpms and on libtpmsim, and prints a
table:

    tools/python.sh tools/bench/instructions.py PROGRAM FOLDER

PROGRAM is built from in_process.c, and runs under callgrind, which writes its files to FOLDER. A
figure is the mean over the executions of a row. The last two columns exclude digests and ciphers:
the functions of libcrypto in libtpms, and those of the crates sha1, sha2, tpm_aes and
tpm_hash_state in libtpmsim.
"""

import re
import subprocess
import sys
from dataclasses import replace
from pathlib import Path

from in_process import measure, prepare_all, Program, Row, rows

TARGETS = "tpms", "still"
EXECUTIONS = 50

# Counts `execute` and everything that it calls, and writes a file for each row.
CALLGRIND = (
    "valgrind --tool=callgrind --toggle-collect=execute --zero-before=time_commands"
    " --zero-before=time_session --dump-after=time_commands --dump-after=time_session"
)

# A line of callgrind_annotate's output: a count, followed by a function or by the words for the
# total.
LINE = re.compile(r"^ *([0-9,]+) \([0-9. ]+%\) +(.*)$", re.MULTILINE)
DIGESTS = re.compile(r":<?(sha1|sha2|tpm_aes|tpm_hash_state)::|libcrypto")


def counted(path: Path) -> tuple[int, int]:
    """Returns two counts of instructions in one of callgrind's files: all instructions, and those
    outside digests and ciphers.
    """
    words = "callgrind_annotate", "--threshold=100", str(path)
    done = subprocess.run(words, capture_output=True, text=True, check=True)
    counts = [(int(it[1].replace(",", "")), it[2]) for it in LINE.finditer(done.stdout)]
    every = sum(count for count, what in counts if what == "PROGRAM TOTALS")
    return every, every - sum(count for count, what in counts if DIGESTS.search(what))


def line_of(row: Row, counts: dict[str, tuple[int, int]]) -> str:
    executions = row.count * row.times_each
    figures = [f"{counts[it][part] / executions:,.0f}" for part in (0, 1) for it in TARGETS]
    return f"| {row.name} | {' | '.join(figures)} |"


def main() -> None:
    path, folder = sys.argv[1:]
    files = Path(folder) / "calls"
    program = Program(*CALLGRIND.split(" "), f"--callgrind-out-file={files}", path)
    table = [replace(row, count=EXECUTIONS) for row in rows(prepare_all(program))]
    # In the first round libtpms runs its self-test.
    for row in [*table, *table]:
        for target in TARGETS:
            measure(program, row, target)
    program.end()
    print("| commands | libtpms | libtpmsim | libtpms, no digests | libtpmsim, no digests |")
    print("|---|---|---|---|---|")
    first = len(table) * len(TARGETS) + 1
    for number, row in enumerate(table):
        dumps = [Path(f"{files}.{first + len(TARGETS) * number + it}") for it in range(len(TARGETS))]
        print(line_of(row, {it: counted(dump) for it, dump in zip(TARGETS, dumps, strict=True)}))


if __name__ == "__main__":
    main()
