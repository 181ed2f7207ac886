"""Makes the scripts that are not stored, with the responses and traces of the Python device:

    tools/python.sh tests/common/made.py FOLDER          all scripts of tests/ and examples/
    tools/python.sh tests/common/made.py FOLDER NAME..   these, such as cut_commands

FOLDER gets the folders of the repository. If the docstring of a program begins with `Makes
NAME.tpm`, the program makes NAME.tpm, NAME.out and NAME.trace: tests/nv/NAME.py makes them in
FOLDER/tests/nv. A script that is written by hand is copied, and gets a trace. Files that are in
FOLDER already are not made again. JOBS is the number of scripts that are made at the same time.

tests/made.sums contains the SHA-256 of each made file. If a file has another SHA-256, or a script
cannot be made, the program prints a line about it, and its status is 1.
"""

import contextlib
import fcntl
import hashlib
import importlib
import multiprocessing
import os
import pathlib
import re
import shutil
import sys
import tempfile
import traceback
from collections.abc import Iterable, Iterator
from dataclasses import dataclass, field
from typing import IO

TOP = pathlib.Path(__file__).resolve().parents[2]
SUMS = TOP / "tests" / "made.sums"
MAKES = re.compile(r'"""Makes (\w+)\.tpm\b')
WRITE = "tools/anew.sh --write"

# These scripts try all cases of their subjects, so they are long. tests/common/wrong_made.py has a
# wrong device for each of them.
EXHAUSTIVE = (
    *("turned_commands", "cut_commands", "bent_commands", "cut_hmac_commands", "get_capability"),
    *("nv_define_space", "order_of_nv_refusals", "order_of_object_refusals"),
    *("order_of_policy_refusals", "order_of_session_refusals", "policy_handles", "policy_nv"),
    *("policy_or", "policy_pcr", "private_areas", "sealed_sizes", "template_refusals"),
)


# The folder of the scripts that are played with `run --complete`, on a device of the complete
# profile. All other scripts are played on a device of the symmetric profile.
COMPLETE = "complete"


def makes(program: pathlib.Path) -> bool:
    """Returns whether a program makes a script."""
    with program.open(encoding="utf-8") as text:
        told = MAKES.match(text.readline())
    assert not told or told[1] == program.stem, f"{program} makes {told and told[1]}.tpm"
    return bool(told)


def programs() -> dict[str, pathlib.Path]:
    """Returns the programs that make scripts, by name."""
    found = [*TOP.glob("tests/*/*.py"), *TOP.glob("examples/*.py")]
    return {it.stem: it for it in sorted(found) if makes(it)}


def written_by_hand() -> dict[str, pathlib.Path]:
    """Returns the scripts that are written by hand, by name. Omits the scripts in tests/common,
    which are parts of tests.
    """
    found = [*TOP.glob("tests/*/*.tpm"), *TOP.glob("examples/*.tpm")]
    return {it.stem: it for it in sorted(found) if it.parent.name != "common"}


def sources(*names: str) -> list[pathlib.Path]:
    """Returns the programs that make the scripts with these names, and the stored scripts with
    these names. Without names, returns all of them. The exhaustive ones, which take longest, come
    first.
    """
    known = written_by_hand() | programs()
    missing = [it for it in names if it not in known]
    if missing:
        sys.exit(f"made.py: there is no script {missing[0]}")
    asked = [it for it in known if it in names or not names]
    return [known[it] for it in sorted(asked, key=lambda it: it not in EXHAUSTIVE)]


def stored_sums() -> dict[str, str]:
    """Returns the SHA-256 of each file in tests/made.sums, in hex, by its path."""
    lines = SUMS.read_text("ascii").splitlines() if SUMS.exists() else []
    pairs = (line.split("  ", 1) for line in lines)
    return {path: digest for digest, path in pairs}


def sum_of(path: pathlib.Path) -> str:
    return hashlib.sha256(path.read_bytes()).hexdigest()


def make_by_program(program: pathlib.Path, folder: pathlib.Path) -> Iterator[str]:
    """Makes the script of a program. The program's module has a `script`, or a caller `tpm` that
    has a script. Yields the endings of the names of the files whose SHA-256 is stored.
    """
    name = ".".join(program.relative_to(TOP).with_suffix("").parts)
    found = importlib.import_module(name)
    script = found.script if hasattr(found, "script") else found.tpm.script
    script.write_in(folder)
    yield from (".tpm", ".out", ".trace")


def make_by_hand(script: pathlib.Path, folder: pathlib.Path) -> Iterator[str]:
    """Copies a stored script, and makes its responses and its trace. Only the trace is not stored."""
    from tests.common.expected import played
    from tests.common.outputs import write_responses, write_trace

    for ending in (".tpm", ".err", ".status"):
        beside = script.with_suffix(ending)
        if beside.exists():
            shutil.copyfile(beside, folder / beside.name)
    events, copy = played(script), folder / script.name
    write_responses(copy, events)
    write_trace(copy, events)
    yield ".trace"


@dataclass
class Made:
    """What was made: the SHA-256 of each file that is not stored, by its path, and the scripts that
    could not be made.
    """

    sums: dict[str, str] = field(default_factory=dict)
    faults: list[str] = field(default_factory=list)

    def add(self, other: "Made") -> None:
        self.sums |= other.sums
        self.faults += other.faults


def line_about(fault: Exception, source: pathlib.Path) -> str:
    told = " ".join("".join(traceback.format_exception_only(type(fault), fault)).split())
    return f"{source.relative_to(TOP)} fails: {told}; tools/anew.sh {source.stem} shows where"


def make(source: pathlib.Path, folder: pathlib.Path) -> Made:
    """Makes the files of a script in FOLDER, which appear there only when they are complete. The
    trace appears last.
    """
    place, made = source.relative_to(TOP).parent, Made()
    by = make_by_program if source.suffix == ".py" else make_by_hand
    (folder / place).mkdir(parents=True, exist_ok=True)
    with tempfile.TemporaryDirectory(dir=folder) as name:
        room = pathlib.Path(name)
        try:
            endings = list(by(source, room))
        except Exception as fault:
            traceback.print_exc()
            made.faults.append(line_about(fault, source))
            return made
        for path in sorted(room.iterdir()):
            if path.suffix in endings:
                made.sums[str(place / path.name)] = sum_of(path)
            path.rename(folder / place / path.name)
    return made


def present(source: pathlib.Path, folder: pathlib.Path) -> bool:
    return (folder / source.relative_to(TOP).with_suffix(".trace")).exists()


@contextlib.contextmanager
def locked(folder: pathlib.Path) -> Iterator[IO[str]]:
    """Waits until no other process makes scripts in a folder."""
    folder.mkdir(parents=True, exist_ok=True)
    with (folder / "lock").open("w") as lock:
        fcntl.flock(lock, fcntl.LOCK_EX)
        yield lock


def make_all(folder: pathlib.Path, *names: str) -> Made:
    """Makes the scripts with these names, or all scripts if there are no names."""
    made = Made()
    with locked(folder):
        asked = [(it, folder) for it in sources(*names) if not present(it, folder)]
        jobs = min(int(os.environ.get("JOBS") or os.cpu_count() or 1), len(asked))
        if jobs < 2:
            found: Iterable[Made] = [make(*it) for it in asked]
        else:
            with multiprocessing.Pool(jobs) as pool:
                found = pool.starmap(make, asked, chunksize=1)
    for it in found:
        made.add(it)
    return made


def differences(made: Made) -> list[str]:
    """Returns a line about each made file whose SHA-256 is not the one in tests/made.sums."""
    stored, told = stored_sums(), []
    for path, digest in sorted(made.sums.items()):
        name = pathlib.Path(path).stem
        if path not in stored:
            told.append(f"{path} is not in tests/made.sums; {WRITE} {name} adds it")
        elif stored[path] != digest:
            told.append(f"{path} is not as tests/made.sums says; {WRITE} {name} accepts it")
    return told


def unmade() -> list[str]:
    """Returns a line about each line of tests/made.sums whose file nothing makes."""
    by_program, by_hand = programs().values(), written_by_hand().values()
    known = {str(it.relative_to(TOP).with_suffix("")) for it in (*by_program, *by_hand)}
    lost = [it for it in stored_sums() if it.rpartition(".")[0] not in known]
    return [f"{it} is in tests/made.sums, and nothing makes it; {WRITE} removes it" for it in lost]


def main(folder: str, *names: str) -> int:
    made = make_all(pathlib.Path(folder).resolve(), *names)
    told = [*made.faults, *differences(made), *([] if names else unmade())]
    print(*told, sep="\n", end="\n" if told else "")
    return 1 if told else 0


if __name__ == "__main__":
    if len(sys.argv) < 2:
        sys.exit(__doc__)
    # tests/common/examples.py would hide the folder of the examples.
    sys.path[:1] = [str(TOP / "clients" / "python"), str(TOP)]
    sys.exit(main(*sys.argv[1:]))
