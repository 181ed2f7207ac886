"""Runs `tpmsim restore`, and kills it before each of its calls, or makes each call fail:

    python3 restored_folders.py PROGRAM

After a run on a folder with an old device, the folder must contain this device or the device in the
state text. After a run that succeeded it must contain the device in the text. After a run that
failed it may contain that device only if the failed call came after the rename.
"""

import errno
import pathlib
import shutil
import sys
from dataclasses import dataclass

from tests.common.faults import Act, Fault, sweep, Tears
from tests.common.shims import Ending, ended, fail, ran

FOLDER, KEPT, TEXT = (pathlib.Path(name) for name in ("state", "kept", "other.text"))
WORDS = ["restore", str(FOLDER), str(TEXT)]

# The number that identifies the start of the completing layer, in a state text: its offset from the
# end of the text, and its size. Then the size of the digest at the end.
START_AT, START_BYTES, DIGEST_BYTES = -176, 8, 32


def device(program: str, folder: pathlib.Path, script: bytes) -> bytes:
    """Runs a script on the device in a folder, and returns the device's state text."""
    play = ran(program, "run", "--state", str(folder), "-", stdin=script)
    if play.status != 0:
        fail(f"{folder} was not played on: {play}")
    return snapshot(program, folder)


def snapshot(program: str, folder: pathlib.Path) -> bytes:
    """Returns the state text of the device in a folder."""
    told = ran(program, "snapshot", str(folder))
    if told.status != 0:
        fail(f"there is no device: {told}")
    return bytes(told.output)


def is_other(found: bytes, wanted: bytes) -> bool:
    """Returns whether two state texts are of different devices. The number that identifies the
    start of the completing layer is ignored, because it is new in each restored device. The digest
    at the end is ignored too.
    """
    parts = (slice(START_AT), slice(START_AT + START_BYTES, -DIGEST_BYTES))
    return any(found[part] != wanted[part] for part in parts)


@dataclass(frozen=True)
class Restore:
    """The program, and the state texts of the old device and of the device that it restores."""

    program: Tears
    old: bytes
    new: bytes

    def endings(self, act: Act, is_over: bool) -> list[Ending]:
        """Repeats a run, and makes a different call fail each time. If `is_over` is true, the folder
        contains the old device before. Returns how the runs ended.
        """
        endings = []

        def tries(fault: Fault) -> tuple[str, str]:
            shutil.rmtree(FOLDER, ignore_errors=True)
            if is_over:
                shutil.copytree(KEPT, FOLDER)
            ending = ended(self.program.begins(WORDS, fault=fault))
            *before, call = ["", *self.program.noted()][: fault.number + 1]
            if len(before) < fault.number:
                return "", ""
            endings.append(ending)
            is_renamed = any(it.startswith("rename") for it in before)
            wanted = self.new if is_renamed or ending.status == 0 or not is_over else self.old
            is_there = is_over or (FOLDER / "journal").exists()
            is_wrong = is_there and is_other(snapshot(self.program.program, FOLDER), wanted)
            return call, f"another device, {ending}" if is_wrong else ""

        for wrong in sweep(tries, variants=[(act, errno.EIO)]):
            if wrong:
                fail(wrong)
        return endings


def main() -> None:
    """Runs all tests in the current folder."""
    (path,) = sys.argv[1:]
    old = device(path, KEPT, b"do Startup 0\ndo GetRandom 4\n")
    new = device(path, pathlib.Path("other"), b"do Startup 0\nwait 5000\ndo GetRandom 8\n")
    TEXT.write_bytes(new)
    restore = Restore(Tears(path), old, new)
    for is_over, words in ((True, "over a device"), (False, "in a new folder")):
        kills = len(restore.endings(Act.IS_KILLED, is_over))
        told = "no device is lost" if kills > 10 else f"only {kills} calls"
        print(f"killed before each call, {words}: {told}")
    for ending in sorted(
        set(restore.endings(Act.FAILS, True)), key=lambda it: (it.status, it.error)
    ):
        error = ending.error.decode().strip()
        print(f"a call that fails: status {ending.status}, {error or 'nothing is said'}")


main()
