"""Simulates crashes of the host of a device that is kept in a folder, after each change to the
folder:

    python3 crash_each.py PROGRAM HOSTS SHIM SHARE [WORD]

SHIM is the library built from disk.c; LD_PRELOAD loads it into this process too. It logs what each
host does to its folder. A crash keeps all synced bytes, and any prefix of the others, perhaps
followed by zeros. A name that was not synced may be lost, or may refer to an earlier file again.

After each line of the log, the test creates some folders in states in which a crash could leave the
folder, and another host opens them. With force=always, each folder must contain the device after
all answered operations; the device may also have executed an operation that was not answered.
Without force=always, the device may be in any state that it has had since the last power cycle.
Only one in every SHARE crashes is tested. With WORD, only crashes of hosts whose names contain WORD
are tested.
"""

import ctypes
import os
import pathlib
import random
import shutil
import sys
from dataclasses import dataclass, field
from typing import Callable, Iterator, Sequence

from tests.keeping.counted import Counted, DEFINE, INCREMENT, POWER, READ, STARTUP, State
from tests.keeping.hosts import Files, Host, Module, Python, Run, Simulator
from tests.keeping.trials import Case, check_all, forked, performed, Starts, Told, wrong_in

MOST_ZEROS = 5000

# What a crash leaves: only what must be on the disk, all, or a part that is chosen at random.
LEAST, ALL, *PARTS = range(5)


@dataclass
class File:
    """The content of a file, the earlier contents that it had since its last sync, and the size of
    the prefix that is on the disk.
    """

    now: bytes = b""
    past: list[bytes] = field(default_factory=list)
    forced: int = 0

    def becomes(self, text: bytes) -> None:
        """Sets the content. The unchanged bytes at the beginning stay on the disk."""
        self.past.append(self.now)
        self.forced = min(self.forced, len(os.path.commonprefix([self.now, text])))
        self.now = text

    def writes(self, at: int, text: bytes) -> None:
        self.becomes(self.now[:at].ljust(at, b"\0") + text + self.now[at + len(text) :])

    def cuts(self, size: int) -> None:
        self.becomes(self.now[:size])

    def forces(self) -> None:
        self.past, self.forced = [], len(self.now)

    def left(self, choices: random.Random, how: int) -> bytes:
        """Returns the content after a crash (see Disk.leaves)."""
        if how not in PARTS:
            return self.now[: self.forced if how == LEAST else None]
        text = choices.choice([*self.past, self.now])
        text = text[: max(self.forced, choices.randrange(len(text) + 1))]
        return text + bytes(choices.randrange(MOST_ZEROS) if choices.random() < 0.5 else 0)


class Disk:
    """A folder as processes see it, and as a crash may leave it."""

    def __init__(self, folder: pathlib.Path) -> None:
        self.folder, self.is_there, self.is_named = folder, folder.exists(), folder.exists()
        self.files: dict[str, File] = {}
        self.names: list[dict[str, str]] = [{}]
        for path in folder.iterdir() if self.is_there else ():
            self.names[0][path.name] = number = str(path.stat().st_ino)
            self.files[number] = File(path.read_bytes(), [], path.stat().st_size)

    def name_of(self, path: str) -> str:
        """Returns the name of a file in the folder, or an empty name for any other file."""
        folder, _, name = path.rpartition("/")
        return name if folder == str(self.folder) else ""

    def hears(self, what: str, path: str, *rest: str) -> None:
        """Applies the change that a line of the log describes."""
        if what == "mkdir" and path == str(self.folder):
            self.is_there = True
        elif what == "force" and path == str(self.folder):
            self.names = self.names[-1:]
        elif what == "force" and path == str(self.folder.parent):
            self.is_named = True
        elif what in ("rename", "link", "unlink") and self.name_of(path):
            self.renames(what, self.name_of(path), self.name_of(rest[0]) if rest else "")
        elif what in ("open", "write", "cut", "force") and self.name_of(path):
            self.moves(what, self.name_of(path), *rest)

    def renames(self, what: str, name: str, other: str) -> None:
        names = dict(self.names[-1])
        number = names[name] if what == "link" else names.pop(name)
        if other:
            names[other] = number
        self.names.append(names)

    def moves(self, what: str, name: str, number: str, at: str, text: str = "") -> None:
        if what == "open":
            if number not in self.names[-1].values():
                self.files[number] = File()
                self.names.append({**self.names[-1], name: number})
            return
        file = self.files[number]
        if what == "write":
            file.writes(int(at), bytes.fromhex(text))
        elif what == "cut":
            file.cuts(int(at))
        else:
            file.forces()

    def leaves(self, folder: pathlib.Path, choices: random.Random, how: int) -> None:
        """Makes a folder in a state in which a crash may leave it: LEAST, ALL or one of PARTS."""
        shutil.rmtree(folder, ignore_errors=True)
        if not self.is_there or (not self.is_named and (how == LEAST or choices.random() < 0.5)):
            return
        folder.mkdir(mode=0o700)
        ends = self.names[0], self.names[-1]
        names = choices.choice(self.names) if how in PARTS else ends[how == ALL]
        for name, number in names.items():
            (folder / name).write_bytes(self.files[number].left(choices, how))
            (folder / name).chmod(0o600)


@dataclass(frozen=True)
class Crashes(Case):
    """The runs of a host, with a crash after each change to its folder."""

    is_always: bool
    right = "no crash takes what was promised"

    def plays(self, mark: Callable[[str], object], environment: dict[str, str]) -> None:
        host = self.host(self.files, environment)
        for word, text in performed(host, self.script, self.folder):
            mark(f"{word} {text}")
        host.close()

    def plays_here(self, log: str) -> None:
        os.dup2(os.open("/dev/null", os.O_WRONLY), 2)
        library = ctypes.CDLL(None)
        library.disk_logs(log.encode())
        self.plays(lambda line: library.disk_marks(line.encode()), {})

    def lines(self) -> list[str]:
        """Returns the log of the changes that the host makes to the folder, and of the host's
        answers.
        """
        log = self.room / "log"
        log.write_bytes(b"")
        if self.host.is_program:
            with log.open("a", encoding="ascii", buffering=1) as file:
                self.plays(lambda line: print(line, file=file), {"DISK_LOG": str(log)})
        else:
            os.waitpid(forked(lambda: self.plays_here(str(log))), 0)
        return log.read_text("ascii").splitlines()

    def allowed(self, told: Told) -> set[State]:
        """Returns the states of the device that the folder may contain after a crash: the state
        after the answered operations or, without force=always, any state since the last power
        cycle. The operation that was not answered may have been executed too.
        """
        counted = Counted(told.counted.states)
        counted.may_have(told.waiting)
        return counted.states | (set() if self.is_always else told.counted.since)

    def runs(self, share: int) -> Iterator[str]:
        """Tests one in every `share` crashes. Yields what is wrong with the folder after each."""
        left, choices, crashes = self.room / "left", random.Random(self.label), 0
        self.start.put(self.folder)
        disk, told = Disk(pathlib.Path(self.folder)), Told(Counted([self.start.state]))
        for number, line in enumerate(self.lines()):
            word, *rest = line.split()
            if word in ("asks", "answers"):
                told.hears(word, "".join(rest))
            else:
                disk.hears(word, *rest)
            for how in (LEAST, ALL, *PARTS):
                crashes += 1
                if crashes % share == 0:
                    disk.leaves(left, choices, how)
                    wrong = wrong_in(self.files, str(left), self.allowed(told))
                    yield wrong and f"crash after {line[:200]} (line {number}, way {how}): {wrong}"
        if not "".join(told.acts[-1:]).startswith(self.script[-1]) or told.strange:
            yield f"the host did only {told.acts} {told.strange}"


def cases(files: Files, room: pathlib.Path, _: object) -> Iterator[Crashes]:
    starts = Starts.made(files, room)
    counts, new = (INCREMENT, READ, INCREMENT), (STARTUP, DEFINE, INCREMENT)
    cycles = (INCREMENT, POWER, STARTUP, INCREMENT, READ)
    hosts: list[tuple[type[Host], Sequence[str], bool]] = [
        (Module, counts, True),
        (Python, cycles, False),
        (Run, cycles, False),
        (Simulator, (STARTUP, *cycles), True),
    ]
    for host, acts, is_always in hosts:
        yield Crashes(files, room, host, starts.kept, acts, is_always)
        yield Crashes(files, room, host, starts.new, new, is_always)
        if acts[0] == INCREMENT:
            yield Crashes(files, room, host, starts.grown, counts, is_always)


if __name__ == "__main__":
    os.environ["LD_PRELOAD"] = str(pathlib.Path(sys.argv[3]).resolve())
    check_all(cases, Files.of(*sys.argv[1:3]), *sys.argv[3:], noun="crashes")
