"""Tests a device that Python keeps in a folder, with wrong files, failing writes, threads and
forked processes:

    tools/python.sh kept_files.py LIBRARY

The program runs in an empty folder, and prints a line for each case.
"""

import contextlib
import os
import pathlib
import resource
import shutil
import threading
import warnings

from tests.library.kept import EXTEND, extend, extended, started, value_of, Waits, within
from tpmsim.device import BadImage, BadState, DeviceEnded, KeptDevice, ModelDevice
from tpmsim.model import state_text
from tpmsim.records.marks import OFFSET_BASIS, sum_from, sum_of
from tpmsim.standard import number

SECONDS = 600
THREADS, CHILDREN, EACH = 4, 20, 50
STATE, MADE = pathlib.Path("state"), pathlib.Path("made")
JOURNAL, LOCK, NEW = (STATE / it for it in ("journal", "lock", "journal.new"))
FAULTS = BadImage, BadState, DeviceEnded, MemoryError, OSError, TypeError, ValueError, Waits


def told(act):
    """Returns a description of the result of `act`."""
    try:
        within(SECONDS, act)
    except FAULTS as fault:
        return f"{type(fault).__name__}: {fault}"
    return "done"


def asks():
    """Opens the device, executes a command on it, and power-cycles it."""
    with KeptDevice(STATE) as device:
        device.execute(b"")
        device.power_cycle()


def with_file(path, make):
    """Moves the file or folder at a path away, and calls `make` to create something else there.
    Returns the fault that is then reported. At the end, puts the original file or folder back.
    """
    aside = pathlib.Path("aside")
    if path.exists():
        path.rename(aside)
    make(path)
    said = told(asks)
    shutil.rmtree(path) if path.is_dir() and not path.is_symlink() else path.unlink()
    if aside.exists():
        aside.rename(path)
    return said


def wrong_files():
    started(STATE).close()
    makes = {
        "a link": lambda path: path.symlink_to("aside"),
        "a link to nothing": lambda path: path.symlink_to("nothing"),
        "a pipe": os.mkfifo,
        "a folder": os.mkdir,
    }
    for path in STATE, JOURNAL, LOCK, NEW:
        for name, make in makes.items():
            if path != STATE or name != "a folder":
                print(f"{name} at {path}: {with_file(path, make)}")
    print("a file at state:", with_file(STATE, lambda path: path.write_bytes(b"")))
    print("a link with a slash:", linked())
    print("where all is its own:", told(asks))


def linked():
    pathlib.Path("link").symlink_to(STATE)
    with KeptDevice(STATE):
        return told(lambda: KeptDevice("link/"))


def wrong_words():
    for name, act in {
        "no path": lambda: KeptDevice(""),
        "a path with a zero": lambda: KeptDevice("a\0b"),
        "a number": lambda: KeptDevice(5),
        "journals of the past": lambda: KeptDevice(STATE, keep=100),
    }.items():
        print(f"{name}: {told(act)}")


def head(kind, text):
    """Returns a journal head that contains this text, which may be wrong."""
    mark = number(0, 8) + number(len(text), 4) + number(sum_of(text), 8)
    line = f"# tpmsim journal {kind} {mark.hex()} {sum_from(OFFSET_BASIS, mark):016x}"
    return f"{line}\n# {text.hex()}\n".encode()


def wrong_texts(text):
    """Yields a wrong text for each fault, made from `text`, which is an image or a state text."""
    turned = bytes([text[60] ^ 1])
    body = bytes(len(text) - 42)
    yield "Short", b""
    yield "Magic", b"x" + text[1:]
    yield "Version", text[:5] + b"\7" + text[6:]
    yield "Length", text + b"\0"
    yield "Digest", text[:60] + turned + text[61:]
    framed = state_text.image.digested(int.from_bytes(text[4:6], "big"), body, text[:4])
    yield "Body", framed


def damaged_journals():
    """Checks that all damage is reported, and that the journal stays unchanged."""
    started(STATE).close()
    whole = JOURNAL.read_bytes()
    with ModelDevice() as device:
        texts = device.save(), bytes(device.snapshot())
    cases = {
        "an empty journal": b"",
        "another text": b"-",
        "a record of another command": whole.replace(b"000144", b"000145"),
    }
    for kind, word in enumerate(("image", "state text"), 1):
        cases |= {f"{word}, {it}": head(kind, wrong) for it, wrong in wrong_texts(texts[kind - 1])}
    for name, text in cases.items():
        JOURNAL.write_bytes(text)
        print(f"{name}: {told(asks)}")
        assert JOURNAL.read_bytes() == text
    for kind in 1, 2:
        JOURNAL.write_bytes(head(kind, texts[kind - 1]))
        print(f"a head of kind {kind}:", told(asks))
    JOURNAL.write_bytes(whole)


def changed_meanwhile():
    device = started(STATE)
    whole = JOURNAL.read_bytes()
    JOURNAL.write_bytes(whole[:-3])
    with warnings.catch_warnings(record=True) as caught:
        code = device.execute(EXTEND).response[6:10].hex()
        print("shortened:", code, *(it.message for it in caught))
    JOURNAL.unlink()
    print("removed:", told(lambda: extend(device)))
    JOURNAL.write_bytes(whole)
    device.close()
    device.close()
    print("closed:", *(told(act) for act in (lambda: extend(device), device.save)))


@contextlib.contextmanager
def file_limit(size):
    """Limits the size of all files that this program writes, including its output."""
    limits = resource.getrlimit(resource.RLIMIT_FSIZE)
    resource.setrlimit(resource.RLIMIT_FSIZE, (size, limits[1]))
    try:
        yield
    finally:
        resource.setrlimit(resource.RLIMIT_FSIZE, limits)


def failing_writes():
    """Checks that the device continues from its journal after a write has failed."""
    device = started(STATE)
    before, size, taken = value_of(device), JOURNAL.stat().st_size, device.snapshot()
    with file_limit(size + 20):
        said = told(lambda: extend(device))
    print("a full journal:", said, JOURNAL.stat().st_size - size)
    with file_limit(20):
        said = [told(act) for act in (device.power_cycle, lambda: device.restore(taken))]
    print("no new journal:", *said, NEW.exists())
    print("none was executed:", value_of(device) == before)
    print("no state text:", told(lambda: device.restore(b"TPMS")), value_of(device) == before)
    device.close()


def modes():
    before = os.umask(0o777)
    try:
        KeptDevice(MADE).close()
    finally:
        os.umask(before)
    print("modes:", *(f"{it.stat().st_mode & 0o777:o}" for it in (MADE, *sorted(MADE.iterdir()))))


def torn_tail():
    device = started(STATE)
    before, size = value_of(device), JOURNAL.stat().st_size
    extend(device)
    whole = JOURNAL.read_bytes()
    JOURNAL.write_bytes(whole[: size + 7])
    with warnings.catch_warnings(record=True) as caught:
        warnings.simplefilter("always")
        with KeptDevice(STATE) as other:
            print("opened:", [str(it.message) for it in caught], JOURNAL.stat().st_size - size)
            assert value_of(other) == before
            assert value_of(other) == before
    print("asked:", [f"{it.category.__name__}: {it.message}" for it in caught])
    JOURNAL.write_bytes(JOURNAL.read_bytes() + whole[size : size + 9])
    with warnings.catch_warnings(), KeptDevice(STATE) as other:
        warnings.simplefilter("error")
        try:
            value_of(other)
        except RuntimeWarning as fault:
            print("as an error:", fault)
        print("after it:", value_of(other) == before)
    JOURNAL.write_bytes(JOURNAL.read_bytes() + whole[size : size + 9])
    with warnings.catch_warnings(record=True) as caught, KeptDevice(STATE) as other:
        other.power_cycle()
    print("a power cycle:", *(it.message for it in caught))
    device.close()


def journals_of_the_past():
    folder = pathlib.Path("past")
    with KeptDevice(folder, keep=2) as device:
        begun = []
        for _ in range(4):
            begun.append((folder / "journal").read_bytes())
            device.power_cycle()
    print("of the past:", *sorted(it.name for it in folder.iterdir()))
    assert [(folder / f"journal.{it}").read_bytes() for it in (1, 2)] == begun[:1:-1]


def takes_turns():
    """Threads share a device while forked children use it too."""
    device = started(STATE)
    before, ended = value_of(device), []

    def work():
        for _ in range(EACH):
            extend(device)
        ended.append(True)

    threads = [threading.Thread(target=work) for _ in range(THREADS)]
    for thread in threads:
        thread.start()
    for _ in range(CHILDREN):
        child = os.fork()
        if not child:
            extend(device)
            os._exit(0)
        assert os.waitpid(child, 0)[1] == 0
    for thread in threads:
        thread.join()
    assert len(ended) == THREADS
    for _ in range(THREADS * EACH + CHILDREN):
        before = extended(before)
    print("threads and children:", value_of(device) == before)
    device.close()


def forks():
    """A forked child can use the device too, and does not share its parent's lock."""
    device = started(STATE)
    before = value_of(device)
    child = os.fork()
    for _ in range(EACH):
        extend(device)
    if not child:
        os._exit(0)
    assert os.waitpid(child, 0)[1] == 0
    for _ in range(2 * EACH):
        before = extended(before)
    print("parent and child:", value_of(device) == before)
    device.close()


# Since version 3.12 Python warns when a process with threads forks, because the child may wait
# forever.
warnings.filterwarnings("ignore", "This process .* is multi-threaded", DeprecationWarning)
wrong_files()
wrong_words()
damaged_journals()
changed_meanwhile()
failing_writes()
modes()
torn_tail()
journals_of_the_past()
forks()
takes_turns()
