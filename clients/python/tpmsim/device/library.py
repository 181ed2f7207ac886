"""A device in this process, through the library libtpmsim (clients/c/README.md)."""

import ctypes
import fcntl
import functools
import hashlib
import io
import os
import pathlib
import weakref
from typing import Callable

import tpmsim
from tpmsim.device.base import BadImage, BadState, DeviceEnded, Executed
from tpmsim.device.forks import in_each_child, LOCKS, process
from tpmsim.device.shipped import shipped
from tpmsim.device.told import Device, NothingReplaced, Path, RANDOM_BYTES
from tpmsim.model.image import BODY_AT, DIGEST_AT_END, HIERARCHIES

# The sizes of parts of an image: the seed and the proof of a hierarchy; the fields between the last
# authorization value and the clock (one byte and the dictionary attack protection); and the clock.
SECRETS_BYTES, BEFORE_CLOCK, CLOCK_BYTES = 64, 18, 8

OWNER_ALONE = 0o600


def opened(path: str, flags: int) -> io.FileIO:
    """Opens a file, and returns an object that closes it. `map` makes both calls in C, where no
    signal handler can run between them. Therefore every descriptor has an object that closes it.
    """
    call = functools.partial(os.open, mode=OWNER_ALONE)
    return next(map(io.FileIO, map(call, [path], [flags]), ["r+"]))


def but_clock(image: bytes) -> bytes:
    """Returns an image without its clock and its digest."""
    at = BODY_AT
    for _ in HIERARCHIES:
        at += 2 + int.from_bytes(image[at : at + 2], "big") + SECRETS_BYTES
    at += 2 + int.from_bytes(image[at : at + 2], "big") + BEFORE_CLOCK
    return image[:at] + image[at + CLOCK_BYTES : -DIGEST_AT_END]


class ImageFile:
    """The file of an image. Until `close`, it holds the same lock that the `tpmsim` program takes.
    Raises FileExistsError if the lock is already taken, and OSError if the folder is not writable.
    The file belongs to the process that opened it, and not to a forked child.
    """

    is_left = False

    def __init__(self, path: str | os.PathLike[str]) -> None:
        self.path, self.kept, self.process = pathlib.Path(path), b"", process()
        flags = os.O_RDWR | os.O_CREAT | os.O_CLOEXEC | os.O_NOFOLLOW
        LOCKS[self] = os.path.abspath(f"{self.path}.lock")
        self.lock = opened(f"{self.path}.lock", flags)
        HELD.add(self)
        if os.fstat(self.lock.fileno()).st_uid == os.geteuid():
            os.fchmod(self.lock.fileno(), OWNER_ALONE)
        try:
            fcntl.flock(self.lock, fcntl.LOCK_EX | fcntl.LOCK_NB)
        except BlockingIOError:
            self.leave()
            raise FileExistsError(f"another device has {self.path}") from None

    @property
    def is_here(self) -> bool:
        """Whether this process writes the file."""
        return not self.is_left and self.process == process()

    def read(self) -> bytes:
        """Returns the image, or no bytes if there is no file."""
        try:
            return self.path.read_bytes()
        except FileNotFoundError:
            return b""

    def keep(self, image: bytes) -> None:
        """Writes an image if it differs from the last written image in anything but the clock."""
        if not self.kept or but_clock(image) != but_clock(self.kept):
            self.write(image)

    def write(self, image: bytes) -> None:
        """Writes a file next to the image, syncs it to the disk, and replaces the image with that
        file.
        """
        beside = pathlib.Path(f"{self.path}.new")
        beside.unlink(missing_ok=True)
        flags = os.O_WRONLY | os.O_CREAT | os.O_EXCL | os.O_CLOEXEC
        with open(os.open(beside, flags, OWNER_ALONE), "wb") as file:
            os.fchmod(file.fileno(), OWNER_ALONE)  # the umask may have cleared the owner's bits
            file.write(image)
            file.flush()
            os.fsync(file.fileno())
        os.replace(beside, self.path)
        folder = os.open(self.path.parent, os.O_RDONLY | os.O_DIRECTORY | os.O_CLOEXEC)
        try:
            os.fsync(folder)
        finally:
            os.close(folder)
        self.kept = image

    def close(self, image: bytes) -> None:
        """Writes the image with its clock, and releases the lock."""
        try:
            if self.is_here:
                self.write(image)
        finally:
            self.leave()

    def leave(self) -> None:
        """Releases the lock without writing the file. A forked child may share the lock."""
        self.is_left = True
        if self.process == process() and not self.lock.closed:
            fcntl.flock(self.lock, fcntl.LOCK_UN)
        self.lock.close()

    def give_up(self) -> None:
        """Leaves the file and its lock to the parent process."""
        self.is_left = True
        self.lock.close()


HELD: weakref.WeakSet[ImageFile] = weakref.WeakSet()


def give_up_all() -> None:
    """Leaves all files and locks to the parent of a forked child."""
    for file in list(HELD):
        file.give_up()


in_each_child(give_up_all)


NAME = "libtpmsim.so.0"
RESPONSE_BYTES = 4096

# The size of a buffer that can hold any image and any state text.
TEXT_BYTES = 36_930

# The results of a call (clients/c/tpmsim.h): NO_MEMORY, the faults of an image from 4 on, and those
# of a state text from 13 on, and for version 1 the last one.
NO_MEMORY, FAULTS = 3, ("Short", "Magic", "Version", "Length", "Digest", "Body")
IMAGE_FAULTS = dict(enumerate(FAULTS, 4))
STATE_FAULTS = {**dict(enumerate(FAULTS, 13)), 21: "Earlier"}

CHECKS = {0: "ok", **{it: f"G{it}" for it in range(1, 12)}}
CHECKS |= {20 + it: f"A{it}" for it in range(1, 8)}


class AnsweredInC(ctypes.Structure):
    _fields_ = [
        ("size", ctypes.c_size_t),
        ("drawn", ctypes.c_size_t),
        ("code", ctypes.c_uint32),
        ("check", ctypes.c_uint8),
    ]


def places() -> list[str]:
    """Returns the paths at which the library may be: only $TPMSIM_LIBRARY if that is set, otherwise
    next to the package, in dist/ of this clone, and where the loader looks.
    """
    named = os.environ.get("TPMSIM_LIBRARY")
    if named:
        return [named]
    beside = [pathlib.Path(__file__).resolve().parents[1] / NAME, shipped(NAME)]
    return [*(str(it) for it in beside if it.is_file()), NAME]


def beside(name: str) -> str:
    """Returns the path of another shared object in the library's folder."""
    return os.path.join(os.path.dirname(places()[0]), name)


@functools.cache
def library() -> ctypes.CDLL:
    """Loads the library, once; raises OSError if it is missing or has another version."""
    found = ctypes.CDLL(places()[0])
    number = found.tpmsim_version()
    version = f"{number >> 16}.{number >> 8 & 0xFF}.{number & 0xFF}"
    if version != tpmsim.__version__:
        wanted = f"and not {tpmsim.__version__}, as this package"
        raise OSError(f"{places()[0]} is of version {version}, {wanted}")
    handle, text, size = ctypes.c_void_p, ctypes.c_char_p, ctypes.c_size_t
    byte, milliseconds = ctypes.c_uint8, ctypes.c_uint32
    event = [byte, milliseconds, text, text, handle]
    for name, result, arguments in (
        ("manufacture", byte, [handle, text]),
        ("execute", byte, [handle, text, size, *event]),
        ("complete", byte, [handle, text, size, *event]),
        ("power_cycle", byte, [handle]),
        ("save", size, [handle, text, size]),
        ("open", byte, [handle, text, size]),
        ("snapshot", size, [handle, text, size]),
        ("restore", byte, [handle, text, size]),
        ("free", None, [handle]),
    ):
        call = getattr(found, f"tpmsim_{name}", None)
        if call is None:
            raise OSError(
                f"{places()[0]} has no tpmsim_{name}: it is not the library of this package"
            )
        call.restype, call.argtypes = result, arguments
    return found


def is_there() -> bool:
    """Returns whether the library is found; raises OSError if $TPMSIM_LIBRARY cannot be loaded."""
    try:
        library()
    except OSError:
        if os.environ.get("TPMSIM_LIBRARY"):
            raise
        return False
    return True


Write = Callable[[int, ctypes.Array[ctypes.c_char], int], int]


def written(call: Write, handle: int) -> bytes:
    """Calls a function that writes a text about a device, with a large enough buffer, and returns
    the text. Returns no bytes if there is no device.
    """
    size = TEXT_BYTES
    while True:
        buffer = ctypes.create_string_buffer(size)
        needed = call(handle, buffer, size)
        if needed <= size:
            return ctypes.string_at(buffer, needed)
        size = needed


class LibraryDevice(Device):
    """A device in this process, manufactured with 256 bytes, which are random unless they are
    passed. If it has an image, its state is kept in that file. The file is written when the device
    is closed, and after each command that changes the state, before the response is returned.
    Raises FileExistsError if another device uses the image.

    >>> with LibraryDevice(manufactured=bytes(256)) as device:
    ...     len(device.save())
    361
    """

    def __init__(
        self,
        image: Path | None = None,
        seed: bytes | None = None,
        manufactured: bytes | None = None,
    ) -> None:
        super().__init__(image, seed)
        self.library, self.holder = library(), ctypes.c_void_p()
        self.handle = ctypes.addressof(self.holder)
        self.answered = AnsweredInC()
        self.at_answered = ctypes.addressof(self.answered)
        self.room = ctypes.create_string_buffer(RESPONSE_BYTES)
        self.file, is_open = None if image is None else ImageFile(image), False
        try:
            kept = self.file.read() if self.file else b""
            if kept:
                self.begin(kept)
            else:
                self.manufacture(manufactured)
            is_open = True
        finally:
            if self.file and not is_open:
                self.file.leave()
        self.begun = kept or self.save()

    def manufacture(self, given: bytes | None) -> None:
        """Manufactures the device from the given bytes, from its seed, or from random bytes."""
        if given is None and self.seed is not None:
            given = hashlib.shake_256(self.seed).digest(RANDOM_BYTES)
        random = os.urandom(RANDOM_BYTES) if given is None else given
        if len(random) != RANDOM_BYTES:
            raise ValueError(f"a device is manufactured with {RANDOM_BYTES} bytes")
        if self.library.tpmsim_manufacture(self.handle, random):
            raise MemoryError
        self.keep()

    def look(self) -> None:
        """Raises DeviceEnded if the image belongs to another process."""
        if self.file and not self.file.is_here:
            raise DeviceEnded("the image is the one of the process that forked this one")

    def begin(self, image: bytes) -> None:
        self.look()
        told = self.library.tpmsim_open(self.handle, image, len(image))
        if told in IMAGE_FAULTS:
            raise BadImage(IMAGE_FAULTS[told])
        if told:
            raise MemoryError
        self.keep()

    def look_open(self) -> None:
        """Raises DeviceEnded like `look`, and ValueError after `close`."""
        self.look()
        if not self.holder:
            raise ValueError("the device is closed")

    def state(self) -> bytes:
        if not self.holder:
            raise ValueError("the device is closed")
        return written(self.library.tpmsim_snapshot, self.handle)

    def restore(self, snapshot: object) -> None:
        self.look_open()
        super().restore(snapshot)

    def resume(self, text: bytes) -> None:
        told = self.library.tpmsim_restore(self.handle, text, len(text))
        if told in STATE_FAULTS:
            raise BadState(STATE_FAULTS[told])
        if told:
            raise NothingReplaced
        self.keep()

    def answer(self, buffer: bytes, locality: int, elapsed: int, random: bytes) -> Executed:
        """Executes a command, and returns it with its response and its check."""
        self.look_open()
        event = locality, elapsed, random, self.room, self.at_answered
        self.to_its_end(lambda: self.executed(buffer, event))
        answered = self.answered
        response = ctypes.string_at(self.room, answered.size)
        told = random[: answered.drawn], CHECKS[answered.check], answered.code
        return Executed(buffer, response, locality, elapsed, *told)

    def executed(self, buffer: bytes, event: tuple[object, ...]) -> None:
        """Executes a command in the library, and saves the image."""
        self.library.tpmsim_execute(self.handle, buffer, len(buffer), *event)
        self.keep()

    def keep(self) -> None:
        """Writes the image if more than the clock has changed; raises DeviceEnded if that fails."""
        if self.file:
            try:
                self.file.keep(self.save())
            except OSError as fault:
                if fault.errno is None:
                    raise  # from a signal handler, such as a test's TimeoutError, not a system call
                raise DeviceEnded(f"the image is not written: {fault}") from None

    def cycle(self) -> None:
        """Power-cycles the device. If that is interrupted, later calls raise DeviceEnded."""
        self.look_open()
        self.to_its_end(self.cycled)

    def cycled(self) -> None:
        """Power-cycles the device in the library, and saves the image."""
        self.library.tpmsim_power_cycle(self.handle)
        self.keep()

    def save(self) -> bytes:
        return written(self.library.tpmsim_save, self.handle)

    def close(self) -> None:
        if self.file:
            self.file.close(self.save())
            self.file = None
        self.library.tpmsim_free(self.handle)

    def __del__(self) -> None:
        if hasattr(self, "handle"):
            self.library.tpmsim_free(self.handle)
