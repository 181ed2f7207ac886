"""Opens the images of version 1 in tests/images/version_1 with a program:

    tools/python.sh tests/images/version_1_images.py PROGRAM

The commands read the device's state, and use its secrets. The program's responses must be those of
the Python device, and the image of version 2 that it saves afterwards must be the same too. For
each image the test prints what it tested. The last line is `N agree, M differ`.
"""

import collections
import hashlib
import itertools
import os
import sys
import tempfile

from tpmsim.caller import area, BY_OWNER, CLEAR, counter, sealed, STATE, storage_key
from tpmsim.caller.prepared_commands import PreparedCommands
from tpmsim.model import image, nv_commands
from tpmsim.model.capability import HANDLES, PROPERTIES
from tpmsim.standard import ALG_NULL, CC, frames, lines, nv, NV, PERSISTENT, RH_ENDORSEMENT
from tpmsim.standard import RH_NULL, RH_OWNER, RH_PLATFORM, SHA1, SHA256, SYMCIPHER, TRANSIENT
from tpmsim.standard.handle_kinds import first_byte
from tpmsim.standard.objects import Attribute
from tests.at_random import served_runs as serving
from tests.common import streams
from tests.images import version_1

PRIMARY = RH_OWNER, RH_ENDORSEMENT, RH_PLATFORM, RH_NULL
WITH_VALUES = RH_OWNER, RH_ENDORSEMENT, RH_PLATFORM
AT_ONCE = 1024
FIRST_TRANSIENT, NEW_COUNTER, LAST_INDEX = 0x8000_0000, 0x0111_1111, 0x01FF_FFFE

# The positions of Time and Clock in the response to TPM2_ReadClock.
TIME, CLOCK = slice(10, 18), slice(18, 26)

# The offset of the version's lower byte in an image.
VERSION = 5


class Commands(PreparedCommands):
    """Makes commands for a device in its present state, with its authorization values."""

    def __init__(self, device):
        super().__init__()
        self.device = device

    def auth_value(self, handle):
        return self.device.auth_value(handle)

    def use(self, handle):
        """Returns a command that needs the sensitive area of an object."""
        public = self.device.objects[handle].public
        if public.kind == SYMCIPHER:
            return self.child(handle, sealed(), user_auth=b"auth", data=b"data")
        if public.has(Attribute.SIGN):
            algorithm = SHA256 if public.scheme == ALG_NULL else public.scheme
            return self.hmac(handle, b"data", algorithm)
        return self.unsealing(handle)

    def asker(self, index):
        """Returns the handle that can authorize reading and writing an index."""
        public = self.device.indices[index].public
        if public.has(nv.Attribute.OWNERREAD):
            return RH_OWNER
        return RH_PLATFORM if public.has(nv.Attribute.PPREAD) else index

    def persistent(self):
        return sorted(it for it in self.device.objects if first_byte(it) == PERSISTENT)


def looks(tpm):
    """Yields commands that read all readable state, a command on a session that no longer exists,
    and commands that use each secret.
    """
    for first in (NV, frames.HMAC_SESSION, TRANSIENT, PERSISTENT):
        yield tpm.capability(HANDLES, first << 24, 64)
    yield tpm.command("PolicyGetDigest", 0x0300_0000)
    yield tpm.capability(PROPERTIES, 0x100, 64)
    for bank, first in itertools.product((SHA1, SHA256), (0, 8, 16)):
        yield tpm.asked(CC.PCR_Read, [], (), [(bank, range(first, first + 8))])
    for handle in tpm.persistent():
        yield tpm.public(handle)
        yield tpm.use(handle)
    for index, held in sorted(tpm.device.indices.items()):
        yield tpm.index_public(index)
        size = held.public.data_size
        for offset in range(0, max(size, 1), AT_ONCE):
            at_once = min(AT_ONCE, size - offset)
            yield tpm.reading(index, at_once, offset=offset, by=tpm.asker(index))
    for hierarchy in PRIMARY:
        yield tpm.primary(hierarchy, storage_key())
        yield tpm.flush(FIRST_TRANSIENT)


def changes(tpm):
    """Yields commands that depend on the largest value of counters or on authorization values, and
    commands with wrong passwords. One command defines another index, even if the image has the
    maximum number of indices of its version.
    """
    for index, held in sorted(tpm.device.indices.items()):
        if held.public.kind == nv.Type.COUNTER:
            yield tpm.incrementing(index, by=tpm.asker(index))
            yield tpm.reading(index, nv.NUMBER_BYTES, by=tpm.asker(index))
    yield tpm.defining(counter(NEW_COUNTER, BY_OWNER))
    yield tpm.incrementing(NEW_COUNTER, by=RH_OWNER)
    yield tpm.reading(NEW_COUNTER, nv.NUMBER_BYTES, by=RH_OWNER)
    yield tpm.event(b"event", b"", pcr=5)
    for hierarchy in WITH_VALUES:
        yield tpm.change_auth(hierarchy, b"new", tpm.auth_value(hierarchy))
    for handle in tpm.persistent():
        yield tpm.unsealing(handle, b"wrong")
    yield tpm.lock_reset()
    yield tpm.lock_reset(b"wrong")


def resumed(tpm):
    """Yields TPM2_Startup(STATE); TPM2_Startup(CLEAR), in case no state was saved; the commands of
    `looks` and `changes`; and TPM2_Shutdown(STATE).
    """
    yield tpm.starting(STATE)
    yield tpm.starting(CLEAR)
    yield from looks(tpm)
    yield from changes(tpm)
    yield tpm.shutting_down(STATE)


def restarted(tpm):
    """Yields TPM2_Startup(CLEAR), which may be a restart, and TPM2_Clear, which removes the owner's
    entities unless it is disabled. Then yields the commands of `looks`.
    """
    yield tpm.starting(CLEAR)
    yield tpm.clearing(RH_PLATFORM)
    yield from looks(tpm)


# The comparison.


def taken(text, commands):
    """Yields the buffers of commands. Each command is made for the state of the device after the
    previous commands.
    """
    device = image.open_image(text)
    for prepared in commands(Commands(device)):
        buffer = prepared.buffer()
        yield buffer
        device.execute(buffer, 0, streams.random_of(buffer))


def executed(device, buffers, clock):
    """Returns the outcomes of commands on the Python device. As much time passes as the program
    measured: the last command is TPM2_ReadClock, and `clock` is the program's response to it.
    TPM2_Clear sets Clock to 0, so the time before TPM2_Clear is the difference of Time and Clock.
    The rest of the time passes before the last command.
    """
    time, clock = int.from_bytes(clock[TIME], "big"), int.from_bytes(clock[CLOCK], "big")
    before_clear = max(time - clock, 0)
    elapsed = [before_clear if is_clear(it) else 0 for it in buffers]
    elapsed[-1] = time - sum(elapsed)
    return [
        device.execute(buffer, 0, streams.random_of(buffer), it)
        for buffer, it in zip(buffers, elapsed)
    ]


def is_clear(buffer):
    return buffer[6:10] == frames.number(CC.Clear, 4)


def told(outcomes):
    """Yields a line for each kind of command, with the number of commands for each outcome."""
    counts = {}
    for outcome in outcomes:
        refused = outcome.refused or "SUCCESS"
        counts.setdefault(CC(outcome.row.code).name, collections.Counter())[refused] += 1
    for name, came in counts.items():
        yield f"{name}: " + ", ".join(f"{count} {it}" for it, count in sorted(came.items()))


class Comparison:
    def __init__(self, program, path):
        self.folder = serving.Folder(program, path)
        self.agree, self.differ = 0, 0

    def check(self, holds, words):
        """Counts a check, and prints what was tested or what differs."""
        self.agree, self.differ = self.agree + holds, self.differ + (not holds)
        print(f"    {words}" if holds else f"    DIFFERS: {words}", flush=True)

    def run(self, text, buffers, connections=1):
        """Runs the program on an image. Returns its responses, its error message, and the image
        that it saves.
        """
        run = streams.Run(0, 0, text, True, b"".join(map(streams.random_of, buffers)))
        run.connections = [streams.Connection(AT_ONCE) for _ in range(connections)]
        for connection in run.connections:
            connection.sent = b"".join(buffers)
        answers, error, _ = self.folder.serve(run)
        return answers, error, self.folder.image.read_bytes()

    def kept(self, text, device):
        """Checks a stored image. The Python device must have the same image after the image's
        script.
        """
        opened = image.open_image(text)
        again, of_script = version_1.image_of(opened), version_1.image_of(device)
        self.check(again == text, "the device in Python opens it, and has this image")
        self.check(of_script == text, "the one behind its script has this image")
        wanted = [[]], "", image.image(opened)
        self.check(self.run(text, []) == wanted, "the program opens it, and saves it as version 2")
        self.check(self.run(wanted[2], []) == wanted, "it opens that, and saves it as it is")

    def opened(self, text, words, commands):
        """Executes commands, and then TPM2_ReadClock, on the device of an image. Compares all
        results.
        """
        buffers = [*taken(text, commands), lines.assemble(b"ReadClock")]
        (answers,), error, saved = self.run(text, buffers)
        device = image.open_image(text)
        outcomes = executed(device, buffers, answers[-1] if answers else b"")
        wanted = [it.response for it in outcomes]
        self.check((answers, error) == (wanted, ""), f"{words}, it answers the same")
        for buffer, response, answer in zip(buffers, wanted, answers):
            if response != answer:
                shown = lines.line_of(buffer) or buffer.hex()
                print(f"        {shown}: {response.hex()} is wanted, {answer.hex()} is given")
        for it in told(outcomes):
            print(f"        {it}")
        self.check(saved == image.image(device), f"{words}, it saves the same")

    def refused(self, fault, text, words):
        """Checks that the program refuses a text with this fault, because it is not an image."""
        _, error, left = self.run(text, [], connections=0)
        holds = image.fault_of(text) == fault and error == f"tpmsim: image {fault}"
        self.check(holds and left == text, f"{words}: {fault}")


def changed(text, at, byte):
    return text[:at] + bytes([byte]) + text[at + 1 :]


def damaged(text):
    last = len(text) - 1
    yield "Short", text[:41], "its first 41 bytes"
    yield "Magic", changed(text, 0, text[0] ^ 1), "with its first byte changed"
    yield "Version", changed(text, VERSION, 3), "with version 3"
    yield "Length", text[:-1], "without its last byte"
    yield "Length", text + b"\0", "with a byte behind it"
    yield "Digest", changed(text, last, text[last] ^ 1), "with its last byte changed"


def beyond_limits(text):
    """Yields images of a full device that exceed the limits of version 1, by one index or by one
    byte of data.
    """
    device = image.open_image(text)
    device.indices[LAST_INDEX] = nv_commands.Index(area(LAST_INDEX, BY_OWNER, size=0), b"", b"")
    assert len(device.indices) == image.VERSION_1.indices + 1
    yield "Body", version_1.image_of(device), "with an index more, of no bytes"

    device = image.open_image(text)
    index, held = next(it for it in device.indices.items() if it[1].public.data_size == 0)
    public = area(index, held.public.attributes & ~nv.Attribute.WRITTEN, size=1)
    device.indices[index] = nv_commands.Index(public, held.auth_value, b"")
    taken = sum(it.public.data_size for it in device.indices.values())
    assert taken == image.VERSION_1.all_bytes + 1
    yield "Body", version_1.image_of(device), "with a byte of data more"


(program,) = sys.argv[1:]
with tempfile.TemporaryDirectory() as path:
    comparison = Comparison(os.path.abspath(program), path)
    for name in version_1.NAMES:
        text = version_1.kept(name)
        digest = hashlib.sha256(text).hexdigest()
        print(f"{name}: {len(text):,} bytes, whose SHA-256 is {digest}")
        comparison.kept(text, version_1.device_of(name))
        comparison.opened(text, "resumed", resumed)
        comparison.opened(text, "restarted", restarted)
        for refused in damaged(text):
            comparison.refused(*refused)
    for refused in beyond_limits(version_1.kept("full")):
        comparison.refused(*refused)
print(f"{comparison.agree:,} agree, {comparison.differ:,} differ")
sys.exit(comparison.differ > 0)
