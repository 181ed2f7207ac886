"""Opens damaged images with a program, and compares its responses with those of the Python device:

    damaged_images.py PROGRAM                      images of a device that saved its state, in both
                                                   versions, and bodies with one error each
    damaged_images.py PROGRAM full [SEED [COUNT]]  the largest image, and COUNT altered bodies of
                                                   a full device

For each kind of damage the test prints the number of damaged images, and their faults. It prints a
line for each difference. The last line is `N agree, M differ`. The test works in the current
folder, and saves the first images that differ to files, whose names it prints.
"""

import collections
import os
import pathlib
import socket
import sys

from tests.common import client
from tests.common.shims import Ending, SERVE, Shim, Turns, WELL

from tpmsim.model import image
from tpmsim.model.machine import Model
from tpmsim.standard import lines, Profile
from tests.images import image_bodies
from tests.images import image_cases
from tests.images.bent_bodies import Bender, Body

STATUS_OF_FAULT, FAULT = 4, "tpmsim: image "
EXTEND = "PCR_Extend {} pw:- sha1:a9993e364706816aba3e25717850c26c9cd0d89d"
LINES = "Startup 0", EXTEND.format("00000003"), EXTEND.format("00000010"), "Shutdown 1"
SUCCESS = bytes(4)
RANDOM = bytes(range(256))
SEED, BENT = 1, 300
DEFAULTS = [1, 10_000]
MOST_LEFT = 100

# In a long series of images, the program opens only the first FIRST images, and then every STEP-th
# image. STEP must not divide the number of ways to change a byte. The library opens all images.
FIRST, STEP = 100, 11

# The device's clock in the damaged image, instead of the time that really passed.
CLOCK = 0x0102_0304


class Program:
    """A program that serves a device, with a new run for each image. In the runs of `opening` no
    client connects; in those of `saving` one does.
    """

    # The profiles of the devices whose images the program opens.
    profiles = (Profile.SYMMETRIC,)

    def __init__(self, opening, saving):
        self.opening, self.saving = opening, saving
        pathlib.Path("entropy").write_bytes(RANDOM * (len(LINES) + 1))

    @staticmethod
    def place(text):
        """Writes the image as a new file. If an existing file were overwritten, the system might
        write it to disk at once.
        """
        path = pathlib.Path("image")
        path.unlink(missing_ok=True)
        path.write_bytes(text)

    def end(self, runs):
        """Returns the fault that the program reported, None if the run succeeded, or a description
        of any other result.
        """
        given = runs.ended()
        fault = given.error.decode("ascii", "replace").removeprefix(FAULT).removesuffix("\n")
        if given == Ending(STATUS_OF_FAULT, error=f"{FAULT}{fault}\n".encode()):
            return fault
        return None if given == WELL else f"{given}"

    def fault_of(self, text):
        """Returns the fault that the program reports for an image, or None. The program does not
        save the image again.
        """
        self.place(text)
        self.opening.begin()
        return self.end(self.opening)

    def saved(self, commands):
        """Returns the image that the program saves after a connection that sends these commands."""
        self.saving.begin()
        connection = client.connected("socket")
        connection.sendall(commands)
        connection.shutdown(socket.SHUT_WR)
        client.received(connection)
        connection.close()
        assert self.end(self.saving) is None
        return pathlib.Path("image").read_bytes()

    def saved_again(self, text):
        self.place(text)
        return self.saved(b"")


class Comparison:
    """Compares the program with the Python device. In a long series of images, it compares the
    results for the first images, and then for every `step`-th image.
    """

    def __init__(self, program, step):
        self.program, self.step, self.agree, self.differ = program, step, 0, 0
        self.saved = set()

    def count(self, agrees, words, text):
        if agrees:
            self.agree += 1
            return
        self.differ += 1
        print(f"DIFFERS: {words}", flush=True)
        if self.differ <= MOST_LEFT:
            name = os.path.abspath(f"differs.{self.differ}")
            pathlib.Path(name).write_bytes(text)
            print(f"    {name}", flush=True)

    def fault_of(self, words, text):
        """Returns the Python device's fault for an image, and checks that the program reports the
        same fault.
        """
        wanted, given = image.fault_of(text, self.program.profiles), self.program.fault_of(text)
        words = f"{words}: {wanted or 'opened'} is wanted, {given or 'opened'} is given"
        self.count(given == wanted, words, text)
        return wanted or "opened"

    def kind(self, name, texts):
        """Prints how many images with one kind of damage have each fault. Each image has a
        description.
        """
        faults = collections.Counter(self.fault_of(f"{name}, {words}", it) for words, it in texts)
        told = ", ".join(f"{count:,} {fault}" for fault, count in sorted(faults.items()))
        print(f"{name}: {sum(faults.values()):,} texts: {told}", flush=True)

    def series(self, name, texts):
        self.kind(name, (it for at, it in enumerate(texts) if at < FIRST or at % self.step == 0))

    def is_saved_again(self, words, text):
        """Checks that a device that opens an image saves the same image in version 2. Each image is
        tried once. Images that the program refuses are skipped.
        """
        if text in self.saved or self.program.fault_of(text) is not None:
            return
        self.saved.add(text)
        again, wanted = self.program.saved_again(text), image.image(image.open_image(text))
        self.count(again == wanted, f"{words}: another image is saved", text)

    def case(self, case):
        """Checks a described case. A good image must be opened, and saved again unchanged. A bad
        image must have the fault Body.
        """
        wanted = "opened" if case.is_good else "Body"
        given = self.fault_of(case.words, case.text)
        self.count(given == wanted, f"{case.words}: by the device in Python {given}", case.text)
        if case.is_good:
            self.is_saved_again(case.words, case.text)
        return f"{wanted}: {case.words}"


# The kinds of damage.


def prefixes(text):
    return ((f"of {size} bytes", text[:size]) for size in range(len(text)))


def changed(text, places, changes):
    """Yields copies of the text with one byte changed: at each offset in `places`, in each way in
    `changes`.
    """
    for at in places:
        for change in changes:
            value = change(text[at])
            yield f"{at} is {value:02x}", text[:at] + bytes([value]) + text[at + 1 :]


ALL_WAYS = [lambda byte, added=added: byte + added & 0xFF for added in range(1, 256)]

# Ways to change a byte: flip its lowest bit; flip its highest bit; add one if the lowest bit is
# set, else subtract one. The last way flips at least the two lowest bits.
THREE_WAYS = (
    *(lambda byte: byte ^ 0x01, lambda byte: byte ^ 0x80),
    lambda byte: byte + (1 if byte & 1 else -1) & 0xFF,
)


def bent(device, seed, count, version=image.VERSION_2):
    bender, body = Bender(seed), Body(device)
    for number in range(1, count + 1):
        words, text = bender.bent(body, version)
        yield f"{number} of seed {seed}, {words}", text


def damage(comparison, text):
    comparison.kind("the image", [("whole", text)])
    comparison.series("its proper prefixes", prefixes(text))
    head, rest = range(image.HEAD_BYTES), range(image.HEAD_BYTES, len(text))
    comparison.series("a byte of its head, in all ways", changed(text, head, ALL_WAYS))
    comparison.series("a byte behind, in three ways", changed(text, rest, THREE_WAYS))
    longer = ((f"of {count} bytes", text + bytes(count)) for count in (1, 32, 1 << 16, 1 << 20))
    comparison.kind("it with bytes behind it", longer)


def device_that_saved(program):
    """Returns the Python device after it has executed LINES. The program must save the same image."""
    device = Model()
    commands = [lines.assemble(line.encode("ascii")) for line in LINES]
    for buffer in commands:
        assert device.execute(buffer, 0, RANDOM).response[6:10] == SUCCESS
    saved = program.saved(b"".join(commands))
    device.clock = image.open_image(saved).clock
    print(f"the program saved {'this' if image.image(device) == saved else 'ANOTHER'} image")
    device.clock = CLOCK
    return device


def in_the_gate(comparison):
    device = device_that_saved(comparison.program)
    damage(comparison, image.image(device))
    for words, it in ("its body", device), ("the body of a full device", image_bodies.FULL):
        comparison.kind(f"{words}, bent", bent(it, SEED, BENT))
    old = image.image(device, image.VERSION_1)
    comparison.kind("it in version 1", [("whole", old)])
    comparison.series("its proper prefixes", prefixes(old))
    comparison.kind("its body in version 1, bent", bent(device, SEED, BENT, image.VERSION_1))
    comparison.kind("version 2, a bit of its limits changed", image_cases.with_other_limits())
    comparison.kind("version 2, of 42 to 73 bytes", image_cases.without_state())
    told = []
    for case in image_bodies.cases():
        told.append(comparison.case(case))
        # Each group of cases ends with its good image.
        if case.is_good:
            print("; ".join(told))
            told = []


def of_a_full_device(comparison, seed, count):
    damage(comparison, image.image(image_bodies.largest()))
    old = image.image(image_bodies.largest(image.VERSION_1), image.VERSION_1)
    comparison.kind("the largest of version 1", [("whole", old)])
    comparison.series("its proper prefixes", prefixes(old))
    device = image_bodies.FULL
    comparison.kind("the body of a full device, bent", bent(device, seed, count))
    before = comparison.agree
    for words, text in bent(device, seed, count):
        if image.fault_of(text) is None:
            comparison.is_saved_again(words, text)
    again, different = comparison.agree - before, len(comparison.saved)
    print(f"{different:,} images among these: {again:,} saved again as they were")


def main(program, mode, step=1):
    comparison = Comparison(program, step)
    if mode[:1] == ["full"]:
        seed, count = (int(it) for it in (mode[1:] + DEFAULTS[len(mode) - 1 :]))
        of_a_full_device(comparison, seed, count)
    else:
        in_the_gate(comparison)
    print(f"{comparison.agree:,} agree, {comparison.differ:,} differ")
    sys.exit(comparison.differ > 0)


def main_of_program(path, mode):
    shim = Shim(os.path.abspath(path), "turns")
    with Turns(shim, [*SERVE, "0"]) as opening, Turns(shim, [*SERVE, "1"]) as saving:
        main(Program(opening, saving), mode, 1 if mode else STEP)


if __name__ == "__main__":
    main_of_program(sys.argv[1], sys.argv[2:])
