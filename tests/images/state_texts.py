"""Tests how the Python device writes and reads state texts:

    state_texts.py

The test plays scripts in the folders SCRIPTS, but not the exhaustive ones. After each command, the device is opened
again from its state text. Each response must be the one in the file next to the script. A text with
an error must be refused with the right fault. If a text is accepted, the device's state text must
be the same text.
"""

import collections
import hmac

from tpmsim.model import image, state_text
from tpmsim.model.image import DIGEST_AT_END, HEAD_BYTES
from tpmsim.model.machine import Model
from tpmsim.model.player import Player
from tpmsim.standard import frames
from tests.common import places
from tests.common.made import EXHAUSTIVE
from tests.images import state_bodies, worked_state
from tests.images.state_bodies import LAYER_BYTES

SCRIPTS = "tests/objects", "tests/policies", "tests/sessions"

# Only one in every ONE_IN scripts is played, and only one in every ONE_IN bytes of a body is
# changed.
ONE_IN = 3


def goes_on(text):
    """Returns the device in a state text, and checks that this device has the same state text."""
    device, layer = state_text.open_state(text)
    assert layer is None and state_text.state_text(device) == text
    return device


def played(script):
    """Plays a script, and opens the device from its state text after each command. Returns the
    number of commands, and the number of wrong responses.
    """
    player, responses = Player(), []
    for line in script.read_bytes().splitlines():
        responses += player.play(line)[1:]
        player.device = goes_on(state_text.state_text(player.device))
    printed = script.with_suffix(".out").read_text("ascii").splitlines()
    wanted = [it for it in printed if it != "power"]
    assert len(wanted) == len(responses), script
    return len(responses), sum(map(str.__ne__, wanted, responses))


def play_all():
    scripts = sorted(it for it in places.scripts(*SCRIPTS) if it.stem not in EXHAUSTIVE)
    counts = [played(it) for it in scripts[::ONE_IN]]
    commands, differ = map(sum, zip(*counts))
    print(f"{len(counts)} scripts, {commands:,} commands: {differ} responses differ")


def worked():
    """Checks that the state text of worked_state.py's device is the one in the file. No field of
    that device is empty. Each line of the file was compared by hand with docs/table/state_text.md:
    it is the next field of that page, with the right size. Other numbers were also compared: the
    sizes before sized fields; the numbers of types, algorithms, protection, demand and localities;
    and the byte of each slot that says whether it is in use. The values that the script sets
    (values, nonces, command, times, counts, the layer's numbers) are in the right fields.
    """
    text = worked_state.text()
    print("the worked text is as it is written:", text == worked_state.written())
    device, layer = state_text.open_state(text)
    print("and is read:", state_text.state_text(device, layer) == text)
    worked_sequences(text)


def worked_sequences(text):
    """Checks the state text of the same device with three sequence objects. Their fields are in a
    separate file, and the byte that says whether there is a layer is 2. No standard states the
    value of the HMAC's outer hash state, so the HMAC is compared with that of another
    implementation.
    """
    layer = worked_state.layer_with_sequences()
    slots, kind = worked_state.written(worked_state.SEQUENCES), -DIGEST_AT_END - LAYER_BYTES - 1
    body = text[HEAD_BYTES:kind] + b"\2" + text[kind + 1 : -DIGEST_AT_END] + slots
    written = state_text.framed(body)
    same = state_text.state_text(worked_state.device(), layer) == written
    print("with sequences, it is as it is written:", same)
    device, layer = state_text.open_state(written)
    print("and is read:", state_text.state_text(device, layer) == written)
    found = layer.sequences[2].sequence.state.digest
    print("and its HMAC is right:", found == hmac.digest(worked_state.KEY, b"", "sha256"))


def profiles(text):
    """Checks that the text of a device of the complete profile differs only in its version."""
    complete = image.digested(3, text[HEAD_BYTES:-DIGEST_AT_END], state_text.MAGIC)
    device, layer = state_text.open_state(complete)
    print("version 3 has the profile", device.profile.name)
    print("and is read:", state_text.state_text(device, layer) == complete)


def sizes():
    """Prints the sizes of state texts that docs/table/state_text.md states."""
    print(f"a new device has {len(state_text.state_text(Model())):,} bytes")
    most = state_text.state_text(*state_bodies.largest())
    same = state_text.state_text(*state_text.open_state(most)) == most
    print(f"the largest has {len(most):,}, and is {'read' if same else 'not read'}")


def faults_of(texts):
    """Counts the texts by fault. The key `None` is for texts without a fault."""
    return collections.Counter(map(state_text.fault_of, texts))


def print_counts(words, counts):
    told = ", ".join(f"{count:,} {fault or 'read'}" for fault, count in sorted(counts.items()))
    print(f"{words}: {told}")


def turned(text, at):
    return text[:at] + bytes([text[at] ^ 1]) + text[at + 1 :]


def refused(text):
    print_counts("its prefixes", faults_of(text[:size] for size in range(len(text))))
    print_counts("with a byte turned", faults_of(turned(text, at) for at in range(len(text))))
    print_counts("with a byte behind it", faults_of([text + b"\0"]))


def corrected(text):
    """Changes bytes of the body, one at a time, and corrects the head and the digest."""
    body, counts = text[HEAD_BYTES:-DIGEST_AT_END], collections.Counter()
    for at in range(0, len(body), ONE_IN):
        framed = state_text.framed(turned(body, at))
        try:
            device, layer = state_text.open_state(framed)
        except image.Fault as fault:
            counts[str(fault)] += 1
        else:
            same = state_text.state_text(device, layer) == framed
            counts["read and written alike" if same else "read and written otherwise"] += 1
    print_counts("a byte turned, with the right digest", counts)


def frames_with_one_thing_wrong(text):
    for words, bent in (
        ("another word", b"TPMI" + text[4:]),
        ("version 0", text[:4] + frames.number(0, 2) + text[6:]),
        ("version 4", text[:4] + frames.number(4, 2) + text[6:]),
        ("version 2, called version 1", text[:4] + frames.number(1, 2) + text[6:]),
        ("version 2, called version 3", text[:4] + frames.number(3, 2) + text[6:]),
        ("version 1", image.digested(1, text[HEAD_BYTES:-DIGEST_AT_END], state_text.MAGIC)),
        ("a length of one more", text[:6] + frames.number(len(text) + 1, 4) + text[10:]),
        ("an image", image.image(Model())),
    ):
        print(f"{words}: {state_text.fault_of(bent)}")


def bodies():
    for words, bad, good in state_bodies.pairs():
        told = [state_text.fault_of(state_text.framed(it)) for it in (bad, good)]
        print(f"{words}: {told[0]}" + ("" if told[1] is None else f", and the good one {told[1]}"))


def main():
    play_all()
    worked()
    sizes()
    text = worked_state.text()
    profiles(text)
    refused(text)
    corrected(text)
    frames_with_one_thing_wrong(text)
    bodies()


if __name__ == "__main__":
    main()
