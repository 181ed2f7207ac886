"""Tests hash, HMAC and event sequences: hashes in progress, their state texts, and explanations of
commands on sequences. tests/library/sequences.py tests the responses.
"""

import hashlib
import hmac
import random
import unittest

from completed_model import CompletedModel
from recorded_case import RecordedCase
from tpmsim.audit.auditor import report
from tpmsim.device import ModelDevice
from tpmsim.model import image, sequence_text, state_text
from tpmsim.model.hash_states import BLOCK, HashState, HmacState
from tpmsim.model.machine import Model
from tpmsim.model.sequences import EventSequence, GENERATED_VALUE, HashSequence, HmacSequence
from tpmsim.model.sequences import SequenceObject
from tpmsim.model.state_text import Layer
from tpmsim.standard import ALG_NULL, CC, command, number, SHA1, SHA256
from tests.common.hashed_sessions import HASHES
from tests.common.layer import Client
from tests.common.layer_commands import event_complete, FIRST, hmac_start, start, update
from tests.library.sequences import GUARDED

SIZES = 0, 1, 3, 55, 56, 63, 64, 65, 119, 120, 127, 128, 129

# FIPS 180-4: "abc" with its padding is one block, and the hash state after this block is the digest
# of "abc".
ABC = b"abc\x80" + bytes(52) + number(24, 8)
OF_ABC = {
    SHA1: "a9993e364706816aba3e25717850c26c9cd0d89d",
    SHA256: "ba7816bf8f01cfea414140de5dae2223b00361a396177a9cb410ff61f20015ad",
}


def words_text(state):
    return b"".join(number(it, 4) for it in state.words).hex()


class States(unittest.TestCase):
    def test_cuts(self):
        """A digest or an HMAC equals that of hashlib, however the data are divided."""
        chance = random.Random(1)
        for algorithm, name in HASHES.items():
            for size in SIZES:
                data, key = chance.randbytes(size), chance.randbytes(size)
                wanted = hashlib.new(name, data).digest(), hmac.digest(key, data, name)
                empty = HashState.empty(algorithm), HmacState.of_key(algorithm, key)
                for at in range(size + 1):
                    found = tuple(it.after(data[:at]).after(data[at:]).digest for it in empty)
                    self.assertEqual(found, wanted, f"{name} of {size} bytes, cut at {at}")

    def test_the_words(self):
        """The hash state, the block and the length are those of FIPS 180-4. In the block, the bytes
        after the latest byte are those of the previous block.
        """
        for algorithm, digest in OF_ABC.items():
            state = HashState.empty(algorithm).after(b"abc")
            begun = HashState.empty(algorithm).words
            self.assertEqual((state.words, state.length), (begun, 3))
            self.assertEqual(state.block, b"abc" + bytes(BLOCK - 3))
            state = HashState.empty(algorithm).after(ABC)
            self.assertEqual((words_text(state), state.block, state.length), (digest, ABC, 64))
            state = state.after(b"xy")
            self.assertEqual((words_text(state), state.length), (digest, 66))
            self.assertEqual(state.block, b"xy" + ABC[2:])

    def test_the_length(self):
        """The number of bytes is counted modulo 2^64, like the number of bits in the padding."""
        state = HashState(SHA256, HashState.empty(SHA256).words, bytes(BLOCK), 2**64 - 1)
        self.assertEqual(state.after(b"\1").length, 0)
        self.assertNotEqual(state.after(b"\1").words, state.words)

    def test_beginnings(self):
        """A sequence knows whether its data begin with TPM_GENERATED_VALUE."""
        for data, wanted in (
            *((GENERATED_VALUE[:size], size) for size in range(5)),
            *((GENERATED_VALUE[:size] + b"x", 5) for size in range(4)),
            (GENERATED_VALUE + b"x", 4),
            (b"x" + GENERATED_VALUE, 5),
        ):
            for at in range(len(data) + 1):
                found = HashSequence.of(SHA256).after(data[:at]).after(data[at:])
                self.assertEqual(found.beginning, wanted, data)


def held_objects():
    key = HmacSequence(HmacState.of_key(SHA1, b"key"))
    for sequence in (HashSequence.of(SHA1), HashSequence.of(SHA256), EventSequence(), key):
        yield SequenceObject.of(b"pin", sequence)
        yield SequenceObject.of(b"", sequence.after(bytes(range(200))))


class Texts(unittest.TestCase):
    def text(self, *slots):
        layer = Layer(7, 1)
        layer.sequences[: len(slots)] = slots
        return state_text.state_text(Model(), layer)

    def test_each_kind(self):
        """A state text with sequence objects is read as the same objects, in the same slots."""
        for held in held_objects():
            for slots in ([held], [None, held, None], [held] * 3):
                text = self.text(*slots)
                device, layer = state_text.open_state(text)
                self.assertEqual(layer.sequences, (slots + [None, None])[:3])
                self.assertEqual(state_text.state_text(device, layer), text)

    def test_without_sequences(self):
        """The text of a layer without sequence objects is the same as before sequence objects
        existed.
        """
        text = state_text.state_text(Model(), Layer(7, 1))
        body = state_text.device_text(Model()) + b"\1" + number(7, 8) + number(1, 8) + bytes(128)
        self.assertEqual(text, state_text.framed(body))
        self.assertEqual(len(text), 1811)

    def test_faults(self):
        """Each byte of a slot that may have only a few values is checked."""
        held = SequenceObject.of(b"pin", HashSequence.of(SHA256))
        body = self.text(held)[image.HEAD_BYTES : -image.DIGEST_AT_END]
        slots = sequence_text.slots_text([held, None, None])
        head = len(body) - len(slots)
        self.assertEqual(len(slots), 1 + 32 + 2 + 32 + 64 + 8 + 1 + 2)
        for at, values in (
            (head, (4,)),
            (head + 34, (0x0C,)),
            (head + 139, (6,)),
            (head + 140, (4,)),
        ):
            for value in values:
                bent = state_text.framed(body[:at] + bytes([value]) + body[at + 1 :])
                self.assertEqual(state_text.fault_of(bent), "Body", (at - head, value))
        layer = body[: head - 144]
        for words, bent in (
            ("a layer with sequences, without slots", body[:head]),
            ("two slots", body[:-1]),
            ("four slots", body + b"\0"),
            ("three free slots", body[:head] + bytes(3)),
            ("slots after a layer without sequences", layer[:-1] + b"\1" + body[head - 144 :]),
            ("another byte for the layer", layer[:-1] + b"\3" + body[head - 144 :]),
        ):
            self.assertEqual(state_text.fault_of(state_text.framed(bent)), "Body", words)


class Explained(RecordedCase):
    """Tests the explanations of commands on sequences, and the audit."""

    def test_a_key(self):
        """If the device refuses the command that the layer sends, the explanation states the
        device's reason.
        """
        key = self.client.key(b"key", b"pin", GUARDED)
        self.told(
            hmac_start(key, password=b"wrong"),
            "98e",
            "HMAC_Start is refused: AUTH_FAIL/s1 (98e), by the completing layer",
            "The completing layer: the device refuses the layer's TPM2_HMAC.",
            "The password of the entry is not the authValue of 80000000",
        )
        accepted = "HMAC_Start is accepted, by the completing layer"
        self.told(hmac_start(key, password=b"pin"), "000", accepted)
        auditor = self.audited()
        self.assertEqual((auditor.counts.accepted, auditor.counts.layer), (3, 1))
        told = " ".join(report(auditor))
        self.assertIn("HMAC by password is refused by AUTH_FAIL/s1", told)

    def test_a_pcr(self):
        """The audit knows the PCR that an event sequence extended."""
        handle = self.client.started(start(ALG_NULL, b"pin"))
        self.told(
            update(handle, b"data"),
            "9a2",
            "SequenceUpdate is refused: BAD_AUTH/s1 (9a2), by the completing layer",
            "the password is not that of the event sequence 80000008",
        )
        late, right = (event_complete(it, handle, b"data", (b"", b"pin")) for it in (17, 16))
        self.told(late, "907", "refused: LOCALITY (907)")
        self.client.done(right)
        wanted = hashlib.sha1(bytes(20) + hashlib.sha1(b"data").digest()).digest()
        self.assertEqual(self.device.model.banks[SHA1][16], wanted)
        self.audited()

    def test_power(self):
        """A device that continues from a state text keeps its sequences until a power cycle."""
        handle = self.client.started(start(SHA1))
        self.device.journal.go_on(self.device.completion.numbers)
        added = "4 bytes are added to the hash sequence 80000008"
        self.told(update(handle, b"data"), "000", added)
        self.device.power_cycle()
        self.assertEqual(self.device.completion.sequences, [None] * 3)


class Without(unittest.TestCase):
    """Tests sequences of a device without the layer."""

    def setUp(self):
        self.device = self.enterContext(CompletedModel())
        self.client = Client(self.device)
        self.client.done(start(SHA1))

    def test_a_restored_device(self):
        """A device without the layer keeps the sequences of a state text until a power cycle."""
        with ModelDevice() as other:
            other.restore(self.client.state())
            other.execute(command(CC.GetRandom, number(4, 2)))
            self.assertTrue(any(other.layer.sequences))
            other.power_cycle()
            self.assertEqual(state_text.open_state(other.state())[1].sequences, [None] * 3)

    def test_the_layer(self):
        """Without the layer, sequences are neither served nor changed."""
        before = list(self.device.completion.sequences)
        self.device.completes = False
        self.assertEqual(self.client.code(update(FIRST, b"data")), "143")
        self.assertEqual(self.device.did, "the hash sequence 80000008 starts")
        self.assertEqual(self.device.completion.sequences, before)


if __name__ == "__main__":
    unittest.main()
