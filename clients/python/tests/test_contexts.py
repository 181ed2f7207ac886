"""Tests the contexts of transient objects and of sequence objects. They are compared byte by byte
with contexts that other programs computed. tests/library/contexts.py and saved_sequences.py test
the responses of the completing layer, which saves and loads contexts.
"""

import itertools
import shutil
import subprocess
import unittest
from dataclasses import dataclass

from completed_model import CompletedModel
from tpmsim.caller import hmac_key
from tpmsim.model import contexts, image, sequence_text
from tpmsim.model.completion_properties import Counts, properties
from tpmsim.model.hash_states import HmacState
from tpmsim.model.machine import Model
from tpmsim.model.object_rules import loaded, Object, read_public, read_sensitive
from tpmsim.model.parameters import Parameters
from tpmsim.model.sequences import EventSequence, HashSequence, HmacSequence, SequenceObject
from tpmsim.standard import aes, frames, number, RH_LOCKOUT, RH_NULL, RH_OWNER, RH_PLATFORM, SHA1
from tpmsim.standard import SHA256, sized
from tests.common.layer import Client
from tests.common.layer_commands import load, save, SECOND, start, THIRD

# A device whose proofs consist of the byte PROOF_BYTE.
PROOF_BYTE, START, RESETS, RESTARTS = 7, 0x1122334455667788, 3, 5
PROOF = bytes([PROOF_BYTE]) * 32

# Two HMAC keys: the first key lacks stClear, and the second key has it.
PUBLICS = "00100008000b0004044000000005000b0000", "00100008000b0004044400000005000b0000"
SENSITIVE = "000f00080001610002736400044a656665"

# The padded message "abc" of FIPS 180-4, which is one block.
ABC = b"abc\x80" + bytes(52) + number(24, 8)


def device_of(byte=PROOF_BYTE, resets=RESETS, restarts=RESTARTS):
    device = Model(bytes([byte]) * 256)
    device.reset_count, device.restart_count = resets, restarts
    return device


def key_of(public):
    areas = (Parameters(bytes.fromhex(it)) for it in (public, SENSITIVE))
    readers = read_public, read_sensitive
    public_area, sensitive = (it.structure(read) for it, read in zip(areas, readers))
    return loaded(public_area, sensitive, RH_OWNER, number(RH_OWNER, 4))


@dataclass(frozen=True)
class Known:
    """A key or a sequence object, and the text of its context."""

    held: Object | SequenceObject
    text: str

    @property
    def context(self) -> bytes:
        return bytes.fromhex(self.text)

    @property
    def plain(self) -> bytes:
        """The text that the context encrypts."""
        if isinstance(self.held, Object):
            return image.object_text(self.held)
        return sequence_text.object_text(self.held)


# Their contexts, with the sequence numbers 1 to 5, were computed with `hashlib`, `hmac`,
# `cryptography`, and for sequences with the compression functions of libcrypto. The contexts of the
# keys are also in crates/tpm_context_tests.
KNOWN = (
    Known(
        key_of(PUBLICS[0]),
        "00000000000000018000000040000001006d0020"
        "b19c79c3bd744f4025d6200d328b3e65512e9e6d3d28117ea7f5515233344192"
        "aaed5d5bb3029560a54898678a62cb8293e5b55ee605a0292294cd785a613502"
        "008238fea4630f8ba21b1e6cda1e1ab701ed1b04d66a3c7c12e445a177afc6dc890b2c79d24e887e7cbfd2",
    ),
    Known(
        key_of(PUBLICS[1]),
        "00000000000000028000000240000001006d0020"
        "e01cf9b099cef297d5f9d1ff55d8392d8c4ac98fb1ee96ac0a9888f760423a51"
        "f4dbb02e987a4e384c5a1d782c8018ad0c5b8e39642533b6b5c239adf8f29906"
        "3d92336a6ae62b8e0662c59b4a0a7ef21d1e9e2548daa675b6c1377c0505b7ab39c3edca158ed644f2eb55",
    ),
    Known(
        SequenceObject.of(b"pin", HashSequence.of(SHA256).after(b"abc")),
        "0000000000000003800000014000000700ae0020"
        "acfd731f99f6e30d63846441fa75954f4e2a9ca3c43af6d54f47a4bca6ff719c"
        "c9fe77f7c987ee57b1b1490a52dc87401e734e4a5bec96142326bfb3482f14249260a7599a56d8ff730c"
        "2c6908f4302bbfb453ca42aedeee98036f7090d0f505caf2b8222e80c55a469d023c6e23006050fdec1b"
        "84ff26b0f095428e053d6c157cc5b1d0e6cda81ebd0626d97073a6de54dcba45a80615936cad7c8fbc41"
        "aab38eae4ee4a094ab5a5fb3436d",
    ),
    Known(
        SequenceObject.of(b"", EventSequence().after(ABC + b"xy")),
        "00000000000000048000000140000007010b0020"
        "549133f051f45aac3e90d0b65c34a5b697b44971c119587730557f17a7a72025"
        "61c39ac47fcff53d56cf41c645e28f22bce0d6be0c269245122ec2153cefb435d351785f9019310af9c9"
        "ed58a52d2d0a7ee0706d8664fba73202aa51b4464610fe4d96bb098f5ea775ee4a0c7a62d13cc655128d"
        "3b610712e736d827a8c7247404f6d814e5b012a869bc676ad0fd2c652e5ff0d959f7c7721d670fa35d67"
        "11eb7517fbb6c9dfa825565843aa64fc45fb4a52761f1ad5909f5df6eb40ad57cf1df1b28445ebf69459"
        "c890940dfe3ab58b84daf7de277010dc5013d2f8cb5c8e8fce25107596afbeeb07008b17bb5db37106b7"
        "1da9f82358b144b91eb5065d3fb5ab936ca636b7877181",
    ),
    Known(
        SequenceObject.of(b"pin", HmacSequence(HmacState.of_key(SHA1, b"key")).after(b"data")),
        "0000000000000005800000014000000700ff0020"
        "8e6e17c83b5d03fe116684383a4c522b445852cc6637b65247353c7628538fb5"
        "fab328955b9a3b0df6c8989afc67d728f3ed7dc852046d4d7081905bf0f3f033b5a00707f8fc210da48c"
        "e6d278ba1edcf7efb7f993a79c1a911449b3b3ba6127b858726580258e29a3c6d9614c5becc8a01d0ce4"
        "d21588cfeb25a73d248ab7c8e06d327d78a147a2b284a8198c9d7a2816f26427ba59868b3b02bd0359f8"
        "e3714e1fc4271357faf76f762846a28c6f191fb1461d6c19bdbd5a8cfd3ec986d0ea5996e53664bb264e"
        "b22dce88057cefdb5bdadd1dd78fc4a778ae83d8d2deaff8774c75761133f777f1a16711ba73478d95b2"
        "ea90754d4352fc37320ac7",
    ),
)
KEY, ST_CLEAR, HASH, EVENT, HMAC = KNOWN
SEQUENCES = HASH, EVENT, HMAC

# The response codes, in hex.
TOO_MANY_CONTEXTS, REFERENCE_H0, INTEGRITY_P1 = "12e", "910", "1df"

# The offsets of the fields of a context.
SAVED_HANDLE_AT, HIERARCHY_AT, BLOB_SIZE_AT, BLOB_AT, INTEGRITY_AT, CIPHER_AT = (
    8,
    12,
    16,
    18,
    20,
    52,
)


def fault_of(context, device=None, start=START):
    """Returns the response code with which a wrong context is refused, or `opens` if it is not
    refused.
    """
    try:
        contexts.opened(device or device_of(), start, context)
    except contexts.Fault as fault:
        return fault.name
    return "opens"


def hmac_by_openssl(key, text):
    words = "openssl", "dgst", "-sha256", "-mac", "HMAC", "-macopt", f"hexkey:{key.hex()}"
    done = subprocess.run([*words, "-binary"], input=text, capture_output=True, check=True)
    return done.stdout


def made(head, plain):
    """Returns a context with this head and this decrypted text."""
    device = device_of()
    binding = contexts.Binding.of(device, START)
    cipher = aes.cfb_encrypt(*contexts.key_and_iv(PROOF, START, head), plain, device.block_cipher)
    right = contexts.integrity(PROOF, binding, head, cipher)
    return head.text + sized(sized(right) + cipher)


def turned_fault(at, turned):
    """Returns the response code for a context in which one bit of the byte at `at` is flipped."""
    if SAVED_HANDLE_AT <= at < HIERARCHY_AT:
        found = int.from_bytes(turned[SAVED_HANDLE_AT:HIERARCHY_AT], "big")
        return "INTEGRITY/p1" if found in contexts.SAVED_HANDLES else "HANDLE/p1"
    if HIERARCHY_AT <= at < BLOB_SIZE_AT:
        found = int.from_bytes(turned[HIERARCHY_AT:BLOB_SIZE_AT], "big")
        return "INTEGRITY/p1" if found in image.HIERARCHIES else "VALUE/p1"
    if at in (BLOB_SIZE_AT, BLOB_SIZE_AT + 1):
        size, left = int.from_bytes(turned[BLOB_SIZE_AT:BLOB_AT], "big"), len(turned) - BLOB_AT
        return "INSUFFICIENT/p1" if left < size <= contexts.BLOB_BYTES else "SIZE/p1"
    return "SIZE/p1" if at in (BLOB_AT, BLOB_AT + 1) else "INTEGRITY/p1"


class Computed(unittest.TestCase):
    """Tests contexts that other programs computed."""

    def test_contexts(self):
        for sequence, it in enumerate(KNOWN, 1):
            self.assertEqual(contexts.sealed(device_of(), START, sequence, it.held), it.context)
            self.assertEqual(contexts.opened(device_of(), START, it.context), it.held)

    def test_bindings(self):
        """A context is bound to the proof, the number of the layer's start, and resetCount. With
        stClear it is also bound to restartCount.
        """
        for it in KNOWN:
            for device, start_number, is_bound in (
                (device_of(restarts=RESTARTS + 1), START, it is ST_CLEAR),
                (device_of(resets=RESETS + 1), START, True),
                (device_of(byte=PROOF_BYTE + 1), START, True),
                (device_of(), START + 1, True),
                (device_of(), 0, True),
            ):
                wanted = "INTEGRITY/p1" if is_bound else "opens"
                self.assertEqual(fault_of(it.context, device, start_number), wanted)

    def test_the_null_proof(self):
        """The context of a sequence depends on the proof of the null hierarchy, and on no other
        proof.
        """
        device = device_of()
        device.proofs[RH_NULL] = bytes(32)
        self.assertEqual(fault_of(HASH.context, device), "INTEGRITY/p1")
        others = device_of(byte=PROOF_BYTE + 1)
        others.proofs[RH_NULL] = device_of().proofs[RH_NULL]
        self.assertEqual(fault_of(HASH.context, others), "opens")

    def test_each_bit(self):
        """Changing any bit of a context is detected. Only a wrong savedHandle, hierarchy or size
        has a response code of its own.
        """
        for it in KNOWN:
            for at, bit in itertools.product(range(len(it.context)), range(8)):
                turned = bytearray(it.context)
                turned[at] ^= 1 << bit
                self.assertEqual(fault_of(bytes(turned)), turned_fault(at, turned), (at, bit))

    def test_each_length(self):
        """A context that is truncated at any offset, or is too long, does not open."""
        for it in KNOWN:
            for size in range(len(it.context)):
                self.assertEqual(fault_of(it.context[:size]), "INSUFFICIENT/p1", size)
            self.assertEqual(fault_of(it.context + b"\0"), "SIZE/p1")

    def test_the_first_fault(self):
        """Tests the order of the faults. The context in each line has that line's fault and those
        of all later lines.
        """
        bad_handle, bad_hierarchy = number(0x80000003, 4), number(RH_LOCKOUT, 4)
        integrity = bytes(32)
        for it in (KEY, HASH):
            head = it.context[:BLOB_SIZE_AT]
            for context, wanted in (
                (head[:11], "INSUFFICIENT/p1"),
                (head[:8] + bad_handle, "HANDLE/p1"),
                (head[:8] + bad_handle + head[12:15], "HANDLE/p1"),
                (head[:8] + bad_handle + bad_hierarchy, "HANDLE/p1"),
                (head[:15], "INSUFFICIENT/p1"),
                (head[:12] + bad_hierarchy, "VALUE/p1"),
                (head[:12] + bad_hierarchy + b"\0", "VALUE/p1"),
                (head + number(contexts.BLOB_BYTES + 1, 2), "SIZE/p1"),
                (head + number(contexts.BLOB_BYTES, 2), "INSUFFICIENT/p1"),
                (head + sized(sized(integrity)) + b"\0", "SIZE/p1"),
                (head + sized(b""), "SIZE/p1"),
                (head + sized(sized(integrity)[:-1]), "SIZE/p1"),
                (head + sized(sized(integrity[1:])), "SIZE/p1"),
                (head + sized(sized(integrity + b"\0")), "SIZE/p1"),
                (head + sized(sized(integrity)), "INTEGRITY/p1"),
            ):
                self.assertEqual(fault_of(context), wanted, context.hex())

    def test_what_is_no_object(self):
        """A context is refused if its content is not the object that its head describes, even if
        its integrity value was made with the proof.
        """
        head, whole = contexts.Head.of(1, KEY.held), KEY.plain
        for other, plain in (
            (head, whole[:-1]),
            (head, whole + b"\0"),
            (head, b""),
            (contexts.Head(1, contexts.ST_CLEAR, RH_OWNER), whole),
            (contexts.Head(1, contexts.ORDINARY, RH_PLATFORM), whole),
            (contexts.Head(1, contexts.SEQUENCE, RH_OWNER), whole),
        ):
            self.assertEqual(fault_of(made(other, plain)), "INTEGRITY/p1")
        self.assertEqual(fault_of(made(head, whole)), "opens")

    def test_what_is_no_sequence(self):
        """A context with savedHandle 80000001 is refused if its content is not the text of exactly
        one taken slot, or if its hierarchy is not TPM_RH_NULL. This is so even if its integrity
        value was made with the proof.
        """
        head = contexts.Head(1, contexts.SEQUENCE, RH_NULL)
        for it in SEQUENCES:
            whole = it.plain
            self.assertEqual(fault_of(made(head, whole)), "opens")
            for size in range(len(whole)):
                self.assertEqual(fault_of(made(head, whole[:size])), "INTEGRITY/p1", size)
            for kind in (0, 4, 255, *((2, 3) if whole[0] == 1 else (1,))):
                bent = bytes([kind]) + whole[1:]
                self.assertEqual(fault_of(made(head, bent)), "INTEGRITY/p1", kind)
            for plain in (whole + b"\0", whole + bytes(9), b"\0", bytes(3), KEY.plain):
                self.assertEqual(fault_of(made(head, plain)), "INTEGRITY/p1", plain.hex())
            for hierarchy in set(image.HIERARCHIES) - {RH_NULL}:
                other = contexts.Head(1, contexts.SEQUENCE, hierarchy)
                self.assertEqual(fault_of(made(other, whole)), "INTEGRITY/p1")
            for saved_handle in (contexts.ORDINARY, contexts.ST_CLEAR):
                other = contexts.Head(1, saved_handle, RH_NULL)
                self.assertEqual(fault_of(made(other, whole)), "INTEGRITY/p1")

    def test_the_last_byte(self):
        """The last byte of a hash sequence, which says how its data begin, is at most 5. The
        sequence has one of two algorithms.
        """
        head = contexts.Head(1, contexts.SEQUENCE, RH_NULL)
        whole = HASH.plain
        for beginning in range(8):
            wanted = "opens" if beginning <= 5 else "INTEGRITY/p1"
            self.assertEqual(fault_of(made(head, whole[:-1] + bytes([beginning]))), wanted)
        bent = whole[:33] + number(0x0C, 2) + whole[35:]
        self.assertEqual(fault_of(made(head, bent)), "INTEGRITY/p1")

    @unittest.skipUnless(shutil.which("openssl"), "there is no openssl")
    def test_by_openssl(self):
        """For a context of each hierarchy and of each sequence, openssl computes the same integrity
        value, and decrypts the same text.
        """
        held = ST_CLEAR.held
        keys = [
            Known(loaded(held.public, held.sensitive, it, number(it, 4)), "")
            for it in image.HIERARCHIES
        ]
        for it in (*keys, *SEQUENCES):
            context = contexts.sealed(device_of(), START, 9, it.held)
            is_key = isinstance(it.held, Object)
            saved_handle = contexts.ST_CLEAR if is_key else contexts.SEQUENCE
            bound = number(9, 8) + number(saved_handle, 4)
            counts = number(START, 8) + number(RESETS, 4) + number(RESTARTS if is_key else 0, 4)
            integrity, cipher = context[INTEGRITY_AT:CIPHER_AT], context[CIPHER_AT:]
            is_platform = is_key and it.held.hierarchy == RH_PLATFORM
            proof = PROOF + PROOF if is_platform else PROOF
            self.assertEqual(integrity, hmac_by_openssl(proof, counts + bound + cipher))
            label = b"CONTEXT\0" + bound + number(START, 8) + number(256, 4)
            made_bytes = hmac_by_openssl(proof, number(1, 4) + label)
            words = "openssl", "enc", "-d", "-aes-128-cfb"
            with_key = "-K", made_bytes[:16].hex(), "-iv", made_bytes[16:].hex()
            done = subprocess.run(
                [*words, *with_key], input=cipher, capture_output=True, check=True
            )
            self.assertEqual(done.stdout, it.plain)


class OfLayer(unittest.TestCase):
    """Tests contexts that the completing layer saves and loads: what depends on values that no
    command can set.
    """

    def setUp(self):
        device = self.enterContext(CompletedModel(START))
        self.client, self.model, self.layer = Client(device), device.model, device.completion

    def fails_after(self, context, spoil):
        """Checks that a context can be loaded until `spoil` is called."""
        self.assertEqual(self.client.load_code(context), "000")
        spoil()
        self.assertEqual(self.client.load_code(context), INTEGRITY_P1)

    def of_sequence(self):
        return self.client.saved(self.client.started(start()))

    def test_clear(self):
        """TPM2_Clear changes the owner's proof, and sets resetCount to 0. A context of the owner
        cannot be loaded, even with the old resetCount.
        """
        resets = self.model.reset_count
        clear = lambda: self.client.tpm.call("Clear", RH_PLATFORM, uses=[b""])
        context = self.client.saved(self.client.key())
        self.fails_after(context, clear)
        self.model.reset_count = resets
        self.assertEqual(self.client.load_code(context), INTEGRITY_P1)

    def test_a_reset(self):
        """After a TPM Reset the context of a sequence is refused even if resetCount has the old
        value, since the null proof has changed.
        """

        def reset():
            resets = self.model.reset_count
            self.client.device.power_cycle()
            self.client.tpm.start_up()
            self.model.reset_count = resets

        self.fails_after(self.of_sequence(), reset)

    def test_another_layer(self):
        """A context is bound to the start of its layer. Another layer above the same device refuses
        it.
        """

        def start_again():
            self.layer.start += 1

        self.fails_after(self.client.saved(self.client.key()), start_again)
        self.fails_after(self.of_sequence(), start_again)

    def test_counts(self):
        """Contexts of objects, sequences and sessions are counted together. The largest sequence
        number is 2^64 - 1.
        """
        key, sequence = self.client.key(), self.client.started(start())
        session = self.client.tpm.session().handle
        kept = [self.client.saved(it) for it in (key, key, sequence, session, sequence, key)]
        self.assertEqual([int.from_bytes(it[:8], "big") for it in kept], [1, 2, 3, 4, 5, 6])
        self.assertEqual(len(set(kept)), 6)
        for it in (key, sequence):
            self.layer.count = 2**64 - 2
            self.assertEqual(self.client.saved(it)[:8], b"\xff" * 8)
            self.assertEqual(self.client.code(save(it)), TOO_MANY_CONTEXTS)
        self.assertEqual(self.client.code(save(SECOND)), REFERENCE_H0)

    def test_reasons(self):
        """The layer says why it refuses to save or to load a sequence."""
        context = self.of_sequence()
        for it in (SECOND, THIRD, THIRD + 1, 0x8000_0000, 0x80FF_FFFF):
            self.assertEqual(self.client.code(save(it)), REFERENCE_H0)
            self.assertEqual(self.client.device.did, f"object {it:08x} is not there")
        for _ in range(3):
            self.client.code(load(context))
        self.assertEqual(self.client.device.did, "all 3 sequences are taken")

    def test_lengths(self):
        """The largest context is that of an HMAC key. The property that reports the largest context
        is two bytes larger. It is computed from the largest public area, that of a SYMCIPHER, and
        the largest key, although a SYMCIPHER's key is shorter.
        """
        public = hmac_key(auth_policy=bytes(32))
        context = self.client.saved(self.client.key(b"d" * 128, b"v" * 32, public))
        self.assertEqual(len(context), contexts.CONTEXT_BYTES - 2)
        listed = properties(self.model, Counts(0, 0, 0), 7)
        self.assertEqual((listed[0x121], listed[0x122]), (378, 38))
        protection = [listed[it] for it in (0x11A, 0x11B, 0x11C)]
        self.assertEqual(protection, [SHA256, frames.AES, 128])


if __name__ == "__main__":
    unittest.main()
