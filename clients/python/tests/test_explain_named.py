"""Tests that mistakes with the same response are distinguished, and that an explanation names the
refused parameter and its value as the user gave it.
"""

import hashlib
import hmac
import unittest

from explained_logs import events_of
from recorded_case import RecordedCase
from tpmsim.caller import Caller, HERE, Refused, sealed, storage_key
from tpmsim.device import ModelDevice
from tpmsim.explain.of_device import log_of, why_refused
from tpmsim.standard import digest, frames, number, RH_ENDORSEMENT, SHA256, sized
from tpmsim.standard.commands import CC

PIN = b"1234"
# The public area of an index of 8 bytes that its own value authorizes.
AREA = "01000001000b0004000400000008"


class Named(unittest.TestCase):
    def setUp(self):
        self.device = ModelDevice(seed=b"named")
        self.tpm = Caller(self.device)
        self.tpm.start_up()

    def why(self, act):
        with self.assertRaises(Refused):
            act()
        return " ".join(why_refused(log_of(self.device)).split())

    def load(self, parent, private, public):
        return self.why(lambda: self.tpm.call("Load", parent, inPrivate=private, inPublic=public))


class Areas(Named):
    """Three mistakes that TPM2_Load refuses with INTEGRITY."""

    def setUp(self):
        super().setUp()
        self.parent = self.tpm.create_primary(storage_key())
        self.made = self.tpm.create(self.parent, sealed(attributes=HERE), data=b"a")

    def test_areas_of_two_objects(self):
        other = self.tpm.create(self.parent, sealed(attributes=HERE), data=b"b" * 9, user_auth=b"x")
        words = "slip inPrivate is of the object of line 8, and inPublic is "
        told = self.load(self.parent, self.made.private, sealed(attributes=HERE | 0x400))
        self.assertIn(words + "another object's", told)
        if other.public.name != self.made.public.name:
            told = self.load(self.parent, self.made.private, other.public)
            self.assertIn(words + "of the object of line 11", told)

    def test_another_hierarchy(self):
        parent = self.tpm.create_primary(storage_key(), hierarchy=RH_ENDORSEMENT)
        told = self.load(parent, self.made.private, self.made.public)
        words = f"line 8 created it under a parent in OWNER, and {parent:08x} is in ENDORSEMENT"
        self.assertIn(f"slip {words}", told)

    def test_another_parent(self):
        name = self.device.model.objects[self.parent].public.name
        parent = self.tpm.create_primary(storage_key(auth_policy=bytes(32)))
        told = self.load(parent, self.made.private, self.made.public)
        self.assertIn(
            f"slip it is right under {self.parent:08x}, which has existed since line 5", told
        )
        self.tpm.call("FlushContext", flushHandle=self.parent)
        told = self.load(parent, self.made.private, self.made.public)
        self.assertIn(f"slip line 8 created it under a parent with the Name {name.hex()}", told)

    def test_an_unknown_area(self):
        private = self.made.private[:-1] + b"x"
        told = self.load(self.parent, private, self.made.public)
        self.assertIn("inPrivate no TPM2_Create of this log returned it", told)


class Parameters(unittest.TestCase):
    def words(self, *lines):
        return events_of("do Startup 0", *lines)[-1].reason.words

    def test_signed_numbers(self):
        start = "do StartAuthSession NULL NULL 00112233445566778899aabbccddeeff - 1 null sha256"
        secret = "do PolicySecret OWNER 03000000 pw:- - - - {}"
        for number_given, said in ((2**32 - 60, "-60"), (60, "60"), (2**31, "-2147483648")):
            words = self.words(start, secret.format(number_given))
            self.assertEqual(words, f"expiration is {said}, and nothing expires here: {said} != 0.")

    def test_commands_that_there_are_not(self):
        """A command that is not implemented is named, and a code in the wrong order of bytes."""
        for code, words in (
            ("00000159", "TPM2_RSA_Decrypt (00000159): tpmsim has no such command."),
            ("00000999", "No command has the number 00000999."),
            (
                "7b010000",
                "No command has the number 7b010000. With its bytes in the other order it is "
                "TPM2_GetRandom (0000017b).",
            ),
        ):
            self.assertEqual(self.words(f"cmd 80010000000c{code}0004"), words)

    def test_parameters_that_the_layer_refuses(self):
        case = LayerCase()
        case.setUp()
        self.addCleanup(case.doCleanups)
        sized_data = sized(b"data")
        for code, parameters, words in (
            (
                0x17D,
                sized_data + number(0x0C, 2) + number(0x40000007, 4),
                "hashAlg: SHA-384; tpmsim has SHA-1 or SHA-256",
            ),
            (
                0x17D,
                sized_data + number(0x0B, 2) + number(0x40000001 + 8, 4),
                "hierarchy: 40000009; tpmsim has OWNER or ENDORSEMENT or PLATFORM or NULL",
            ),
            (0x17D, sized(bytes(1025)) + number(0x0B, 2), "data: 1,025 bytes; tpmsim takes 1,024"),
            (0x17D, sized_data + number(0x0B, 2), "hierarchy: 0 of 4 bytes are left"),
            (
                0x186,
                sized(b"") + number(0x0D, 2),
                "hashAlg: SHA-512; tpmsim has NULL or SHA-1 or SHA-256",
            ),
            (0x18A, number(0x01, 2), "parameters: RSA; tpmsim has KEYEDHASH or SYMCIPHER"),
            (0x17C, b"a", "1 bytes follow the parameters"),
        ):
            case.client.code(frames.command(code, parameters))
            told = case.last()
            self.assertIn(f"the parameters are refused: {words}", told)


class LayerCase(RecordedCase):
    def runTest(self):
        """Has no test of its own."""


class Policies(unittest.TestCase):
    def told(self, wanted, assertion):
        """Returns why an index with this authPolicy is not read after an assertion."""
        area = "01000001000b00080004" + sized(wanted).hex() + "0008"
        lines = (
            "do Startup 0",
            f"do NV_DefineSpace OWNER pw:- - {area}",
            "do NV_Write 01000001 01000001 pw:- 0102030405060708 0",
            "do StartAuthSession NULL NULL 00112233445566778899aabbccddeeff - 1 null sha256",
            assertion,
            "do NV_Read 01000001 01000001 s:03000000:-:01:- 8 0",
        )
        event = events_of(*lines)[-1]
        self.assertEqual(event.refused, "POLICY_FAIL/s1")
        return event.reason

    def test_a_command_code_with_the_lowest_byte_first(self):
        turned = digest(SHA256, bytes(32) + number(CC.PolicyCommandCode, 4) + b"\x4e\x01\0\0")
        found = self.told(turned, "do PolicyCommandCode 03000000 0x14e")
        self.assertIn("With the command code 4e010000, its lowest byte first, in", found.words)

    def test_a_mistyped_policy_ref(self):
        first = digest(SHA256, bytes(32) + number(CC.PolicySecret, 4) + number(0x40000001, 4))
        wanted = digest(SHA256, first + b"disk")
        found = self.told(wanted, f"do PolicySecret OWNER 03000000 pw:- - - {b'disc'.hex()} 0")
        self.assertIn(
            'With the policyRef 6469736b "disk" in PolicySecret it would match', found.words
        )


class Values(unittest.TestCase):
    def slips(self, *lines):
        return events_of("do Startup 0", *lines)[-1].reason.slips

    def test_a_pin_with_blanks(self):
        define = f"do NV_DefineSpace OWNER pw:- {PIN.hex()} {AREA}"
        for size in (8, 16, 20, 32):
            sent = PIN.ljust(size).hex()
            found = self.slips(define, f"do NV_Write 01000001 01000001 pw:{sent} 00 0")
            self.assertIn(f"padded with blanks to {size}", " ".join(found))
        for count in (2, 3, 7, 19):
            sent = (PIN + b" " * count).hex()
            found = self.slips(define, f"do NV_Write 01000001 01000001 pw:{sent} 00 0")
            self.assertIn(f"with {count} spaces", " ".join(found))
        define = f"do NV_DefineSpace OWNER pw:- {PIN.ljust(16).hex()} {AREA}"
        found = self.slips(define, f"do NV_Write 01000001 01000001 pw:{PIN.hex()} 00 0")
        self.assertIn("without its blanks", " ".join(found))

    def test_a_handle_in_hex_read_in_decimal(self):
        event = events_of("do Startup 0", "do FlushContext 03000000")[-1]
        self.assertIn("it is 3000000 in decimal; in words, write 0x03000000", event.reason.words)
        event = events_of("do Startup 0", "do FlushContext 0x07000000")[-1]
        self.assertIn("07000000, of no kind that is served;", event.reason.words)

    def test_an_offset_left_out_of_cp_hash(self):
        define = f"do NV_DefineSpace OWNER pw:- {PIN.hex()} {AREA}"
        start = "do StartAuthSession NULL NULL 00112233445566778899aabbccddeeff - 0 null sha256"
        lines = define, start
        events = events_of("do Startup 0", *lines)
        name = events[-1].scene.model.name(0x01000001)
        nonce = events[-1].scene.model.sessions[0x02000000].nonce_tpm
        cp_hash = hashlib.sha256(number(CC.NV_Write, 4) + name + name + sized(b"\0")).digest()
        caller = bytes(16)
        value = hmac.new(PIN, cp_hash + caller + nonce + b"\x01", "sha256").hexdigest()
        write = f"do NV_Write 01000001 01000001 s:02000000:{caller.hex()}:01:{value} 00 0"
        self.assertEqual(self.slips(*lines, write), ["last parameter left out"])


if __name__ == "__main__":
    unittest.main()
