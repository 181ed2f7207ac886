"""Tests the reasons for individual refusals, with their numbers, bytes and values."""

import random
import unittest

from tpmsim.caller import Caller, counter, digest_of, FIRST, HERE, Refused, sealed, Use
from tpmsim.device import ModelDevice
from tpmsim.explain.play import Play
from tpmsim.model import image
from tpmsim.model.machine import Model
from tpmsim.standard import digest, frames, number, policy, Profile, RH_OWNER, SHA256
from tpmsim.standard.objects import Attribute
from explained_logs import explained, last

UNSIGNED_GE = 7
START = "do StartAuthSession NULL NULL 00112233445566778899aabbccddeeff - %d null sha256"
DEFINE = "do NV_DefineSpace OWNER pw:- - 01000001000b0002000200000008"

# Lines that are refused, each with its rule, the offset of the fault, and the words of the reason.
GENERAL = (
    ("cmd 8001", "G1", 0, "The buffer has 2 bytes: 2 < 10."),
    ("cmd 80030000000a0000017b", "G2", 0, "The tag is 8003."),
    ("cmd 80010000000b0000017b", "G3", 2, "commandSize says 11, and the buffer has 10 bytes."),
    (
        "cmd 80010000000a00000174",
        "G4",
        6,
        "TPM2_RSA_Encrypt (00000174): tpmsim has no such command.",
    ),
    ("do Startup 0", "G5", 6, "The device is already started"),
    ("cmd 80010000000c000001690100", "G6/INSUFFICIENT", 10, "is cut: 2 of 4 bytes are left."),
    ("do NV_ReadPublic OWNER", "G6/VALUE", 10, "Handle 1, nvIndex, is 40000001, OWNER"),
    ("do NV_ReadPublic 01000001", "G6/HANDLE", 10, "no earlier command made it"),
    ("do ReadPublic 80000000", "G6/REFERENCE", 10, "no earlier command made it"),
    ("do Clear PLATFORM", "G7/AUTH_MISSING", 0, "needs an entry that authorizes PLATFORM"),
    ("do FlushContext pw:- 1", "G7/AUTH_CONTEXT", 0, "takes no entries"),
    ("do GetRandom pw:- 1", "G8/HANDLE", 14, "GetRandom has 0 handles to authorize"),
    ("do GetRandom s:02000000:-:01:- 1", "G8/REFERENCE", 14, "which is not there"),
    ("do GetRandom s:OWNER:-:01:- 1", "G8/VALUE", 14, "Entry 1 has the handle 40000001"),
    ("cmd 80010000000c0000017b", "G3", 2, "commandSize"),
    (
        "cmd 80010000000b0000017b00",
        "G11/INSUFFICIENT",
        10,
        "bytesRequested: wanted 2 bytes, and there is 1 byte",
    ),
    (
        "cmd 80010000000d0000017b000100",
        "G11/SIZE",
        12,
        "wanted the end of the command, and there is 1 byte more",
    ),
    ("do SelfTest 2", "SelfTest/parameters", 10, "wanted 00 or 01, and there is 02"),
)

# Wrong attributes in an entry of TPM2_GetRandom.
ATTRIBUTES = (
    ("09", "G8/RESERVED_BITS", "bits 3 and 4 are reserved"),
    ("81", "G8/ATTRIBUTES.1", "no session audits"),
    ("21", "G8/ATTRIBUTES.3", "the first parameter of GetRandom"),
    ("41", "G8/SYMMETRIC", "without a cipher in line 2"),
)

# Wrong authorization areas.
AREAS = (
    ("0000", "authorizationSize is cut: 2 of 4 bytes are left.", 10),
    ("00000008" + "00" * 8, "8 < 9", 10),
    ("0000000a" + "00" * 9, "10 > 9", 10),
    ("00000009" + "40000009" + "0001" + "000000", "Entry 1 is cut", 14),
    ("00000024" + ("40000009" + "0000" + "01" + "0000") * 4, "4 > 3", 10),
)

# The fields of a valid public area of an index; and wrong fields, with the expected and the actual
# value.
PUBLIC = dict(nvIndex="01000001", nameAlg="000b", attributes="00020002", authPolicy="0000")
PUBLIC["dataSize"] = "0008"
STRUCTURES = (
    ("nvIndex", "02000001", 31, "a handle that begins with 01", "02000001"),
    ("nameAlg", "000c", 35, "0004 (SHA-1) or 000b (SHA-256)", "000c"),
    ("attributes", "00020102", 37, "no bit but those of fe0ffcff", "00020102"),
    ("authPolicy", "0021" + "00" * 33, 41, "a size of at most 32", "0021, which is 33"),
    ("dataSize", "00", 43, "2 bytes", "1 byte"),
    ("dataSize", "000800", 45, "the end of the structure", "1 byte more"),
)

# Operands of TPM2_PolicyNV for an index that contains 2.
COMPARISONS = (
    ("0000000000000001", 9, "UNSIGNED_LE does not hold: 2 <= 1 is false."),
    ("0000000000000001", 5, "UNSIGNED_LT does not hold: 2 < 1 is false."),
    ("0000000000000002", 2, "SIGNED_GT does not hold: 2 > 2 is false."),
    ("ffffffffffffffff", 8, "SIGNED_LE does not hold: 2 <= -1 is false."),
    ("0000000000000001", 0, "EQ does not hold: 0000000000000002 = 0000000000000001 is false."),
    ("0000000000000003", 10, "has all bits of 0000000000000003 set (missing: 0x1) is false."),
    ("0000000000000003", 11, "has all bits of 0000000000000003 clear (set: 0x2) is false."),
)


# Commands that only a device of the complete profile has, each without its tag and size, and with
# the rule of its refusal, the offset of the fault, and the words of the reason.
COMPLETE = (
    ("000001420000000200040001", "IncrementalSelfTest/A1", 10, "not implement the algorithm 0001."),
    ("0000014200000041", "IncrementalSelfTest/parameters", 10, "a count of at most 64"),
    ("0000014200000001000400", "G11/SIZE", 16, "the end of the command, and there is 1 byte more"),
    ("0000018a0001", "public/type", 10, "type of parameter 1, parameters: wanted 0008 (KEYEDHASH)"),
    ("0000018a00080014", "public/KEYEDHASH", 12, "wanted 0010 (NULL) or 0005 (HMAC)"),
    ("0000018a000800050010", "public/KEYEDHASH", 14, "wanted 0004 (SHA-1) or 000b (SHA-256)"),
    ("0000018a0025000a", "public/SYMCIPHER", 12, "wanted 0006 (AES), and there is 000a"),
    ("0000018a002500060100", "public/SYMCIPHER", 14, "wanted 0080, and there is 0100"),
    ("0000018a0025000600800042", "public/SYMCIPHER", 16, "wanted 0043 (CFB), and there is 0042"),
    ("0000017d0401", "Hash/parameters", 10, "a size of at most 1,024"),
    ("0000017d00000010", "Hash/parameters", 12, "wanted 0004 (SHA-1) or 000b (SHA-256)"),
    ("0000017d0000000b4000000a", "Hash/parameters", 14, "and there is 4000000a"),
)


def facts_of(reason):
    return {it.label: it.value for it in reason.facts}


class Numbers(unittest.TestCase):
    """The reasons for individual refusals equal those that were worked out by hand."""

    def assert_reason(self, lines, rule, at, words):
        found = last(*lines)
        self.assertEqual((found.rule, found.at), (rule, at), lines)
        self.assertIn(words, found.words)
        return found

    def test_general_checks(self):
        for line, *wanted in GENERAL:
            self.assert_reason([line], *wanted)

    def test_attributes(self):
        for attributes, rule, words in ATTRIBUTES:
            lines = START % 0, f"do GetRandom s:02000000:-:{attributes}:- 1"
            self.assert_reason(lines, rule, 20, words)

    def test_complete_profile(self):
        device = image.image(Model(profile=Profile.COMPLETE))
        for command, rule, at, words in COMPLETE:
            body = bytes.fromhex(command)
            line = f"cmd 8001{number(6 + len(body), 4).hex()}{body.hex()}"
            lines = f"do Startup 0\n{line}\n".encode()
            found = list(Play(device).events(lines))[-1].reason
            self.assertEqual((found.rule, found.at), (rule, at), command)
            self.assertIn(words, found.words)

    def test_areas(self):
        for area_bytes, words, at in AREAS:
            size = number(10 + len(area_bytes) // 2, 4).hex()
            self.assert_reason([f"cmd 8002{size}0000017b{area_bytes}"], "G8/AUTHSIZE", at, words)

    def test_structures(self):
        for field, bent, at, wanted, had in STRUCTURES:
            rule = "structure/SIZE" if field == "dataSize" else f"nvPublic/{field}"
            public = "".join((PUBLIC | {field: bent}).values())
            found = self.assert_reason([f"do NV_DefineSpace OWNER pw:- - {public}"], rule, at, "")
            facts = facts_of(found)
            self.assertEqual((facts["wanted"], facts["had"]), (wanted, had))

    def test_policy_nv(self):
        """The reason contains comparisons such as "2 <= 1 is false"."""
        write = "do NV_Write OWNER 01000001 pw:- 0000000000000002 0"
        for operand, operation, words in COMPARISONS:
            line = f"do PolicyNV OWNER 01000001 03000000 pw:- {operand} 0 {operation}"
            found = last(DEFINE, write, START % 1, line)
            self.assertEqual(found.rule, "PolicyNV/A5")
            self.assertIn(words, found.words)

    def test_ranges(self):
        found = last(DEFINE, "do NV_Write OWNER 01000001 pw:- 0011 7")
        self.assertEqual(found.rule, "NV_Write/A4")
        self.assertIn("7 + 2 > 8", found.words)
        found = last(DEFINE, "do NV_Read OWNER 01000001 pw:- 1 0")
        words = "01000001 is not written: it has no WRITTEN, and no data; NV_Write writes it."
        self.assertEqual((found.rule, found.words), ("NV_Read/A3", words))
        self.assertEqual(last(DEFINE, DEFINE).words, "There is an index 01000001 since line 2.")

    def test_others_of_its_kind(self):
        """If a session or an index does not exist, the reason names those that do."""
        start = "do StartAuthSession NULL NULL 00112233445566778899aabbccddeeff - 0 null sha256"
        for wrong, there in (
            (
                "do NV_Read OWNER 01000001 s:02000001:00112233445566778899aabbccddeeff:01:- 8 0",
                "02000000",
            ),
            ("do NV_Read OWNER 01000002 pw:- 8 0", "01000001"),
        ):
            facts = last(DEFINE, start, wrong).facts
            line = {"01000001": 2, "02000000": 3}[there]
            self.assertEqual(
                [(it.label, it.value) for it in facts], [(there, f"has existed since line {line}")]
            )


class Policies(unittest.TestCase):
    def setUp(self):
        self.device = ModelDevice(seed=b"policies")
        self.tpm = Caller(self.device, random.Random(1).randbytes)
        self.tpm.start_up()

    def reason(self, condition, prepared):
        """Sends a command, which must be refused because this condition of a policy does not hold;
        returns the reason for the refusal.
        """
        self.assertRaises(Refused, self.tpm.send, prepared)
        found = explained(self.device).reason
        self.assertEqual(found.rule, f"condition/{condition}")
        return found

    def sealed(self, auth_policy, **more):
        template = sealed(attributes=HERE | Attribute.NO_DA, auth_policy=auth_policy)
        return self.tpm.create_primary(template, data=b"secret", **more)

    def test_pcrs_that_moved(self):
        words = f"PolicyPCR sha256:16 {digest(SHA256, bytes(32)).hex()}\n"
        handle = self.sealed(digest_of(words))
        use = self.tpm.policy(words)
        self.tpm.send(self.tpm.event(b"moves", b""))
        line = len(self.device.trace) - 1
        found = self.reason(3, self.tpm.unsealing(handle, use))
        self.assertIn(f"line {line} (PCR_Event of PCR 16)", found.words)
        told_late = self.tpm.session(kind=frames.SE_POLICY)
        self.tpm.send(self.tpm.pcrs(told_late, [(SHA256, [16])]))
        facts = facts_of(self.reason(8, self.tpm.unsealing(handle, told_late)))
        self.assertEqual(facts["PCR 16 wanted"], bytes(32).hex())
        moved = digest(SHA256, bytes(32) + digest(SHA256, b"moves"))
        self.assertEqual(facts["PCR 16 had"], moved.hex())
        self.assertIn(f"line {line} (PCR_Event of PCR 16)", facts["PCR 16 was written by"])

    def test_conditions(self):
        for words, condition, said in (
            ("PolicyCommandCode NV_Write\n", 4, "The policy is for NV_Write, and this is Unseal."),
            ("PolicyLocality 2\n", 7, "from locality 0; the policy allows 2."),
            ("PolicyNvWritten 1\n", 6, "is no NV index"),
        ):
            handle = self.sealed(digest_of(words))
            found = self.reason(condition, self.tpm.unsealing(handle, self.tpm.policy(words)))
            self.assertIn(said, found.words)

    def test_trial_and_none(self):
        self.reason(1, self.tpm.unsealing(self.sealed(bytes(32)), Use(self.tpm.trial())))
        use = Use(self.tpm.session(kind=frames.SE_POLICY))
        found = self.reason(2, self.tpm.change_auth(RH_OWNER, b"", use))
        self.assertIn("OWNER has no policy", found.words)

    def test_cp_hash(self):
        session = self.tpm.session(kind=frames.SE_POLICY)
        self.tpm.send(self.tpm.secret(session, cp_hash=b"\x11" * 32))
        found = self.reason(5, self.tpm.unsealing(self.sealed(bytes(32)), session))
        self.assertEqual(facts_of(found)["cpHash recorded"], "11" * 32)

    def test_digests(self):
        """The policy session makes one assertion too many, one too few, two in the wrong order, or
        none.
        """
        first, second = "PolicyCommandCode Unseal\n", "PolicyAuthValue\n"
        handle = self.sealed(digest_of(first + second), user_auth=b"pin")
        for words, slip in (
            (first, "assertion missing"),
            (second + first, "order of assertions"),
            (first + second + second, "assertion too many"),
        ):
            found = self.reason(8, self.tpm.unsealing(handle, self.tpm.policy(words)))
            self.assertEqual(found.slips, [slip])
        found = self.reason(8, self.tpm.unsealing(handle, self.tpm.session(kind=frames.SE_POLICY)))
        self.assertIn("It has no assertions.", found.words)
        use = self.tpm.policy(first + second)
        self.tpm.send(self.tpm.unsealing(handle, use))
        found = self.reason(8, self.tpm.unsealing(handle, use.session))
        self.assertIn("with which its policy restarted", found.words)
        again = self.tpm.policy(first).session
        self.tpm.send(self.tpm.restart(again))
        line = len(self.device.trace) - 1
        found = self.reason(8, self.tpm.unsealing(handle, again))
        self.assertIn(
            f"It has no assertions since line {line} (PolicyRestart), with which", found.words
        )

    def test_name_of_an_index(self):
        """The policy contains the Name that an index had before its first write."""
        index = self.tpm.define(counter(FIRST))
        operand = number(1, 8)
        args = operand + number(0, 2) + number(UNSIGNED_GE, 2)
        handle = self.sealed(policy.after_nv(SHA256, bytes(32), args, self.tpm.name(index)))
        self.tpm.send(self.tpm.incrementing(index))
        session = self.tpm.session(kind=frames.SE_POLICY)
        self.tpm.send(self.tpm.comparing(session, index, operand, operation=UNSIGNED_GE))
        found = self.reason(8, self.tpm.unsealing(handle, session))
        self.assertEqual(found.slips, ["old Name in a policy"])
