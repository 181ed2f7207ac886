"""Tests the explanations of mistakes that a device accepts."""

import random
import unittest

from tpmsim.caller import area, BY_VALUE, Caller, counter, FIRST, HERE, hmac_key, Refused, sealed
from tpmsim.caller import storage_key, Use
from tpmsim.device import ModelDevice
from tpmsim.standard import AES, RH_OWNER, SHA256, XOR
from tpmsim.standard.objects import Attribute
from explained_logs import events_of, explained, without_value


class Accepted(unittest.TestCase):
    """Mistakes in commands that a device accepts are reported."""

    def setUp(self):
        self.device = ModelDevice(seed=b"accepted")
        self.tpm = Caller(self.device, random.Random(2).randbytes)
        self.tpm.start_up()

    def slips(self):
        return [slip for it in explained(self.device).notes for slip in it.slips]

    def test_mask_without_the_value(self):
        for at, cipher in enumerate((AES, XOR)):
            index = self.tpm.define(area(FIRST + at, BY_VALUE), auth=b"\xf1value")
            session = self.tpm.session(cipher=cipher)
            with self.tpm.breaking(encrypted=without_value(self.tpm)):
                prepared = self.tpm.writing(index, b"8 bytes.", session.decrypting)
            self.tpm.send(prepared)
            self.assertEqual(self.slips(), ["mask without authValue"])
            self.tpm.send(self.tpm.writing(index, b"8 bytes.", session.decrypting))
            self.assertEqual(self.slips(), [])

    def test_not_encrypted(self):
        index = self.tpm.define(area(attributes=BY_VALUE), auth=b"\xf1value")
        session = self.tpm.session(cipher=AES)
        with self.tpm.breaking(encrypted=lambda use, handle, parameters: parameters):
            self.tpm.send(self.tpm.writing(index, b"8 bytes.", session.decrypting))
        self.assertEqual(self.slips(), ["not encrypted"])

    def test_misread_structure(self):
        """If inSensitive was encrypted without the parent's value, the device decrypts it to bytes
        that are not a structure.
        """
        parent = self.tpm.create_primary(storage_key(), user_auth=b"\xf1parent")
        named = 0
        for at in range(8):
            session = self.tpm.session(cipher=(AES, XOR)[at % 2])
            data, use = b"secret %d" % at, session.decrypting
            with self.tpm.breaking(encrypted=without_value(self.tpm)):
                prepared = self.tpm.child(parent, sealed(), use, data=data)
            self.assertRaises(Refused, self.tpm.send, prepared)
            named += explained(self.device).reason.slips == ["mask without authValue"]
        self.assertEqual(named, 8)

    def test_zeros(self):
        index = self.tpm.define(area(attributes=BY_VALUE), auth=b"value\0\0")
        self.tpm.send(self.tpm.writing(index, b"8 bytes.", self.tpm.session()))
        self.assertEqual(self.slips(), ["zeros that HMAC pads"])
        self.tpm.send(self.tpm.writing(index, b"8 bytes.", b"value\0"))
        self.assertEqual(self.slips(), ["zeros at the end"])

    def test_nonce_used_again(self):
        session = self.tpm.session(RH_OWNER)
        for wanted in ([], ["nonceCaller used again"]):
            self.tpm.send(self.tpm.random(1, Use(session, nonce=bytes(15) + b"1")))
            self.assertEqual(self.slips(), wanted)

    def test_index_without_written(self):
        index, trial = self.tpm.define(counter(FIRST)), self.tpm.trial()
        self.tpm.send(self.tpm.comparing(trial, index, bytes(8)))
        self.assertEqual(self.slips(), ["index without WRITTEN in a policy"])
        self.tpm.send(self.tpm.incrementing(index))
        self.tpm.send(self.tpm.comparing(trial, index, bytes(8)))
        self.assertEqual(self.slips(), [])

    def test_lockout(self):
        key = hmac_key(attributes=HERE | Attribute.USER_WITH_AUTH)
        handle = self.tpm.create_primary(key, data=b"x", user_auth=b"pin")
        prepared = self.tpm.hmac(handle, b"", SHA256, b"nip")
        for tries in range(1, 5):
            self.assertRaises(Refused, self.tpm.send, prepared)
            event = explained(self.device)
            self.assertEqual(self.slips(), ["one more try locks"] if tries == 2 else [])
            if tries < 4:
                self.assertIn(f"It counted as failed try {tries} of 3", event.reason.words)
        self.assertEqual(event.reason.rule, "tries")
        words = "3 failed tries >= maxTries 3. One is forgiven in 1,000 s"
        self.assertIn(words, event.reason.words)
        self.device.wait(400_000)
        self.assertRaises(Refused, self.tpm.send, self.tpm.hmac(handle, b"", SHA256, b"pin"))
        reason = explained(self.device).reason
        self.assertIn("One is forgiven in 600 s", reason.words)
        self.assertIn("right, and not looked at", [it.value for it in reason.facts])

    def test_random_bytes(self):
        session = "do StartAuthSession NULL NULL 00112233445566778899aabbccddeeff - 0 null sha256"
        events = events_of("do Startup 0", session, "do GetRandom s:02000000:-:01:- 1", session)
        slips = [[it.slips[0] for it in event.notes] for event in events]
        self.assertEqual(slips, [[], ["random bytes are zeros"], ["nonceTPM comes again"], []])
