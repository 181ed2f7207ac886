"""Tests HMAC sessions in commands on sequences: the commands that the completing layer sends, and
explanations, audits, comparisons and logs of these commands. tests/library/sequence_sessions.py
tests the responses. All HMACs are computed with hashlib and hmac alone.
"""

import hashlib
import hmac
import shutil
import unittest

from completed_model import CompletedModel, RecordedModel
from programs import PATIENCE
from recorded_case import RecordedCase
from tpmsim.audit.auditor import report
from tpmsim.compare.play import Comparison
from tpmsim.device import StartedSwtpm
from tpmsim.explain.play import Play
from tpmsim.model.completion import Completion
from tpmsim.model.machine import Model
from tpmsim.standard import ALG_NULL, CC, entry, number, on_handle, on_handles, RH_LOCKOUT
from tpmsim.standard import RH_NULL, SHA1, SHA256, sized
from tests.common.hashed_sessions import Guarded
from tests.common.layer_commands import EVENT_COMPLETE, FIRST, HMAC_START, PCR, SECOND, start
from tests.common.layer_commands import UPDATE
from tests.library.sequence_sessions import hmac_of, KEY, PIN, SECRET, Sessions
from tests.library.sequences import digest_of, GUARDED

# The offset of the HMAC in a command with one handle and with a nonce of 32 bytes.
HMAC_AT = 10 + 4 + 4 + 4 + 2 + 32 + 1 + 2
NO_DATA, NO_HASH, WRONG = sized(b""), number(ALG_NULL, 2), {"own": bytes(32)}


class Case(RecordedCase):
    """Tests a started device with a protected key."""

    client_of = Sessions

    def setUp(self):
        super().setUp()
        self.session = self.client.session
        self.make_key()

    def make_key(self):
        self.key = self.client.key(KEY, SECRET, GUARDED)
        self.name = self.client.name(self.key)

    def start(self, algorithm=SHA256, auth=PIN):
        """Starts a hash or event sequence."""
        return self.client.started(start(algorithm, auth))

    def hmac_start(self, session, value=SECRET, name=b"", **given):
        return session.hmac_start(self.key, name or self.name, PIN, value=value, **given)

    def update(self, session, handle=FIRST, value=PIN, **given):
        return Guarded(session, handle, value).update(b"data", **given)

    def complete(self, session, handle=FIRST, **given):
        return Guarded(session, handle, PIN).complete(**given)

    def event_complete(self, session, handle=FIRST, pcr=PCR, **given):
        return session.event_complete(pcr, handle, b"", PIN, **given)


class Watched(CompletedModel):
    """A device that stores each event that the device without the layer executes."""

    def __init__(self):
        super().__init__()
        self.executed, own = [], self.model.execute

        def execute(*event):
            self.executed.append(event)
            return own(*event)

        self.model.execute = execute


class Sent(Case):
    """Tests the commands that the layer sends to the device."""

    made = Watched

    def sent(self, buffer):
        """Returns the buffer that the layer sends for a command. The other parts of the event are
        those of the client's command, but no time elapses.
        """
        self.device.executed.clear()
        self.device.locality = 3
        self.device.wait(7)
        self.device.execute(buffer)
        (own, *told, elapsed), (sent, *same, later) = self.device.executed
        self.assertEqual((own, told[0], elapsed, later), (buffer, 3, 7, 0))
        self.assertEqual(told, same)
        self.assertEqual(len(set(told[1])) > 1, True)
        return sent

    def expected(self, session, code, handles, names, parameters, value, own=None):
        """Returns a command with the latest nonces of a session."""
        session.count -= 1
        nonce = session.nonce_tpm
        given = {"value": value, "attributes": session.attributes, "own": own}
        made = session.command(code, handles, names, parameters, **given)
        self.assertEqual(session.nonce_tpm, nonce)
        return made

    def test_right(self):
        """The command that the layer sends has the right HMAC for the device, which accepts it."""
        for algorithm in (SHA256, SHA1):
            for attributes in (1, 0):
                session = self.session(algorithm)
                sent = self.sent(self.hmac_start(session, attributes=attributes))
                wanted = CC.HMAC, [self.key], [self.name], NO_DATA + NO_HASH, SECRET
                self.assertEqual(sent, self.expected(session, *wanted))
                session = self.session(algorithm, self.key, SECRET)
                sent = self.sent(self.hmac_start(session, value=b"", attributes=attributes))
                self.assertEqual(sent, self.expected(session, *wanted[:-1], b""))
                wanted = CC.GetRandom, [], [], bytes(2), b""
                for act in (self.update, self.complete):
                    session = self.session(algorithm)
                    sent = self.sent(act(session, attributes=attributes))
                    self.assertEqual(sent, self.expected(session, *wanted))
                    bound = self.session(algorithm, self.key, SECRET)
                    sent = self.sent(act(bound, SECOND, attributes=attributes))
                    self.assertEqual(sent, self.expected(bound, *wanted))
                    self.assertFalse(any(self.device.events[-1].response[6:10]))
                self.device.power_cycle()
                self.client.begin()
                self.make_key()

    def test_an_event(self):
        text = number(2, 4) + number(SHA1, 2) + hashlib.sha1().digest()
        text += number(SHA256, 2) + hashlib.sha256().digest()
        for pcr in (PCR, RH_NULL):
            self.start(ALG_NULL)
            session = self.session()
            sent = self.sent(self.event_complete(session, pcr=pcr))
            wanted = CC.PCR_Extend, [pcr], [number(pcr, 4)], text, b""
            self.assertEqual(sent, self.expected(session, *wanted))

    def test_others(self):
        """A wrong HMAC becomes one byte, and an empty one that is right stays empty. If there is no
        session, the HMAC is sent unchanged.
        """
        session, handle = self.session(), self.start(auth=b"")
        wanted = CC.GetRandom, [], [], bytes(2), b""
        for given, own in (
            ({"value": b"", "own": b""}, b""),
            ({"value": PIN}, b"\0"),
            ({"own": b"\0"}, b"\0"),
        ):
            sent = self.sent(self.update(session, handle, **given))
            self.assertEqual(sent, self.expected(session, *wanted, own=own), given)
            if own == b"":
                answered = self.device.events[-1].response
                self.assertEqual(session.answer(UPDATE, answered), (b"", b""))
        sent = self.sent(self.hmac_start(session, value=b"", own=b""))
        wanted = CC.HMAC, [self.key], [self.name], NO_DATA + NO_HASH, b""
        self.assertEqual(sent, self.expected(session, *wanted, own=b"\0"))
        session.handle = 0x02000009
        for act, wanted in (
            (self.update, (CC.GetRandom, [], [], bytes(2), b"")),
            (self.hmac_start, (CC.HMAC, [self.key], [], NO_DATA + NO_HASH, b"")),
        ):
            for own in (bytes(32), b"", b"\0"):
                sent = self.sent(act(session, own=own))
                self.assertEqual(sent, self.expected(session, *wanted, own=own))

    def test_passwords(self):
        """For a password, the layer sends the same entry; for an update, it sends nothing."""
        given = self.key, NO_DATA + NO_HASH, [entry(hmac=SECRET)]
        self.assertEqual(self.sent(on_handle(HMAC_START, *given)), on_handle(CC.HMAC, *given))
        self.device.executed.clear()
        self.client.send(on_handle(UPDATE, FIRST, NO_DATA))
        self.assertEqual(len(self.device.executed), 1)


class Explained(Case):
    def slip(self, buffer, words, code="9a2"):
        self.told(buffer, code, words, "The HMAC of entry 1 is not the one that session 0200000")

    def report(self):
        """Returns the report of the audit."""
        return " ".join(" ".join(report(self.audited())).split())

    def test_accepted(self):
        """The explanation names the command that the layer sent."""
        session = self.session()
        by = "by session 02000000"
        self.told(self.hmac_start(session), "000", "HMAC_Start is accepted, by the completing")
        session.answer(HMAC_START, self.device.events[-1].response, SECRET, handles=1)
        sent = f"the device accepts the layer's TPM2_HMAC {by}"
        self.assertIn(f"the HMAC sequence 80000008 starts, and {sent}", self.last())
        self.told(
            self.update(session),
            "000",
            "4 bytes are added to the HMAC sequence 80000008, and the device accepts the layer's "
            f"TPM2_GetRandom {by}. The device itself refuses it: COMMAND_CODE (143), by check G4.",
        )
        session.answer(UPDATE, self.device.events[-1].response, PIN)
        self.told(self.complete(session), "000", "the HMAC sequence 80000008 ends, and the")
        self.start(ALG_NULL)
        session = self.session()
        sent = f"the device accepts the layer's TPM2_PCR_Extend {by[:-1]}1"
        self.told(self.event_complete(session), "000", f"80000008 ends, and {sent}")
        self.audited()

    def test_ingredients(self):
        """The ingredients of the HMAC are those of the client's command."""
        handle, session = self.start(), self.session(SHA1)
        buffer = self.update(session, handle, attributes=0)
        self.client.send(buffer)
        digest = digest_of("sha1", [number(UPDATE, 4), sized(b"data")])
        message = digest + session.newer + session.nonce_tpm + b"\0"
        told = self.last(is_whole=True)
        for it in (
            "the HMAC of entry 1 hash sha1 session key empty",
            'authValue 70696e "pin"; in the key: that of the sequence 80000008',
            "commandCode 0000015c Name of 80000008 empty parameters as sent 000464617461",
            f"cpHash {digest.hex()}",
            f"nonceTPM {session.nonce_tpm.hex()} (line",
            f"HMAC {hmac.digest(PIN, message, 'sha1').hex()}",
        ):
            self.assertIn(it, told)
        in_key = 'authValue 736563726574 "secret"; in the key: the session is not bound to 80000000'
        not_in_key = in_key.replace("in the key", "not in the key").replace("not bound", "bound")
        for bound, words in (((), in_key), ((SHA256, self.key, SECRET), not_in_key)):
            session = self.session(*bound)
            value = b"" if bound else SECRET
            self.client.send(self.hmac_start(session, value=value, attributes=0))
            told, names = self.last(is_whole=True), f"Name of 80000000 {self.name.hex()}"
            self.assertIn(words, told)
            self.assertIn(f"commandCode 0000015b {names} parameters as sent 0003", told)
            sent = self.device.events[-1].buffer[HMAC_AT : HMAC_AT + 32]
            self.assertIn(f"HMAC {sent.hex()}", told)

    def test_slips_of_a_sequence(self):
        """The mistakes that make a wrong HMAC are those of the client's command."""
        handle, session = self.start(), self.session()
        zeros = "SequenceUpdate is refused: BAD_AUTH/s1 (9a2), by the completing layer"
        self.slip(self.update(session, **WRONG), zeros)
        for words in (
            "The completing layer: the device refuses the layer's TPM2_GetRandom.",
            "It was no attempt on a protected value",
            "docs/table/order_of_refusals.md#g10-the-other-entries",
        ):
            self.assertIn(words, self.last())
        handles = "cpHash has the handle of the sequence 80000008; a sequence has an empty Name"
        self.slip(self.update(session, name=number(handle, 4)), handles)
        left_out = "the authValue of the sequence 80000008 was left out of the key"
        self.slip(self.update(session, value=b""), left_out)
        self.slip(self.update(session, value=b"PIN"), "the authValue is in the key")
        self.slip(self.update(session, own=b""), "the HMAC was left out")
        wrong = "cpHash has the command code of GetRandom, and this is SequenceUpdate"
        parameters = sized(b"data")
        own = session.entry(CC.GetRandom, [b""], parameters, PIN)
        self.slip(on_handle(UPDATE, handle, parameters, [own]), wrong)
        buffer = self.update(session)
        session.answer(UPDATE, self.client.send(buffer), PIN)
        self.slip(buffer, "the same command was accepted in line")
        self.audited()

    def test_slips_of_a_key(self):
        """A wrong HMAC for a protected key counts as a failed try."""
        session = self.session()
        left_out = "the authValue of 80000000 was left out of the key, where it belongs"
        self.slip(self.hmac_start(session, value=b""), left_out, "98e")
        counted = "HMAC_Start is refused: AUTH_FAIL/s1 (98e), by the completing layer"
        self.told(self.hmac_start(session, **WRONG), "98e", counted)
        told = self.last()
        self.assertIn("The completing layer: the device refuses the layer's TPM2_HMAC.", told)
        self.assertIn("It counted as failed try 2 of 3; 1 more locks it out.", told)
        handles = "cpHash has the handle 80000000 instead of its Name"
        self.slip(self.hmac_start(session, name=number(self.key, 4)), handles, "98e")
        locked = "Protected entities are locked out: 3 failed tries >= maxTries 3."
        self.told(self.hmac_start(session), "921", "LOCKOUT (921)", locked, "itself right")
        self.told(self.hmac_start(session, value=b""), "921", "the entry itself wrong")
        told = self.report()
        self.assertIn("HMAC by HMAC session 02000000", told)
        self.assertIn("is refused by AUTH_FAIL/s1", told)
        self.tpm.call("DictionaryAttackLockReset", RH_LOCKOUT, uses=[b""])
        bound = self.session(SHA256, self.key, SECRET)
        put_in = "the authValue of 80000000 was put into the key, where it does not belong"
        self.slip(self.hmac_start(bound), put_in, "98e")
        self.start()
        self.told(self.update(bound, **WRONG), "98e", "TPM2_GetRandom", "failed try 2")
        self.audited()

    def test_slips_of_an_event(self):
        self.start(ALG_NULL)
        session = self.session()
        put_in = "EventSequenceComplete is refused: BAD_AUTH/s1"
        self.slip(self.event_complete(session, value=PIN), put_in)
        refused = "the device refuses the layer's TPM2_PCR_Extend", "LOCALITY (907)"
        self.told(self.event_complete(session, pcr=17), "907", *refused)
        names = [number(PCR, 4), number(FIRST, 4)]
        both = [session.entry(EVENT_COMPLETE, names, NO_DATA), entry(hmac=PIN)]
        wrong = "cpHash has the handle of the sequence 80000008"
        self.slip(on_handles(EVENT_COMPLETE, [PCR, FIRST], NO_DATA, both), wrong)
        self.audited()

    def test_refusals(self):
        """Other refusals of sessions, by the layer and by the device."""
        self.start()
        session = self.session()
        other = "entry 1 is not a password or an HMAC session"
        policy = on_handle(UPDATE, FIRST, NO_DATA, [entry(0x03000000, bytes(16))])
        self.told(policy, "98b", "HANDLE/s1 (98b)", other)
        attribute = "entry 1 has an attribute other than continueSession"
        self.told(self.update(session, attributes=0x21), "982", attribute)
        session.handle = 0x02000003
        refused = "REFERENCE_S0 (918)", "the device refuses the layer's TPM2_GetRandom"
        self.told(self.update(session), "918", *refused)
        refused = "REFERENCE_S0 (918)", "the device refuses the layer's TPM2_HMAC"
        self.told(self.hmac_start(session), "918", *refused)


def by_sessions(device):
    """Computes a digest, an HMAC and an event by sessions; also sends wrong HMACs, and ends a
    session. Returns the response codes.
    """
    client = Sessions(device)
    key = client.key(KEY, SECRET, GUARDED)
    begun = len(device.events)
    bound = client.session(SHA1, key, SECRET)
    for session, value in ((client.session(), SECRET), (bound, b"")):
        sequence = client.hmac(session, key, value, PIN)
        client.send(sequence.update(b"data", own=bytes(session.size)))
        sequence.updated(b"data")
        assert sequence.completed(b"") == hmac_of(b"data")
        event = client.hash(session, ALG_NULL, PIN)
        wrong, right = {"value": PIN}, {"attributes": 0}
        client.send(session.event_complete(PCR, event.handle, b"", PIN, **wrong))
        session.accepted(session.event_complete(PCR, event.handle, b"", PIN, **right))
    session = client.session()
    client.send(client.hmac_start(session, key, PIN, value=b"wrong"))
    client.send(Guarded(session, event.handle, PIN).update(b"data"))
    return [it.response[6:10].hex() for it in device.events[begun:]]


class Other(CompletedModel):
    """Another TPM, with other secrets and other random bytes."""

    def __init__(self):
        super().__init__(model=Model(bytes(256)))
        self.seed = b"another"


class Logs(unittest.TestCase):
    def test_another_tpm(self):
        """For another TPM, the HMACs are computed again; wrong ones stay wrong."""
        with RecordedModel() as device:
            device.journal.go_on(device.completion.numbers)
            codes = by_sessions(device)
        self.assertEqual(set(codes), {"00000000", "000009a2", "0000098e", "00000910"})
        with Other() as other:
            report = Comparison(other).play(device.journal.text)
        self.assertEqual((report.differences, report.not_comparable), ([], []))
        there = [it.response[6:10].hex() for it in other.events]
        self.assertEqual(there[2 : 2 + len(codes)], codes)

    @unittest.skipUnless(shutil.which("swtpm"), "there is no swtpm")
    def test_swtpm(self):
        """swtpm returns the same codes, and its HMACs are right too."""
        with CompletedModel() as device, StartedSwtpm(seconds=PATIENCE) as other:
            codes = by_sessions(device)
            self.assertEqual(by_sessions(other), codes)

    def test_without_random_bytes(self):
        """A log of commands and responses alone shows the nonces, and can be replayed."""
        with CompletedModel() as device:
            by_sessions(device)
            lines = [f"cmd {it.buffer.hex()}\n# {it.response.hex()}" for it in device.events]
        log = "\n".join(f"# completed\n{it}" for it in lines).encode()
        events = list(Play().events(log))
        self.assertEqual(len(events), len(device.events))
        differ = [it.line for it in events if it.differences]
        self.assertEqual(differ, [])
        self.assertTrue(all(it.answers for it in events))

    def test_a_restored_device(self):
        """The layer of a state text continues with the same sessions and sequences."""
        with RecordedModel() as device:
            device.completion = Completion(7)
            device.journal.go_on(device.completion.numbers)
            by_sessions(device)
            events = list(Play().events(device.journal.text))
        self.assertFalse(any(it.differences for it in events))


if __name__ == "__main__":
    unittest.main()
