"""Tests of common uses that work with any kind of device."""

from hashlib import sha256

from tpmsim.caller import area, BY_OWNER, BY_POLICY, BY_VALUE, Caller, counter, digest_of, FIRST
from tpmsim.caller import flipped, HERE, hmac_key, Refused, sealed, STATE, storage_key, Use, wrong
from tpmsim.caller import WrongResponse
from tpmsim.device import Answered
from tpmsim.standard import AES, mac, nv, RH_LOCKOUT, RH_OWNER, RH_PLATFORM, SHA1, SHA256, XOR
from tpmsim.standard.objects import Attribute


class TwentyTests:
    """Tests of common uses that work with any kind of device. Each test gets a new, started device.
    `lacks` contains the tests that a device cannot run, with the reasons.
    """

    lacks = {}

    def device(self):
        raise NotImplementedError

    def setUp(self):
        name = self.id().rpartition(".")[2]
        if name in self.lacks:
            self.skipTest(self.lacks[name])
        self.tpm = Caller(self.enterContext(self.device()))
        self.tpm.start_up()

    def refusal(self, prepared):
        with self.assertRaises(Refused) as caught:
            self.tpm.send(prepared)
        return caught.exception

    def refused(self, prepared, code, check="G9"):
        """Checks that a command is refused. Only devices with a trace report the check that refused
        it.
        """
        refused = self.refusal(prepared)
        self.assertEqual(refused.code, code)
        self.assertIn(refused.check, (check, None))

    def test_fields(self):
        random = self.tpm.call("GetRandom", bytesRequested=8)
        self.assertEqual(len(random["randomBytes"]), 8)
        with self.assertRaisesRegex(KeyError, "GetRandom answers randomBytes"):
            random["nonceTPM"]
        clock = self.tpm.call("ReadClock")["currentTime"]
        self.assertEqual((clock.resets, clock.restarts, clock.is_safe), (1, 0, True))
        pcrs = self.tpm.call("PCR_Read", pcrSelectionIn=[(SHA1, [0]), (SHA256, [7, 10])])
        self.assertEqual(pcrs["pcrSelectionOut"], [(SHA1, (0,)), (SHA256, (7, 10))])
        self.assertEqual(pcrs["pcrValues"], [bytes(20), bytes(32), bytes(32)])
        event = self.tpm.call("PCR_Event", 16, eventData=b"")
        self.assertEqual([it.algorithm for it in event["digests"]], [SHA1, SHA256])

    def test_refusals(self):
        self.refused(self.tpm.reset(pcr=0), "AUTH_MISSING", "G7")
        self.refused(self.tpm.reset(b"", pcr=0), "LOCALITY", "A1")
        self.refused(self.tpm.command("NV_Read", FIRST, FIRST, size=1, offset=0), "HANDLE/h1", "G6")
        self.refused(self.tpm.command("SelfTest", fullTest=2), "VALUE/p1", "G11")
        self.refused(wrong(self.tpm.change_auth(RH_OWNER, b"", b"")), "BAD_AUTH/s1")
        words = str(self.refusal(self.tpm.reset(b"", pcr=0)))
        self.assertIn(words, ("PCR_Reset: LOCALITY (907), by A1", "PCR_Reset: LOCALITY (907)"))

    def test_sessions(self):
        for cipher in (AES, XOR):
            for algorithm in (SHA1, SHA256):
                old = self.tpm.auth_value(RH_OWNER)
                self.tpm.send(self.tpm.change_auth(RH_OWNER, b"owner", old))
                unbound = self.tpm.session(algorithm=algorithm, cipher=cipher)
                bound = self.tpm.session(RH_OWNER, algorithm=algorithm, cipher=cipher)
                for session in (unbound, bound):
                    self.tpm.send(self.tpm.change_auth(RH_OWNER, b"new", session.decrypting))
                    self.assertEqual(self.tpm.auth_value(RH_OWNER), b"new")
                    self.tpm.call("GetRandom", uses=[session.encrypting], bytesRequested=9)
                    self.tpm.send(self.tpm.flush(session))

    def test_wrong_hmac_of_a_response(self):
        session, device = self.tpm.session(RH_OWNER), self.tpm.device

        class Bent:
            def execute(self, buffer):
                return Answered(flipped(device.execute(buffer).response))

        self.tpm.device = Bent()
        self.assertRaises(WrongResponse, self.tpm.send, self.tpm.random(1, session))

    def test_objects(self):
        parent = self.tpm.create_primary(storage_key())
        made = self.tpm.create(parent, sealed(attributes=HERE, auth_policy=bytes(32)), data=b"data")
        self.refused(self.tpm.unsealing(self.tpm.load(parent, made)), "AUTH_UNAVAILABLE")
        key = self.tpm.create(parent, hmac_key(), data=b"key", user_auth=b"pin")
        handle, session = self.tpm.load(parent, key), self.tpm.session()
        answer = self.tpm.send(self.tpm.hmac(handle, b"text", SHA256, session))
        self.assertEqual(answer["outHMAC"], mac(SHA256, b"key", b"text"))
        self.tpm.send(self.tpm.evicting(RH_OWNER, handle, 0x8100_0000))
        self.tpm.send(self.tpm.flush(handle))
        self.assertNotIn(handle, self.tpm.names)
        self.assertEqual(self.tpm.send(self.tpm.public(0x8100_0000))["name"], key.public.name)

    def test_indices(self):
        index = self.tpm.define(area(attributes=BY_VALUE | BY_OWNER), auth=b"value")
        session = self.tpm.session(index)
        self.tpm.send(self.tpm.writing(index, b"8 bytes.", session))
        self.assertEqual(self.tpm.send(self.tpm.reading(index, 8))["data"], b"8 bytes.")
        self.tpm.send(self.tpm.index_public(index))
        self.tpm.send(self.tpm.undefining(index))
        self.assertNotIn(index, self.tpm.publics)
        number = self.tpm.define(counter(FIRST + 1))
        self.tpm.send(self.tpm.incrementing(number, session))
        self.assertEqual(self.tpm.send(self.tpm.reading(number, 8))["data"], bytes(7) + b"\1")

    def test_policies(self):
        words = (
            f"either\n    PolicyPCR sha256:0 {'11' * 32}\nor\n    PolicyLocality 1\n"
            "    PolicySecret OWNER 6469736b\nPolicyCommandCode NV_Write\nPolicyAuthValue\n"
        )
        public = area(attributes=BY_POLICY, auth_policy=digest_of(words))
        index = self.tpm.define(public, auth=b"pin")
        # PCR 0 has a different value, so the second branch is asserted.
        use = self.tpm.policy(words)
        self.refused(self.tpm.writing(index, b"8 bytes.", use), "LOCALITY")
        self.tpm.device.locality = 1
        self.tpm.send(self.tpm.writing(index, b"8 bytes.", use))
        self.refused(self.tpm.reading(index, 8, self.tpm.policy(words)), "POLICY_CC/s1")
        trial = self.tpm.trial()
        self.tpm.tell(trial, words.replace("11" * 32, sha256(bytes(32)).hexdigest()))
        told = self.tpm.send(self.tpm.get_digest(trial))["policyDigest"]
        self.assertNotEqual(told, digest_of(words))

    def test_no_branch_is_met(self):
        pcr = f"PolicyPCR sha256:0 {'11' * 32}"
        words = f"either\n    {pcr}\nor\n    {pcr}\n    PolicyPassword\n"
        self.assertRaisesRegex(Refused, "VALUE/p1", self.tpm.policy, words)

    def test_policy_of_an_index(self):
        index = self.tpm.define(area())
        self.tpm.send(self.tpm.writing(index, b"8 bytes."))
        name = self.tpm.name(index).hex()
        words = f"PolicyNV {name} {b'8'.hex()} 0 eq\nPolicyPassword\n"
        other = self.tpm.define(area(FIRST + 1, BY_POLICY, auth_policy=digest_of(words)), auth=b"a")
        self.tpm.send(self.tpm.writing(other, b"8 bytes.", self.tpm.policy(words)))

    def test_lockout(self):
        template = sealed(attributes=HERE | Attribute.USER_WITH_AUTH)
        handle = self.tpm.create_primary(template, data=b"x", user_auth=b"pin")
        for _ in range(3):
            self.assertEqual(self.refusal(self.tpm.unsealing(handle, b"")).name, "AUTH_FAIL")
        self.assertEqual(self.refusal(self.tpm.unsealing(handle)).name, "LOCKOUT")
        self.tpm.device.wait(3_600_000)
        self.assertEqual(self.tpm.send(self.tpm.unsealing(handle))["outData"], b"x")

    def test_power_cycle(self):
        self.tpm.send(self.tpm.change_auth(RH_PLATFORM, b"platform", b""))
        self.tpm.send(self.tpm.shutting_down(STATE))
        self.tpm.device.power_cycle()
        self.assertEqual(self.refusal(self.tpm.random(1)).code, "INITIALIZE")
        self.tpm.start_up(STATE)
        self.assertEqual(self.tpm.auth_value(RH_PLATFORM), b"platform")
        self.tpm.device.power_cycle()
        self.tpm.start_up()
        self.assertEqual(self.tpm.auth_value(RH_PLATFORM), b"")

    def test_snapshot(self):
        """A snapshot restores sessions and objects with their nonces, any number of times."""
        handle = self.tpm.create_primary(sealed(), data=b"data")
        session = self.tpm.session(RH_OWNER)
        nonce, before = session.nonce_tpm, self.tpm.device.snapshot()
        for _ in range(2):
            session.nonce_tpm = nonce
            self.assertEqual(self.tpm.send(self.tpm.unsealing(handle, session))["outData"], b"data")
            self.tpm.device.power_cycle()
            self.tpm.device.restore(before)

    def test_end_of_a_session(self):
        session = self.tpm.session()
        self.tpm.call("GetRandom", uses=[Use(session, 0)], bytesRequested=1)
        again = self.tpm.command("GetRandom", uses=[session], bytesRequested=1)
        self.refused(again, "REFERENCE_S0", "G8")

    def test_wrong_hmac(self):
        """After a wrong HMAC, the session and its nonce are unchanged."""
        session = self.tpm.session(RH_OWNER)
        self.refused(wrong(self.tpm.change_auth(RH_OWNER, b"new", session)), "BAD_AUTH/s1")
        self.tpm.send(self.tpm.change_auth(RH_OWNER, b"new", session))

    def test_sealed_to_pcrs(self):
        words = f"PolicyPCR sha256:10 {sha256(bytes(32)).hexdigest()}\n"
        parent = self.tpm.create_primary(storage_key())
        public = sealed(attributes=HERE, auth_policy=digest_of(words))
        handle = self.tpm.load(parent, self.tpm.create(parent, public, data=b"data"))
        unsealed = self.tpm.send(self.tpm.unsealing(handle, self.tpm.policy(words)))
        self.assertEqual(unsealed["outData"], b"data")
        use = self.tpm.policy(words)
        self.tpm.send(self.tpm.event(b"moved", b"", pcr=10))
        self.refused(self.tpm.unsealing(handle, use), "PCR_CHANGED")

    def test_lock_until_the_next_start(self):
        index = self.tpm.define(area(attributes=BY_OWNER | BY_VALUE | nv.Attribute.READ_STCLEAR))
        self.tpm.send(self.tpm.writing(index, b"8 bytes."))
        self.tpm.send(self.tpm.read_locking(index))
        self.refused(self.tpm.reading(index, 8), "NV_LOCKED", "A2")
        self.tpm.device.power_cycle()
        self.tpm.start_up()
        self.assertEqual(self.tpm.send(self.tpm.reading(index, 8))["data"], b"8 bytes.")

    def test_written_once(self):
        once = "PolicyNvWritten 0\n"
        index = self.tpm.define(area(attributes=BY_POLICY, auth_policy=digest_of(once)))
        self.tpm.send(self.tpm.writing(index, b"8 bytes.", self.tpm.policy(once)))
        self.refused(self.tpm.writing(index, b"No more.", self.tpm.policy(once)), "POLICY_FAIL/s1")

    def test_pin(self):
        words = "PolicyAuthValue\n"
        public = sealed(attributes=HERE, auth_policy=digest_of(words))
        handle = self.tpm.create_primary(public, data=b"data", user_auth=b"pin")
        unsealed = self.tpm.send(self.tpm.unsealing(handle, self.tpm.policy(words)))
        self.assertEqual(unsealed["outData"], b"data")
        self.refused(wrong(self.tpm.unsealing(handle, self.tpm.policy(words))), "AUTH_FAIL/s1")

    def test_saved_pcrs(self):
        self.tpm.send(self.tpm.event(b"measured", b"", pcr=0))
        before = self.tpm.send(self.tpm.read_pcr(0))["pcrValues"]
        self.tpm.send(self.tpm.shutting_down(STATE))
        self.tpm.device.power_cycle()
        self.tpm.start_up(STATE)
        self.assertEqual(self.tpm.send(self.tpm.read_pcr(0))["pcrValues"], before)

    def test_clear(self):
        self.tpm.send(self.tpm.change_auth(RH_OWNER, b"owner", b""))
        index = self.tpm.define(area())
        self.tpm.send(self.tpm.clearing(RH_LOCKOUT))
        self.refused(self.tpm.command("NV_ReadPublic", index), "HANDLE/h1", "G6")
        self.tpm.send(self.tpm.change_auth(RH_OWNER, b"new", b""))
