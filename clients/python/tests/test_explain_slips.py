"""Makes each of a caller's common mistakes in random sessions, and checks that the explanation
reports it. For an HMAC that consists of random bytes, the explanation must report no mistake.
"""

import random
import unittest
from dataclasses import replace

from tpmsim.caller import area, BY_VALUE, Caller, digest_of, HERE, hmac_key, Refused, sealed, Use
from tpmsim.device import ModelDevice
from tpmsim.standard import AES, ALG_NULL, CONTINUE_SESSION, ENCRYPT, number, policy, RH_NULL
from tpmsim.standard import RH_OWNER, sessions, SHA1, SHA256, sized, XOR
from tpmsim.standard.objects import Attribute
from explained_logs import explained, sessions_of, without_value

# The number of random sessions in which each mistake is made.
ROUNDS = 10


def other_hash(algorithm):
    return SHA1 if algorithm == SHA256 else SHA256


class Case:
    """A random session on a device, and a command that the session may authorize. `pick` is the
    source of all random choices.
    """

    def __init__(self, seed, bound=None, entity=None, cipher=None):
        self.pick = random.Random(seed)
        self.device = ModelDevice(seed=seed.encode())
        self.tpm = Caller(self.device, self.pick.randbytes)
        self.tpm.start_up()
        self.value = self.fresh_value()
        self.entity = entity or self.pick.choice(("owner", "index", "object"))
        self.handle = getattr(self, f"with_{self.entity}")()
        self.algorithm = self.pick.choice((SHA1, SHA256))
        self.cipher = self.pick.choice((ALG_NULL, AES, XOR)) if cipher is None else cipher
        self.is_bound = self.pick.random() < 0.5 if bound is None else bound
        self.session = self.tpm.session(
            self.handle if self.is_bound else RH_NULL,
            algorithm=self.algorithm,
            cipher=self.cipher,
            size=self.pick.randrange(16, sessions.digest_bytes(self.algorithm) + 1),
        )

    def fresh_value(self):
        """Returns a value that is not empty, does not end with zeros, and is not a text."""
        return self.pick.randbytes(self.pick.randrange(3, 16)) + b"\xfe"

    def with_owner(self):
        self.tpm.send(self.tpm.change_auth(RH_OWNER, self.value, b""))
        return RH_OWNER

    def with_index(self):
        return self.tpm.define(area(attributes=BY_VALUE), auth=self.value)

    def with_object(self):
        return self.tpm.create_primary(hmac_key(), data=b"key", user_auth=self.value)

    def use(self, *more, attributes=CONTINUE_SESSION):
        """Returns a correct command that the entity authorizes."""
        means = Use(self.session, attributes), *more
        if self.entity == "owner":
            return self.tpm.change_auth(RH_OWNER, self.pick.randbytes(8), *means)
        if self.entity == "index":
            return self.tpm.writing(self.handle, self.pick.randbytes(8), *means)
        return self.tpm.hmac(self.handle, self.pick.randbytes(8), SHA256, *means)

    def by_policy(self, words, bind=RH_NULL, demand=None):
        """Returns a TPM2_Unseal of an object with the value "pin", authorized by its policy."""
        digest = digest_of(words, self.algorithm)
        template = sealed(self.algorithm, HERE | Attribute.NO_DA, auth_policy=digest)
        handle = self.tpm.create_primary(template, self.value, data=b"x", user_auth=b"pin")
        use = self.tpm.policy(words, self.algorithm, bind=bind)
        use.demand = demand or use.demand
        return self.tpm.unsealing(handle, use)

    def go_on(self, times):
        """Uses the session `times` times, so that its nonce changes each time."""
        for _ in range(times):
            self.tpm.call("GetRandom", uses=[self.session], bytesRequested=1)

    def parts(self, prepared):
        """Returns the ingredients of the first entry's HMAC, named as in sessions.entry_hmac."""
        means, tpm, handle = prepared.uses[0], self.tpm, prepared.authorized(1)
        algorithm = means.session.algorithm
        return {
            "algorithm": algorithm,
            "key": tpm.key(means, handle),
            "parameters": tpm.cp_hash(prepared, algorithm),
            "newer": means.nonce,
            "older": means.session.nonce_tpm,
            "others": tpm.nonces_of_others(prepared, 1, handle),
            "attributes": means.attributes,
        }

    def bent(self, prepared, hashed=None, **changes):
        """Returns the command with an HMAC that is computed from changed parts. `hashed` changes
        the parts of its cpHash.
        """
        if hashed is not None:
            changes["parameters"] = self.cp_hash(prepared, **hashed)
        return prepared.but_entry(1, hmac=sessions.entry_hmac(**(self.parts(prepared) | changes)))

    def cp_hash(self, prepared, algorithm=None, names=None, parameters=None, front=b""):
        own = [self.tpm.name(it) for it in prepared.handles]
        text = front + number(prepared.code, 4) + b"".join(own if names is None else names)
        text += prepared.parameters if parameters is None else parameters
        return sessions.digest(algorithm or self.session.algorithm, text)


# Mistakes that a caller may make in every command. Each row has a seed, the choices for its
# sessions, the name of the mistake, and the changed parts of the HMAC.
ALWAYS = (
    ("left out", {"bound": False}, "authValue left out", lambda it: {"key": b""}),
    ("put in", {"bound": True}, "authValue put in", lambda it: {"key": it.session.key + it.value}),
    ("handle", {"entity": "object"}, "handle as Name", lambda it: hashed([number(it.handle, 4)])),
    ("no names", {}, "Names left out", lambda it: hashed([])),
    ("response", {}, "response's hash", lambda it: hashed([], bytes(4))),
    ("no key", {"bound": True}, "session key left out", lambda it: {"key": b""}),
)


def hashed(names, front=b""):
    return {"hashed": {"names": names, "front": front}}


class Slips(unittest.TestCase):
    def slips_of(self, case, prepared):
        """Returns the mistakes that are reported for a command, which must be refused."""
        with self.assertRaises(Refused) as caught:
            case.tpm.send(prepared)
        self.assertIn(caught.exception.name, ("BAD_AUTH", "AUTH_FAIL"))
        return explained(case.device).reason.slips

    def refused(self, case, prepared, *wanted):
        """Checks that a command is refused, and that exactly these mistakes are reported."""
        self.assertEqual(self.slips_of(case, prepared), list(wanted), "\n".join(case.device.trace))

    def bends(self, case, wanted, prepared=None, **changes):
        """Checks the mistake that is reported for a command whose HMAC was computed from these
        wrong parts.
        """
        self.refused(case, case.bent(prepared or case.use(), **changes), wanted)

    def cases(self, name, **choices):
        for at in range(ROUNDS):
            yield Case(f"{name} {at}", **choices)

    def test_in_every_command(self):
        for name, choices, slip, changes in ALWAYS:
            for case in self.cases(name, **choices):
                self.bends(case, slip, **changes(case))

    def test_random_hmacs(self):
        for case in self.cases("random"):
            case.go_on(case.pick.randrange(3))
            prepared = case.use()
            hmac = case.pick.randbytes(sessions.digest_bytes(case.algorithm))
            self.refused(case, prepared.but_entry(1, hmac=hmac))
            flipped = bytearray(prepared.entries[0].hmac)
            flipped[case.pick.randrange(len(flipped))] ^= 1 << case.pick.randrange(8)
            self.refused(case, prepared.but_entry(1, hmac=bytes(flipped)))

    def test_nonces_swapped(self):
        for case in self.cases("swapped"):
            case.go_on(case.pick.randrange(3))
            prepared = case.use()
            parts = case.parts(prepared)
            swapped = {"newer": parts["older"], "older": parts["newer"]}
            self.bends(case, "nonces swapped", prepared, **swapped)

    def test_old_nonce(self):
        for case in self.cases("old"):
            old = case.session.nonce_tpm
            case.go_on(case.pick.randrange(1, 6))
            self.bends(case, "old nonceTPM", older=old)

    def test_old_nonce_of_the_caller(self):
        for case in self.cases("old caller"):
            means = Use(case.session)
            case.tpm.call("GetRandom", uses=[means], bytesRequested=1)
            self.bends(case, "old nonceCaller", newer=means.nonce)

    def test_auth_value_put_in_where_nothing_is_authorized(self):
        for case in self.cases("nothing", bound=True):
            key = case.session.key + case.value
            self.bends(case, "authValue put in", case.tpm.random(4, case.session), key=key)

    def test_auth_value_in_a_policy(self):
        """The authorization value is used without PolicyAuthValue, or left out after it."""
        for words, in_key, wanted in (
            ("PolicyCommandCode Unseal\n", b"pin", "authValue put in"),
            ("PolicyAuthValue\n", b"", "authValue left out"),
        ):
            for case in self.cases("policy", entity="owner"):
                prepared = case.by_policy(words, bind=RH_OWNER)
                self.bends(case, wanted, prepared, key=prepared.uses[0].session.key + in_key)

    def test_old_and_new_auth_values(self):
        for case in self.cases("values", bound=False, entity="owner", cipher=ALG_NULL):
            case.tpm.send(case.tpm.change_auth(RH_OWNER, b"another", case.session))
            self.bends(case, "old authValue", key=case.value)
            new = case.tpm.change_auth(RH_OWNER, b"newer still", case.session)
            self.bends(case, "new authValue", new, key=b"newer still")

    def test_binding_lapsed(self):
        for case in self.cases("lapsed", bound=True, entity="owner"):
            case.tpm.send(case.tpm.change_auth(RH_OWNER, case.fresh_value(), case.value))
            self.bends(case, "binding lapsed", key=case.session.key)

    def test_binding_lapsed_by_the_first_write(self):
        for case in self.cases("first write", bound=True, entity="index"):
            case.tpm.send(case.tpm.writing(case.handle, b"8 bytes."))
            self.bends(case, "binding lapsed", key=case.session.key)

    def test_old_name(self):
        for case in self.cases("name", bound=False, entity="index"):
            old = case.tpm.name(case.handle)
            case.tpm.send(case.use())
            self.bends(case, "old Name", hashed={"names": [old, old]})

    def test_old_name_and_lapsed_binding(self):
        """The caller does not know that the index was written, which changed its Name and ended the
        session's binding.
        """
        for case in self.cases("both", bound=True, entity="index"):
            old = case.tpm.name(case.handle)
            case.tpm.send(case.use())
            bent = case.bent(case.use(), {"names": [old, old]}, key=case.session.key)
            self.assertEqual(sorted(self.slips_of(case, bent)), ["binding lapsed", "old Name"])

    def test_parameters_hashed_plain(self):
        for at in range(ROUNDS):
            case = Case(f"plain {at}", cipher=(AES, XOR)[at % 2])
            plain, by = case.pick.randbytes(9), case.session.decrypting
            if case.entity == "owner":
                prepared, text = case.tpm.change_auth(RH_OWNER, plain, by), sized(plain)
            elif case.entity == "index":
                prepared = case.tpm.writing(case.handle, plain[:8], by)
                text = sized(plain[:8]) + bytes(2)
            else:
                prepared = case.tpm.hmac(case.handle, plain, SHA256, by)
                text = sized(plain) + number(SHA256, 2)
            self.bends(case, "parameters hashed plain", prepared, hashed={"parameters": text})

    def test_parameters_hashed_plain_and_encrypted_without_the_value(self):
        for case in self.cases("plain mask", cipher=XOR, entity="owner"):
            plain = case.pick.randbytes(9)
            with case.tpm.breaking(encrypted=without_value(case.tpm)):
                prepared = case.tpm.change_auth(RH_OWNER, plain, case.session.decrypting)
            hashed = {"parameters": sized(plain)}
            self.bends(case, "parameters hashed plain", prepared, hashed=hashed)

    def test_zeros(self):
        """A padded value is a mistake if the key becomes longer than a block, or if the zeros
        precede the value.
        """
        for case in self.cases("zeros", bound=False):
            prepared = case.use()
            for padded in (
                case.value.ljust(case.pick.randrange(65, 129), b"\0"),
                case.value.rjust(32, b"\0"),
            ):
                self.bends(case, "zeros", prepared, key=padded)

    def test_attributes_of_before(self):
        for case in self.cases("attributes", cipher=XOR):
            attributes = CONTINUE_SESSION | ENCRYPT if case.entity == "object" else 0
            prepared = case.use(attributes=attributes)
            self.bends(case, "other attributes", prepared, attributes=CONTINUE_SESSION)
            words = explained(case.device).reason.facts[-1].value
            self.assertIn("were 01 (continueSession); sent were", words)
            case.go_on(1)
            ending = case.use(attributes=0)
            self.bends(case, "other attributes", ending, attributes=CONTINUE_SESSION)
            words = explained(case.device).reason.facts[-1].value
            self.assertIn("which are those of the entry before; sent were 00", words)

    def test_wrong_hash(self):
        for case in self.cases("hash"):
            prepared, other = case.use(), {"algorithm": other_hash(case.algorithm)}
            for changes in ({"hashed": other}, other, {"hashed": other} | other):
                self.bends(case, "wrong hash", prepared, **changes)

    def test_wrong_hash_of_the_session_key(self):
        for case in self.cases("key hash", bound=True):
            algorithm, first = case.algorithm, case.session.nonce_tpm
            own = list(sessions_of(case.device))[-1].nonce_caller
            for wanted, *parts in (
                ("wrong hash", other_hash(algorithm), case.value, first, own),
                ("session key, nonces swapped", algorithm, case.value, own, first),
                ("session key, other authValue", algorithm, b"", first, own),
            ):
                self.bends(case, wanted, key=sessions.session_key(*parts))

    def test_nonces_of_others(self):
        for case in self.cases("others", entity="object", bound=False):
            second = case.tpm.session(cipher=AES, algorithm=case.algorithm)
            third = case.tpm.session(cipher=XOR, algorithm=case.algorithm)
            prepared = case.use(second.decrypting, third.encrypting)
            others = case.parts(prepared)["others"]
            self.bends(case, "other nonces left out", prepared, others=[])
            self.bends(case, "other nonces in another order", prepared, others=others[::-1])

    def test_left_out_in_plain_and_sent_again(self):
        for case in self.cases("again", bound=False):
            prepared = case.use()
            self.refused(case, prepared.but_entry(1, hmac=b""), "HMAC left out")
            self.refused(case, prepared.but_entry(1, hmac=case.value), "authValue in plain")
            case.tpm.send(prepared)
            self.refused(case, prepared, "sent again")

    def test_another_session(self):
        for case in self.cases("another", bound=True):
            other = case.tpm.session(RH_OWNER, algorithm=case.algorithm)
            case.tpm.call("GetRandom", uses=[other], bytesRequested=1)
            bent = case.bent(case.use(), key=other.key, older=other.nonce_tpm)
            self.assertIn("another session", self.slips_of(case, bent))

    def test_passwords(self):
        for case in self.cases("password"):
            for given, wanted in (
                (b"", "password left out"),
                (case.value + b"\n", "password with a line break"),
                (case.value.rjust(32, b"\0"), "zeros"),
            ):
                prepared = case.use().but(uses=[given])
                entry = replace(prepared.entries[0], handle=0x40000009, nonce=b"", hmac=given)
                self.refused(case, prepared.but(entries=[entry]), wanted)

    def test_hmac_in_place_of_a_password(self):
        for case in self.cases("in place", entity="owner"):
            prepared = case.by_policy("PolicyPassword\n", demand=policy.AUTH_VALUE)
            self.refused(case, prepared, "HMAC in place of a password")
