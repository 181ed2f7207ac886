"""Tests each common mistake in a policy digest. The test computes the digest itself, with one
change. The explanation reports exactly the mistakes that were made, one or two. It reports none if
no mistake explains the digest.
"""

import hashlib
import itertools
import random
import re
import unittest

from explained_logs import explained
from tpmsim.caller import area, BY_OWNER, Caller, HERE, Refused, sealed
from tpmsim.device import ModelDevice
from tpmsim.explain import policy_slips
from tpmsim.standard import CC, number, RH_ENDORSEMENT, SE_POLICY, selection, SHA1, SHA256
from tpmsim.standard.objects import Attribute

HASHES = {SHA1: "sha1", SHA256: "sha256"}
ROUNDS = 2


def sized(data):
    return number(len(data), 2) + data


class Case:
    """A policy session with four assertions, after a PCR was extended."""

    PCR = 16

    def __init__(self, seed):
        self.pick = random.Random(seed)
        self.device = ModelDevice(seed=seed.encode())
        self.tpm = Caller(self.device, self.pick.randbytes)
        self.tpm.start_up()
        self.algorithm = self.pick.choice((SHA1, SHA256))
        self.index = self.tpm.define(area(attributes=BY_OWNER, algorithm=self.algorithm))
        self.unwritten = self.tpm.name(self.index)
        self.tpm.send(self.tpm.writing(self.index, b"8 bytes.", by=0x40000001))
        self.before = self.values(), self.values(SHA1)
        self.tpm.send(self.tpm.event(self.pick.randbytes(8), b"", pcr=self.PCR))
        self.line = len(self.device.trace) - 1
        self.reference = self.pick.randbytes(9)

    def values(self, bank=SHA256, pcr=PCR):
        response = self.tpm.call("PCR_Read", pcrSelectionIn=[(bank, [pcr])])
        return response["pcrValues"][0]

    def hash(self, data, algorithm=None):
        return hashlib.new(HASHES[algorithm or self.algorithm], data).digest()

    def told(self):
        """Makes the right assertions on the device, and returns the session."""
        session = self.tpm.session(kind=SE_POLICY, algorithm=self.algorithm)
        self.tpm.send(self.tpm.pcrs(session, [(SHA256, [self.PCR])]))
        secret = self.tpm.secret(session, of=RH_ENDORSEMENT, policy_ref=self.reference)
        self.tpm.send(secret)
        compared = self.tpm.comparing(session, self.index, b"8 byt", b"", by=0x40000001)
        self.tpm.send(compared)
        self.tpm.send(self.tpm.command_code(session, CC.Unseal))
        self.tpm.send(self.tpm.auth_value_told(session))
        return session

    def links(self):
        """Returns functions that compute the digest after each assertion, in order. Each takes the
        previous digest as its argument.
        """
        return {
            "pcr": lambda old: self.hash(old + self.pcr_text()),
            "secret": lambda old: self.secret_hash(old, number(RH_ENDORSEMENT, 4)),
            "nv": lambda old: self.nv_hash(old, self.tpm.name(self.index)),
            "code": lambda old: self.hash(
                old + number(CC.PolicyCommandCode, 4) + number(CC.Unseal, 4)
            ),
            "value": lambda old: self.hash(old + number(CC.PolicyAuthValue, 4)),
        }

    def pcr_text(self, bank=SHA256, values=None, pcr=PCR):
        values = self.values(bank, pcr) if values is None else values
        return number(CC.PolicyPCR, 4) + selection((bank, [pcr])) + self.hash(values)

    def secret_hash(self, old, name):
        return self.hash(self.hash(old + number(CC.PolicySecret, 4) + name) + self.reference)

    def arguments(self):
        return b"8 byt" + number(0, 2) + number(0, 2)

    def nv_hash(self, old, name):
        return self.hash(old + number(CC.PolicyNV, 4) + self.hash(self.arguments()) + name)

    def digest(self, links, begin=None):
        made = bytes(len(self.hash(b""))) if begin is None else begin
        for it in links.values():
            made = it(made)
        return made

    def refused(self, auth_policy, tried=()):
        """Returns the reason why TPM2_Unseal refuses an object with the policy `auth_policy`."""
        session = self.told()
        template = sealed(self.algorithm, HERE | Attribute.NO_DA, auth_policy=auth_policy)
        handle = self.tpm.create_primary(template, data=b"x", user_auth=b"pin")
        try:
            self.tpm.send(self.tpm.unsealing(handle, session))
        except Refused:
            found = explained(self.device, tried).reason
            assert found.rule == "condition/8", found
            return found
        raise AssertionError("the policy is the right one")


def link(place, make):
    """Returns a change that computes one digest of the chain with `make`, from the case and the
    previous digest.
    """

    def of_link(case, links):
        links[place] = lambda old: make(case, old)

    of_link.place = place
    return of_link


def reordered(*names):
    def turn(case, links):
        those = {it: links[it] for it in names if it in links}
        links.clear()
        links.update(those)

    return turn


def pcrs(make):
    code = number(CC.PolicyPCR, 4)
    return link(
        "pcr", lambda case, old: case.hash(old + code + make(case, selection((SHA256, [Case.PCR]))))
    )


def other(algorithm):
    return SHA1 if algorithm == SHA256 else SHA256


SECRET = number(RH_ENDORSEMENT, 4)
SIGN = 0x15D  # a command that the device does not support
AUTH, PASSWORD = number(CC.PolicyAuthValue, 4), number(CC.PolicyPassword, 4)

ROWS = (
    ("order of assertions", reordered("secret", "pcr", "nv", "code", "value")),
    ("order of assertions", reordered("value", "code", "secret", "nv", "pcr")),
    ("assertion too many", reordered("pcr", "secret", "code", "value")),
    ("assertion missing", lambda case, links: links.update(last=lambda old: case.hash(old + AUTH))),
    (
        "assertion missing",
        lambda case, links: links.update(
            last=lambda old: case.hash(old + number(CC.PolicyNvWritten, 4) + b"\1")
        ),
    ),
    ("other bank", link("pcr", lambda case, old: case.hash(old + case.pcr_text(SHA1)))),
    (
        "other bank",
        link("pcr", lambda case, old: case.hash(old + case.pcr_text(SHA1, case.before[1]))),
    ),
    (
        "PCRs moved",
        link("pcr", lambda case, old: case.hash(old + case.pcr_text(values=case.before[0]))),
    ),
    ("another PCR", link("pcr", lambda case, old: case.hash(old + case.pcr_text(pcr=17)))),
    ("PCR digest before the selection", pcrs(lambda case, those: case.hash(case.values()) + those)),
    ("PCR digest with its size", pcrs(lambda case, those: those + sized(case.hash(case.values())))),
    ("selection left out", pcrs(lambda case, those: case.hash(case.values()))),
    ("PCR digest left out", pcrs(lambda case, those: those)),
    (
        "PCR digest by another hash",
        pcrs(lambda case, those: those + case.hash(case.values(), other(case.algorithm))),
    ),
    ("PCR values not hashed", pcrs(lambda case, those: those + case.values())),
    ("code of PolicyPassword", link("value", lambda case, old: case.hash(old + PASSWORD))),
    (
        "policyRef in one hash",
        link(
            "secret",
            lambda case, old: case.hash(old + number(CC.PolicySecret, 4) + SECRET + case.reference),
        ),
    ),
    ("Name with its size", link("secret", lambda case, old: case.secret_hash(old, sized(SECRET)))),
    ("old Name in a policy", link("nv", lambda case, old: case.nv_hash(old, case.unwritten))),
    (
        "Name with its size",
        link("nv", lambda case, old: case.nv_hash(old, sized(case.tpm.name(case.index)))),
    ),
    ("handle as Name", link("nv", lambda case, old: case.nv_hash(old, number(case.index, 4)))),
    (
        "PolicyNV's arguments not hashed",
        link(
            "nv",
            lambda case, old: case.hash(
                old + number(CC.PolicyNV, 4) + case.arguments() + case.tpm.name(case.index)
            ),
        ),
    ),
    (
        "other value in a policy",
        link(
            "code",
            lambda case, old: case.hash(
                old + number(CC.PolicyCommandCode, 4) + number(CC.NV_Read, 4)
            ),
        ),
    ),
    (
        "other value in a policy",
        link(
            "code",
            lambda case, old: case.hash(old + number(CC.PolicyCommandCode, 4) + number(SIGN, 4)),
        ),
    ),
    (
        "policy without its code",
        link("code", lambda case, old: case.hash(old + number(CC.Unseal, 4))),
    ),
    (
        "policy's code first",
        link(
            "code",
            lambda case, old: case.hash(
                number(CC.PolicyCommandCode, 4) + old + number(CC.Unseal, 4)
            ),
        ),
    ),
)

NONE = (
    link("code", lambda case, old: case.hash(old + b"?")),
    link("pcr", lambda case, old: case.hash(old + case.pcr_text(values=b"no PCR has them"))),
    lambda case, links: links.update(last=lambda old: case.hash(old + b"more")),
)


def pairs_of(rows, most=60):
    """Yields some pairs of mistakes. If one of them changes a single digest and the other changes
    the order of the assertions, the mistake in the digest comes first.
    """
    pairs = list(itertools.combinations(rows, 2))
    for first, second in random.Random("pairs").sample(pairs, most):
        places = [getattr(it[1], "place", None) for it in (first, second)]
        if places[0] is None or places[0] != places[1]:
            yield (second, first) if places[1] and not places[0] else (first, second)


class PolicySlips(unittest.TestCase):
    def turned(self, case, *turns):
        links = case.links()
        for turn in turns:
            turn(case, links)
        return case.digest(links)

    def test_each_alone(self):
        for at, (name, turn) in enumerate(ROWS):
            for round in range(ROUNDS):
                with self.subTest(f"{name} {at} {round}"):
                    case = Case(f"{name} {at} {round}")
                    found = case.refused(self.turned(case, turn))
                    self.assertEqual(found.slips, [name])

    def test_two(self):
        """Makes pairs of mistakes at different links of the chain, neither of which undoes the
        other.
        """
        named = 0
        for at, (first, second) in enumerate(pairs_of(ROWS)):
            case = Case(f"two {at} {first[0]}, {second[0]}")
            made = self.turned(case, first[1], second[1])
            if made in [self.turned(case, *those) for those in ((), first[1:], second[1:])]:
                continue
            with self.subTest(f"{at} {first[0]}, {second[0]}"):
                found = case.refused(made)
                self.assertEqual(sorted(found.slips), sorted([first[0], second[0]]))
                self.assertEqual(found.words.count("would match"), 1, found.words)
                self.assertRegex(found.words, r" \w.*, and [wi].*, it would match[.:]")
                named += 1
        self.assertGreater(named, 45)

    def test_none(self):
        for at, turn in enumerate(NONE):
            case = Case(f"none {at}")
            found = case.refused(self.turned(case, turn))
            self.assertEqual(found.slips, [])
            self.assertRegex(found.words, r"No known slip makes it: [\d,]+ digests, of other")

    def test_so_much_is_tried(self):
        """If a policy has many assertions, only a few of them are tried with mistakes."""
        tpm = Caller(ModelDevice(seed=b"much"))
        tpm.start_up()
        session = tpm.session(kind=SE_POLICY)
        for _ in range(300):
            tpm.send(tpm.pcrs(session, [(SHA256, [16, 17])]))
        template = sealed(attributes=HERE | Attribute.NO_DA, auth_policy=b"\7" * 32)
        handle = tpm.create_primary(template, data=b"x")
        self.assertRaises(Refused, tpm.send, tpm.unsealing(handle, session))
        words = explained(tpm.device).reason.words
        tried = int(re.search(r"([\d,]+) digests", words)[1].replace(",", ""))
        most = 2 * policy_slips.MOST_LINKS + 3 * policy_slips.MOST_PAIRED
        self.assertTrue(300 < tried <= most // 300)

    def test_words(self):
        case = Case("words")
        digest = self.turned(case, reordered("secret", "pcr", "nv", "code", "value"))
        self.assertIn(
            "In another order it would match: PolicySecret of line", case.refused(digest).words
        )
        case = Case("moved")
        old = link("pcr", lambda case, old: case.hash(old + case.pcr_text(values=case.before[0])))
        words = f"With the PCRs as they were before line {case.line} it would match: PCR 16."
        self.assertIn(words, case.refused(self.turned(case, old)).words)
        case = Case("both")
        other = link("pcr", lambda case, old: case.hash(old + case.pcr_text(pcr=17)))
        turns = other, reordered("pcr", "secret", "code", "value")
        words = "With PCR 17 instead of PCR 16, and without PolicyNV of line "
        self.assertIn(words, case.refused(self.turned(case, *turns)).words)
        case = Case("bank")
        bank = link("pcr", lambda case, old: case.hash(old + case.pcr_text(SHA1)))
        found = case.refused(self.turned(case, bank))
        self.assertIn("With the PCRs of the bank SHA-1 it would match.", found.words)

    def test_tried(self):
        value = b"in none of them"
        turn = link("secret", lambda case, old: case.secret_hash(old, value))
        case = Case("tried")
        digest = self.turned(case, turn)
        self.assertEqual(case.refused(digest).slips, [])
        case = Case("tried")
        found = case.refused(digest, (value,))
        self.assertEqual(found.slips, ["tried value"])
        self.assertIn('"in none of them", in PolicySecret', found.words)

    def test_or(self):
        """Two mistakes in a PolicyOR are found: its branches are in another order, or the zeros
        before them are left out.
        """
        branches = b"\1" * 32, bytes(32), b"\3" * 32
        text = number(CC.PolicyOR, 4)
        for name, wanted in (
            ("other value in a policy", bytes(32) + text + b"".join(branches[::-1])),
            ("PolicyOR without its zeros", text + b"".join(branches)),
        ):
            tpm = Caller(ModelDevice(seed=b"or"))
            tpm.start_up()
            session = tpm.session(kind=SE_POLICY)
            tpm.send(tpm.branches(session, *branches))
            digest = hashlib.sha256(wanted).digest()
            template = sealed(attributes=HERE | Attribute.NO_DA, auth_policy=digest)
            handle = tpm.create_primary(template, data=b"x")
            self.assertRaises(Refused, tpm.send, tpm.unsealing(handle, session))
            self.assertEqual(explained(tpm.device).reason.slips, [name])


class ByATrial(unittest.TestCase):
    """The expected digest is the digest of a trial session in the same log."""

    def setUp(self):
        self.device = ModelDevice(seed=b"trials")
        self.tpm = Caller(self.device, random.Random(2).randbytes)
        self.tpm.start_up()

    def tell(self, session, *those):
        for it in those:
            if it == "value":
                self.tpm.send(self.tpm.auth_value_told(session))
            elif it == "code":
                self.tpm.send(self.tpm.command_code(session, CC.Unseal))
            else:
                self.tpm.send(self.tpm.pcrs(session, [(it, [16])]))

    def refused(self, wanted, told, between=lambda: None):
        trial = self.tpm.trial()
        self.tell(trial, *wanted)
        digest = self.tpm.send(self.tpm.get_digest(trial))["policyDigest"]
        between()
        template = sealed(attributes=HERE | Attribute.NO_DA, auth_policy=digest)
        handle = self.tpm.create_primary(template, data=b"x")
        session = self.tpm.session(kind=SE_POLICY)
        self.tell(session, *told)
        self.assertRaises(Refused, self.tpm.send, self.tpm.unsealing(handle, session))
        return explained(self.device).reason

    def test_order(self):
        found = self.refused(("code", "value", SHA256), (SHA256, "value", "code"))
        self.assertEqual(found.slips, ["order of assertions"])
        self.assertIn("The order is another one; the wanted one is PolicyCommandCode", found.words)

    def test_bank(self):
        found = self.refused(("code", SHA1), ("code", SHA256))
        self.assertEqual(found.slips, ["other bank"])
        self.assertIn("The bank is another one; the wanted one is SHA-1.", found.words)

    def test_before_an_extend(self):
        extend = lambda: self.tpm.send(self.tpm.event(b"moves", b"", pcr=16))
        found = self.refused((SHA256,), (SHA256,), extend)
        self.assertEqual(found.slips, ["PCRs moved"])
        self.assertRegex(found.words, r"PCR 16\. The wanted digest has them .* before line \d+\.")


if __name__ == "__main__":
    unittest.main()
