"""Tests each common mistake in an HMAC, with a caller that changes one ingredient. The explanation
reports exactly the mistakes that were made, one or two. It reports none if no mistake explains the
HMAC.
"""

import base64
import itertools
import random
import re
import unittest

from explained_logs import explained
from turned import Drawn, hashed, mac, OTHER, sized
from tpmsim.caller import area, BY_VALUE, FIRST, Refused
from tpmsim.explain import slips
from tpmsim.standard import AES, ALG_NULL, CC, number, RH_ENDORSEMENT, RH_OWNER, RS_PW, SE_HMAC
from tpmsim.standard import SHA1, SHA256, XOR

# The number of random sessions in which each mistake is made.
ROUNDS = 3

BOUND = {"bind": ("own", "other")}
UNBOUND = {"bind": "none"}
# The key contains both a session key and an authorization value.
BOTH = {"bind": "other"}
NAMED = {"entity": ("index", "object")}
INDEX, OBJECT = {"entity": "index"}, {"entity": "object"}


def setting(**parts):
    """Returns a change that computes parts of an HMAC from the right parts."""

    def turn(case, it):
        vars(it).update({name: made(it) for name, made in parts.items()})

    return turn


def valued(turn):
    return lambda case, it: case.with_value(it, turn)


def keyed(**changes):
    """Returns a change that computes the session key from changed parts. Each part is computed from
    the case.
    """

    def turn(case, it):
        it.session_key = case.kdf(**{name: made(case) for name, made in changes.items()})

    return turn


def renamed(turn):
    """Returns a change that replaces the authorizing entity's Name wherever it is used."""

    def change(case, it):
        own = case.tpm.name(case.handle)
        it.names = [turn(case, name) if name == own else name for name in it.names]

    return change


def wide(value):
    return value.decode().encode("utf-16-le")


def bits_of(case):
    return len(hashed(case.algorithm, b""))


VALUES = (
    ("authValue with a line break", {}, valued(lambda it: it + b"\n")),
    ("authValue with CR LF", {}, valued(lambda it: it + b"\r\n")),
    ("authValue with a space", {}, valued(lambda it: it + b" ")),
    ("authValue as SHA-1", {}, valued(lambda it: hashed(SHA1, it))),
    ("authValue as SHA-256", {}, valued(lambda it: hashed(SHA256, it))),
    ("authValue in UTF-16", {}, valued(wide)),
    ("authValue in UTF-16 BE", {}, valued(lambda it: it.decode().encode("utf-16-be"))),
    ("authValue as hex", {}, valued(lambda it: it.hex().encode())),
    ("authValue as HEX", {}, valued(lambda it: it.hex().upper().encode())),
    ("authValue as base64", {}, valued(base64.b64encode)),
    ("authValue with its size", {}, valued(sized)),
    ("authValue with str:", {}, valued(lambda it: b"str:" + it)),
    ("authValue in quotes", {}, valued(lambda it: b'"' + it + b'"')),
    ("authValue in capitals", {}, valued(bytes.upper)),
    ("authValue without its last byte", {}, valued(lambda it: it[:-1])),
    ("authValue mistyped", {}, valued(lambda it: it[:3] + it[4:])),
    ("authValue mistyped", {}, valued(lambda it: it[:3] + it[3:5][::-1] + it[5:])),
    ("authValue mistyped", {}, valued(lambda it: it[:3] + b"7" + it[4:])),
    ("another's authValue", UNBOUND, lambda case, it: vars(it).update(value=case.other)),
    ("zeros", BOTH, lambda case, it: vars(it).update(value=it.value.ljust(70, b"\0"))),
)

KEYS = (
    ("session key left out", BOTH, setting(session_key=lambda it: b"")),
    ("key in another order", BOTH, setting(key=lambda it: it.value + it.session_key)),
    ("authValue left out", BOTH, setting(value=lambda it: b"")),
    ("session key put in", UNBOUND, keyed()),
    (
        "session key without KDFa",
        BOUND,
        lambda case, it: vars(it).update(session_key=case.bind_value),
    ),
    ("session key, other authValue", BOUND, keyed(key=lambda case: b"")),
    ("KDFa in bytes", BOUND, keyed(bits=lambda case: number(bits_of(case), 4))),
    ("KDFa without its zero", BOUND, keyed(zero=lambda case: b"")),
    ("KDFa with two zeros", BOUND, keyed(zero=lambda case: b"\0\0")),
    ("KDFa without its label", BOUND, keyed(label=lambda case: b"")),
    ("KDFa with another label", BOUND, keyed(label=lambda case: b"SECRET")),
    ("KDFa without its counter", BOUND, keyed(count=lambda case: b"")),
    ("KDFa counts from 0", BOUND, keyed(count=lambda case: number(0, 4))),
    ("KDFa's counter in one byte", BOUND, keyed(count=lambda case: b"\1")),
    ("KDFa without its size", BOUND, keyed(bits=lambda case: b"")),
    ("KDFa's size in two bytes", BOUND, keyed(bits=lambda case: number(8 * bits_of(case), 2))),
    (
        "session key, nonces swapped",
        BOUND,
        keyed(newer=lambda case: case.nonce_caller, older=lambda case: case.first),
    ),
    (
        "session key, nonces with their sizes",
        BOUND,
        keyed(newer=lambda case: sized(case.first), older=lambda case: sized(case.nonce_caller)),
    ),
    ("session key, nonceTPM left out", BOUND, keyed(newer=lambda case: b"")),
    ("session key, nonceCaller left out", BOUND, keyed(older=lambda case: b"")),
)

NAMES = (
    ("handle as Name", NAMED, renamed(lambda case, it: number(case.handle, 4))),
    ("Name with its size", {}, renamed(lambda case, it: sized(it))),
    ("Name without nameAlg", NAMED, renamed(lambda case, it: it[2:])),
    ("Name as hex", NAMED, renamed(lambda case, it: it.hex().encode())),
    ("Name of the parent", OBJECT, renamed(lambda case, it: case.tpm.name(case.parent))),
    ("Name of the hierarchy", OBJECT, renamed(lambda case, it: number(RH_OWNER, 4))),
    ("another's Name", INDEX, renamed(lambda case, it: case.tpm.name(case.parent))),
    (
        "Name by another hash",
        INDEX,
        renamed(lambda case, it: name_by(OTHER[case.algorithm], public_of(case).text)),
    ),
    (
        "Name of a sized area",
        INDEX,
        renamed(lambda case, it: name_by(case.algorithm, sized(public_of(case).text))),
    ),
    ("Name with WRITTEN", INDEX, renamed(lambda case, it: public_of(case).but(added=1 << 29).name)),
    ("Names left out", {}, setting(names=lambda it: [])),
    ("one Name left out", INDEX, setting(names=lambda it: it.names[:1])),
)


def public_of(case):
    return case.tpm.publics[case.handle]


def name_by(algorithm, text):
    return number(algorithm, 2) + hashed(algorithm, text)


def buffer_hashed(make):
    def turn(case, it):
        it.cp_hash = hashed(case.algorithm, make(case))

    return turn


def with_zeros(case):
    size = len(hashed(case.algorithm, b""))
    return case.prepared.but_entry(1, hmac=bytes(size)).buffer()


def without_entries(case):
    return case.prepared.but(entries=[]).buffer()


HASHED = (
    ("command code left out", {}, setting(code=lambda it: b"")),
    ("command code in two bytes", {}, setting(code=lambda it: it.code[2:])),
    ("command code little-endian", {}, setting(code=lambda it: it.code[::-1])),
    ("another command code", {}, setting(code=lambda it: number(CC.Unseal, 4))),
    ("response's hash", {}, setting(code=lambda it: bytes(4) + it.code, names=lambda it: [])),
    ("parameters left out", {}, setting(parameters=lambda it: b"")),
    ("parameter without its size", {}, setting(parameters=lambda it: it.parameters[2:])),
    (
        "parameters with a size",
        {},
        setting(parameters=lambda it: number(len(it.parameters), 4) + it.parameters),
    ),
    (
        "parameters before the Names",
        {},
        setting(
            cp_hash=lambda it: hashed(it.algorithm, it.code + it.parameters + b"".join(it.names))
        ),
    ),
    ("cpHash left out", {}, setting(cp_hash=lambda it: b"")),
    ("cpHash not hashed", {}, setting(cp_hash=lambda it: it.hashed_text())),
    ("cpHash with its size", {}, setting(cp_hash=lambda it: sized(it.hash_made()))),
    ("cpHash as hex", {}, setting(cp_hash=lambda it: it.hash_made().hex().encode())),
    ("whole buffer hashed", {}, buffer_hashed(with_zeros)),
    (
        "whole buffer hashed",
        {},
        buffer_hashed(lambda case: case.prepared.but_entry(1, hmac=b"").buffer()),
    ),
    ("whole buffer hashed", {}, buffer_hashed(without_entries)),
)


def other_order(it):
    return b"".join([it.hash_made(), it.attributes, it.newer, it.older, *it.others])


REST = (
    ("nonces swapped", {}, setting(newer=lambda it: it.older, older=lambda it: it.newer)),
    (
        "nonces with their sizes",
        {},
        setting(newer=lambda it: sized(it.newer), older=lambda it: sized(it.older)),
    ),
    ("nonceCaller with its size", {}, setting(newer=lambda it: sized(it.newer))),
    ("nonceTPM with its size", {}, setting(older=lambda it: sized(it.older))),
    ("nonceCaller left out", {}, setting(newer=lambda it: b"")),
    ("nonceTPM left out", {}, setting(older=lambda it: b"")),
    ("nonces left out", {}, setting(newer=lambda it: b"", older=lambda it: b"")),
    ("zeros as nonceCaller", {}, setting(newer=lambda it: bytes(len(it.newer)))),
    ("attributes left out", {}, setting(attributes=lambda it: b"")),
    ("attributes in four bytes", {}, setting(attributes=lambda it: bytes(3) + it.attributes)),
    ("attributes before the nonces", {}, setting(text=other_order)),
    ("other attributes", {}, setting(attributes=lambda it: bytes([it.attributes[0] ^ 1]))),
    ("wrong hash", {}, setting(hash_algorithm=lambda it: OTHER[it.algorithm])),
    ("wrong hash", {"algorithm": SHA256}, setting(algorithm=lambda it: SHA1)),
    (
        "hash instead of an HMAC",
        {},
        setting(made=lambda it: hashed(it.algorithm, it.key_made() + it.text_made())),
    ),
    (
        "HMAC of a hash",
        {},
        setting(
            made=lambda it: mac(it.algorithm, it.key_made(), hashed(it.algorithm, it.text_made()))
        ),
    ),
    ("HMAC cut", {}, setting(made=lambda it: it.hmac()[:16])),
    ("HMAC cut", {}, setting(made=lambda it: it.hmac()[-16:])),
    ("HMAC cut", {"algorithm": SHA1}, setting(made=lambda it: it.hmac() + bytes(12))),
)


def decrypting(case):
    session = case.tpm.session(RH_ENDORSEMENT, cipher=AES, algorithm=case.algorithm)
    return session.decrypting


def encrypting(case):
    return case.tpm.session(RH_ENDORSEMENT, cipher=XOR, algorithm=case.algorithm).encrypting


ONE = {"cipher": ALG_NULL, "more": (decrypting,)}
TWO = {"cipher": ALG_NULL, "more": (decrypting, encrypting), "entity": "object"}


def others_last(it):
    return b"".join([it.hash_made(), it.newer, it.older, it.attributes, *it.others])


def of_entry(case, it):
    it.made = case.prepared.entries[1].hmac


def of_session(case, it):
    other = case.prepared.uses[1].session
    it.session_key, it.older = other.key, other.nonce_tpm


OTHERS = (
    ("other nonces left out", ONE, setting(others=lambda it: [])),
    ("other nonces in another order", TWO, setting(others=lambda it: it.others[::-1])),
    (
        "other nonces with their sizes",
        ONE,
        setting(others=lambda it: [sized(own) for own in it.others]),
    ),
    ("other nonces after the rest", TWO, setting(text=others_last)),
    ("another session's nonceTPM", ONE, setting(older=lambda it: it.others[0])),
    ("another session", ONE, of_session),
    ("another entry's HMAC", ONE, of_entry),
)

ROWS = (*VALUES, *KEYS, *NAMES, *HASHED, *REST, *OTHERS)

# Changes to ingredients that no known mistake makes.
NONE = (
    ({}, valued(lambda it: it[::-1] + b"?")),
    ({}, setting(newer=lambda it: it.newer[1:])),
    ({}, setting(code=lambda it: b"\7" + it.code)),
    ({}, setting(attributes=lambda it: it.attributes + b"\1")),
    (BOUND, keyed(label=lambda case: b"ATHO")),
    ({}, setting(names=lambda it: [name[1:] for name in it.names])),
    ({}, setting(parameters=lambda it: it.parameters[1:])),
)

# The order in which the ingredients are computed: each kind is an input of the next.
IN_ORDER = VALUES, KEYS, NAMES, HASHED, OTHERS, REST
PLACES = {id(row): place for place, rows in enumerate(IN_ORDER) for row in rows}

# Pairs of mistakes that result in the same HMAC as one or two other mistakes. The other mistakes
# are reported instead.
TOLD_OTHERWISE = {
    frozenset(("nonceCaller left out", "nonceTPM left out")),
    frozenset(("nonceCaller with its size", "nonceTPM with its size")),
    frozenset(("nonces swapped", "nonceCaller left out")),
    frozenset(("nonces swapped", "nonceTPM left out")),
    frozenset(("nonces with their sizes", "nonceCaller left out")),
    frozenset(("nonces with their sizes", "nonceTPM left out")),
    frozenset(("another session", "nonceTPM left out")),
    frozenset(("another session", "key in another order")),
}


def together(first, second):
    """Returns the choices for two mistakes in one session, or None if the choices are incompatible."""
    if len({first.get("more"), second.get("more")} - {None}) > 1:
        return None
    choices = first | second
    for name in (first.keys() & second.keys()) - {"more"}:
        both = [
            set(it[name] if isinstance(it[name], tuple) else (it[name],)) for it in (first, second)
        ]
        choices[name] = tuple(sorted(set.intersection(*both)))
    return None if () in choices.values() else choices


def pairs_of(count):
    """Yields random pairs of different mistakes, with their choices. The mistake in the ingredient
    that is computed earlier comes first.
    """
    pairs = list(itertools.combinations(ROWS, 2))
    for pair in random.Random("pairs").sample(pairs, count):
        first, second = sorted(pair, key=lambda it: PLACES[id(it)])
        choices = together(first[1], second[1])
        if first[0] != second[0] and choices is not None:
            yield first, second, choices


# Passwords that a caller sends instead of the right one.
PASSWORDS = (
    ("password left out", lambda it: b""),
    ("password with a line break", lambda it: it + b"\n"),
    ("password with CR LF", lambda it: it + b"\r\n"),
    ("password as SHA-256", lambda it: hashed(SHA256, it)),
    ("password as SHA-1", lambda it: hashed(SHA1, it)),
    ("password in UTF-16", wide),
    ("password as hex", lambda it: it.hex().encode()),
    ("password as base64", base64.b64encode),
    ("password with str:", lambda it: b"str:" + it),
    ("password in capitals", bytes.upper),
    ("password mistyped", lambda it: it[:3] + it[4:]),
    ("password mistyped", lambda it: it[:3] + b"7" + it[3:]),
    ("zeros", lambda it: it.rjust(20, b"\0")),
)


class Turned(unittest.TestCase):
    def slips_of(self, case, *turns):
        """Returns the mistakes that are reported for a refused command. Afterwards, the right
        command is accepted.
        """
        with self.assertRaises(Refused) as caught:
            case.tpm.send(case.turned(*turns))
        self.assertIn(caught.exception.name, ("BAD_AUTH", "AUTH_FAIL"), case.seed)
        found = explained(case.device).reason
        case.tpm.send(case.prepared)
        return found

    def test_each_alone(self):
        self.assertGreaterEqual(len({name for name, *_ in ROWS}), 60)
        for at, (name, choices, turn) in enumerate(ROWS):
            for round in range(ROUNDS):
                with self.subTest(f"{name} {at} {round}"):
                    case = Drawn(f"{name} {at} {round}", **choices)
                    self.assertEqual(self.slips_of(case, turn).slips, [name])

    def test_two(self):
        """Makes random pairs of mistakes, neither of which undoes the other. Two changes to the
        form of one value are tested separately.
        """
        named = 0
        for at, (first, second, choices) in enumerate(pairs_of(70)):
            name = f"two {at} {first[0]}, {second[0]}"
            made = {self.made(name, choices, *turns) for turns in ((), first[2:], second[2:])}
            both = first[2], second[2]
            is_one = PLACES[id(first)] == PLACES[id(second)] == 0
            if is_one or len(made) < 3 or self.made(name, choices, *both) in made:
                continue
            with self.subTest(name):
                found = self.slips_of(Drawn(name, **choices), *both)
                wanted = {first[0], second[0]}
                if wanted not in TOLD_OTHERWISE:
                    self.assertEqual(set(found.slips), wanted)
                    named += 1
                self.assertTrue(found.slips)
        self.assertGreater(named, 40)

    def made(self, name, choices, *turns):
        """Returns the HMAC of a random session in which these parts are changed."""
        case = Drawn(name, **choices)
        parts = case.parts()
        for turn in turns:
            turn(case, parts)
        return parts.hmac()

    def test_two_forms_of_a_value(self):
        """Changes the form of a value twice, as `echo PIN | sha256sum` does."""
        for at, (turn, *wanted) in enumerate(
            (
                (lambda it: hashed(SHA256, it + b"\n"), "with a line break", "as SHA-256"),
                (lambda it: hashed(SHA256, wide(it)), "in UTF-16", "as SHA-256"),
                (lambda it: hashed(SHA256, it + b"\0"), "with a zero", "as SHA-256"),
                (lambda it: hashed(SHA1, it).hex().encode(), "as SHA-1", "as hex"),
                (lambda it: hashed(SHA256, it)[:20], "as SHA-256", "cut to 20 bytes"),
            )
        ):
            case = Drawn(f"forms {at}", bind="none")
            found = self.slips_of(case, valued(turn))
            self.assertEqual(found.slips, [f"authValue {it}" for it in wanted])

    def test_none(self):
        for at, (choices, turn) in enumerate(NONE):
            for round in range(ROUNDS):
                case = Drawn(f"none {at} {round}", **choices)
                found = self.slips_of(case, turn)
                self.assertEqual(found.slips, [], case.seed)
                words = (
                    r"none makes this HMAC: ([\d,]+) slips and ([\d,]+) pairs of them were tried"
                )
                self.assertRegex(found.facts[-1].value, words)

    def test_so_much_is_tried(self):
        """Only a limited number of HMACs and pairs is tried, even if there are many candidates."""
        case = Drawn("much", kind=SE_HMAC, entity="owner", bind="own")
        for at in range(60):
            case.tpm.define(area(FIRST + at, attributes=BY_VALUE), auth=case.pick.randbytes(9))
        sessions = [case.tpm.session(RH_ENDORSEMENT) for _ in range(15)]
        for _ in range(120):
            case.tpm.call("GetRandom", uses=[case.session, *sessions[:2]], bytesRequested=1)
        case.prepared = case.command()
        found = self.slips_of(case, setting(newer=lambda it: b"?"))
        self.assertEqual(found.slips, [])
        alone, pairs = map(int, re.findall(r"[\d,]+", found.facts[-1].value.replace(",", ""))[:2])
        self.assertTrue(300 < alone <= slips.MOST_ALONE and 1000 < pairs <= slips.MOST_PAIRS)

    # Tests with passwords.

    def refused_password(self, case, password):
        """Sends a password instead of the right HMAC; the device must refuse it."""
        entry = case.prepared.entries[0]
        entry = type(entry)(RS_PW, b"", 1, password)
        prepared = case.tpm.prepare(case.prepared.code, case.prepared.handles, b"", b"")
        parameters = sized(b"12345678") + {CC.NV_Write: bytes(2), CC.HMAC: number(SHA256, 2)}.get(
            prepared.code, b""
        )
        with self.assertRaises(Refused) as caught:
            case.tpm.send(prepared.but(entries=[entry], parameters=parameters))
        self.assertIn(caught.exception.name, ("BAD_AUTH", "AUTH_FAIL"), case.seed)

    def test_passwords(self):
        for name, turn in PASSWORDS:
            for round in range(ROUNDS):
                with self.subTest(f"{name} {round}"):
                    case = Drawn(f"{name} {round}")
                    self.refused_password(case, turn(case.value))
                    self.assertEqual(explained(case.device).reason.slips, [name])

    def test_no_password(self):
        for round in range(ROUNDS):
            case = Drawn(f"password {round}")
            self.refused_password(case, b"??" + case.value[2:])
            found = explained(case.device).reason
            self.assertEqual(found.slips, [])
            self.assertRegex(found.facts[-1].value, r"none of [\d,]+ that were tried: other forms")

    # Tests of --try, with values that the user tries.

    def test_tried(self):
        """A value is reported if --try names it, and is not reported without --try."""
        for at, (choices, turn, *forms) in enumerate(TRIED):
            with self.subTest(at):
                case = Drawn(f"tried {at}", **choices)
                self.assertEqual(self.slips_of(case, turn).slips, [])
                case = Drawn(f"tried {at}", **choices)
                self.assertRaises(Refused, case.tpm.send, case.turned(turn))
                found = explained(case.device, (b"not this", VALUE)).reason
                wanted = ["tried value", *(f"authValue {it}" for it in forms)]
                self.assertEqual(found.slips, wanted)
                (words,) = [it.value for it in found.facts if "the tried" in it.value]
                self.assertIn(VALUE.decode(), words)

    def test_tried_passwords(self):
        case = Drawn("tried password")
        for given, wanted in (
            (VALUE, ["tried value"]),
            (hashed(SHA256, VALUE), ["tried value", "password as SHA-256"]),
        ):
            self.refused_password(case, given)
            self.assertEqual(explained(case.device).reason.slips, [])
            self.assertEqual(explained(case.device, (VALUE,)).reason.slips, wanted)


VALUE = b"A value of mine"
TRIED = (
    (UNBOUND, setting(value=lambda it: VALUE)),
    (UNBOUND, setting(value=lambda it: hashed(SHA256, VALUE)), "as SHA-256"),
    (
        UNBOUND,
        setting(value=lambda it: hashed(SHA256, VALUE + b"\n")),
        "with a line break",
        "as SHA-256",
    ),
    (BOUND, keyed(key=lambda case: VALUE)),
    (BOUND, keyed(key=lambda case: wide(VALUE)), "in UTF-16"),
    ({}, setting(key=lambda it: VALUE)),
    (BOTH, setting(session_key=lambda it: VALUE)),
    ({}, setting(newer=lambda it: VALUE)),
    ({}, setting(older=lambda it: VALUE)),
    ({}, setting(parameters=lambda it: VALUE)),
    ({}, setting(cp_hash=lambda it: VALUE)),
    (NAMED, renamed(lambda case, it: VALUE)),
)


if __name__ == "__main__":
    unittest.main()
