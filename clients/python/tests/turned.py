"""A caller that computes an HMAC with one changed ingredient. Its sessions are random: HMAC or
policy sessions, bound or not, with one of two hash algorithms, and with or without encrypted
parameters. It uses no code of the explanation.
"""

import hashlib
import hmac
import random

from tpmsim.caller import area, BY_POLICY, BY_VALUE, Caller, digest_of, hmac_key, storage_key
from tpmsim.caller import Use
from tpmsim.device import ModelDevice
from tpmsim.standard import AES, ALG_NULL, CONTINUE_SESSION, DECRYPT, ENCRYPT, number, policy
from tpmsim.standard import RH_ENDORSEMENT, RH_NULL, RH_OWNER, SE_HMAC, SE_POLICY, SHA1, SHA256, XOR

HASHES = {SHA1: "sha1", SHA256: "sha256"}
OTHER = {SHA1: SHA256, SHA256: SHA1}


def hashed(algorithm, data):
    return hashlib.new(HASHES[algorithm], data).digest()


def mac(algorithm, key, data):
    return hmac.new(key, data, HASHES[algorithm]).digest()


def sized(data):
    return number(len(data), 2) + data


class Parts:
    """The ingredients of an HMAC. If a key, a cpHash, a text or an HMAC is set here, it is used
    instead of the computed one.
    """

    key = cp_hash = text = made = None

    def __init__(self, **parts):
        vars(self).update(parts)
        self.hash_algorithm = self.algorithm

    def hashed_text(self):
        return self.code + b"".join(self.names) + self.parameters

    def key_made(self):
        return self.session_key + self.value if self.key is None else self.key

    def hash_made(self):
        return (
            hashed(self.hash_algorithm, self.hashed_text())
            if self.cp_hash is None
            else self.cp_hash
        )

    def text_made(self):
        parts = self.hash_made(), self.newer, self.older, *self.others, self.attributes
        return b"".join(parts) if self.text is None else self.text

    def hmac(self):
        return (
            mac(self.algorithm, self.key_made(), self.text_made())
            if self.made is None
            else self.made
        )


class Drawn:
    """A random session on a device, and a command that it authorizes. A choice that is not passed
    is made at random: `kind` is the kind of the session, and `bind` is one of none, own and other.
    """

    def __init__(self, seed, **choices):
        self.pick = random.Random(seed)
        self.device = ModelDevice(seed=seed.encode())
        self.tpm = Caller(self.device, self.pick.randbytes)
        self.choices, self.seed = choices, seed
        self.algorithm = self.drawn("algorithm", (SHA1, SHA256))
        self.kind = self.drawn("kind", (SE_HMAC, SE_POLICY))
        self.bind = self.drawn("bind", ("none", "own", "other"))
        entities = ("index", "object") if self.kind == SE_POLICY else ("owner", "index", "object")
        self.entity = self.drawn("entity", entities)
        self.cipher = self.drawn("cipher", (ALG_NULL, AES, XOR))
        self.tpm.start_up()
        self.value = self.fresh_value()
        self.make_entities()
        self.start()
        self.prepared = self.command()

    def drawn(self, name, among):
        """Returns the value of a choice: the one that was passed, or a random one of several
        values.
        """
        given = self.choices.get(name, among)
        return (
            self.pick.choice([it for it in given if it in among])
            if isinstance(given, tuple)
            else given
        )

    def fresh_value(self):
        """Returns a random PIN."""
        return bytes(self.pick.choices(b"abcdefghjkmnpqrstuvwxyz", k=7)) + b"jX7"

    def make_entities(self):
        tpm, own = self.tpm, digest_of("PolicyAuthValue\n", self.algorithm)
        self.other = self.fresh_value()
        tpm.send(tpm.change_auth(RH_ENDORSEMENT, self.other, b""))
        attributes = BY_VALUE | BY_POLICY
        public = area(attributes=attributes, algorithm=self.algorithm, auth_policy=own)
        self.parent = tpm.create_primary(storage_key())
        if self.entity == "owner":
            self.handle = RH_OWNER
            tpm.send(tpm.change_auth(RH_OWNER, self.value, b""))
        elif self.entity == "index":
            self.handle = tpm.define(public, auth=self.value)
        else:
            template = hmac_key(self.algorithm, auth_policy=own)
            made = tpm.create(self.parent, template, user_auth=self.value, data=b"key")
            self.handle = tpm.load(self.parent, made)

    def start(self):
        binds = {"none": RH_NULL, "own": self.handle, "other": RH_ENDORSEMENT}
        size = self.pick.randrange(16, len(hashed(self.algorithm, b"")) + 1)
        self.nonce_caller, own = self.pick.randbytes(size), self.tpm.nonce
        self.tpm.nonce = lambda size: self.nonce_caller
        self.session = self.tpm.session(
            *(binds[self.bind],),
            kind=self.kind,
            algorithm=self.algorithm,
            cipher=self.cipher,
            size=size,
        )
        self.tpm.nonce, self.first = own, self.session.nonce_tpm
        self.bind_value = {"none": b"", "own": self.value, "other": self.other}[self.bind]
        for _ in range(self.pick.randrange(3)):
            self.tpm.call("GetRandom", uses=[self.session], bytesRequested=1)
        if self.kind == SE_POLICY:
            self.tpm.send(self.tpm.auth_value_told(self.session))

    def use(self):
        attributes = CONTINUE_SESSION
        if self.cipher != ALG_NULL:
            attributes |= self.pick.choice((0, DECRYPT))
            attributes |= self.pick.choice((0, ENCRYPT)) if self.entity == "object" else 0
        demand = policy.AUTH_VALUE if self.kind == SE_POLICY else None
        return Use(self.session, attributes, demand=demand)

    def command(self):
        """Returns a command that the entity authorizes, with other entries if these are chosen."""
        tpm, data = self.tpm, self.pick.randbytes(8)
        more = [make(self) for make in self.choices.get("more", ())]
        if self.entity == "owner":
            return tpm.change_auth(RH_OWNER, data, self.use(), *more)
        if self.entity == "index":
            return tpm.writing(self.handle, data, self.use(), *more)
        return tpm.hmac(self.handle, data, SHA256, self.use(), *more)

    @property
    def in_key(self):
        """Returns whether the authorization value itself is in the HMAC's key, and not only in the
        session key.
        """
        return self.kind == SE_POLICY or self.bind != "own"

    def parts(self):
        prepared, tpm, session = self.prepared, self.tpm, self.session
        return Parts(
            algorithm=session.algorithm,
            session_key=session.key,
            value=self.value if self.in_key else b"",
            code=number(prepared.code, 4),
            names=[tpm.name(it) for it in prepared.handles],
            parameters=prepared.parameters,
            newer=prepared.uses[0].nonce,
            older=session.nonce_tpm,
            others=tpm.nonces_of_others(prepared, 1, self.handle),
            attributes=number(prepared.uses[0].attributes, 1),
        )

    def kdf(self, **changes):
        """Returns the session key that results from these changes to its parts."""
        parts = {
            "algorithm": self.algorithm,
            "key": self.bind_value,
            "count": number(1, 4),
            "label": b"ATH",
            "zero": b"\0",
            "newer": self.first,
            "older": self.nonce_caller,
            "bits": number(8 * len(hashed(self.algorithm, b"")), 4),
        } | changes
        algorithm, key, *text = parts.values()
        return mac(algorithm, key, b"".join(text))

    def with_value(self, parts, turn):
        """Changes the form of the authorization value, wherever it is used."""
        if self.in_key:
            parts.value = turn(self.value)
        if not self.in_key or self.bind == "own" and self.pick.random() < 0.5:
            parts.session_key = self.kdf(key=turn(self.value))

    def turned(self, *turns):
        """Returns the command with an HMAC that is computed from changed ingredients."""
        parts = self.parts()
        assert parts.hmac() == self.prepared.entries[0].hmac
        for turn in turns:
            turn(self, parts)
        assert parts.hmac() != self.prepared.entries[0].hmac
        return self.prepared.but_entry(1, hmac=parts.hmac())
