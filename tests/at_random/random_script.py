"""A random script, and the responses of the Python device:

    random_script.py SEED COUNT FOLDER [complete]

writes COUNT commands to FOLDER/SEED.tpm, and their responses to FOLDER/SEED.out. Most commands can
succeed. Some have one wrong field, and some have arbitrary wrong bytes. With `complete`, the device
is of the complete profile. The script tools/soak/random_scripts.sh compares the program's responses
with those in FOLDER/SEED.out.
"""

import contextlib
import pathlib
import random
import sys
from dataclasses import replace
from functools import partial

from tpmsim.model import complete_commands, general, nv_commands, persistent, state
from tpmsim.model.machine import Model
from tpmsim.model.sequences import GENERATED_VALUE
from tpmsim.standard import AES, ALG_NULL, ALL_NUMBERED, CC, CONTINUE_SESSION, DECRYPT, ENCRYPT
from tpmsim.standard import Entry, Fact, frames, handle_kinds, HandleKind, KEYEDHASH, number
from tpmsim.standard import NUMBERED, nv, policy, Profile, reading, RH_NULL, RS_PW, sessions, SHA1
from tpmsim.standard import SHA256, Short, sized, SYMCIPHER, XOR
from tpmsim.standard.handle_kinds import HIERARCHIES
from tpmsim.standard.objects import Attribute, Public
from tests.common.outputs import Played, POWER, repeated, write_responses
from tests.common.script import line

SELDOM = 0.04
AUTH_VALUES = b"", b"a", b"secret"
PCR_NUMBERS = 0, 7, 10, 16, 17, 23
KINDS = frames.SE_HMAC, frames.SE_HMAC, frames.SE_POLICY, frames.SE_POLICY, frames.SE_TRIAL
OPEN = Attribute.FIXED_TPM | Attribute.FIXED_PARENT | Attribute.USER_WITH_AUTH
STORES = OPEN | Attribute.RESTRICTED | Attribute.DECRYPT | Attribute.SENSITIVE_DATA_ORIGIN
USES = CC.Unseal, CC.HMAC, CC.Create, CC.Load, CC.PolicySecret
# The commands that an index can authorize. TPM2_NV_ChangeAuth is repeated so that it is chosen most
# often, because only a policy can authorize it.
NV_USES = (
    *(it for it in NUMBERED.values() if it.handles and it.handles[0].kind == HandleKind.NV_AUTH),
    *(CC.NV_ChangeAuth,) * 6,
)
INDEX_NUMBERS = range(12)
TYPES = *(nv.Type.ORDINARY,) * 2, *nv.Type
ASKERS = frames.RH_OWNER, frames.RH_PLATFORM

# Times to wait, in milliseconds, and values for the parameters of dictionary attack protection.
WAITS = 1, 999, 1000, 999_999, 1_000_000, 1_000_001, 2**32 - 1
MOST_TRIES = 3, 3, 3, 10, 1, 0
RECOVERIES = 1000, 1000, 1, 0, 2**32 - 1

# Algorithms that the device does not implement: none, RSA, SHA-384, TPM_ALG_NULL and ECB.
LACKS = 0, 1, 0x0C, ALG_NULL, 0x44


def size_of(algorithm):
    return 20 if algorithm == SHA1 else 32


class Writer(random.Random):
    """Generates random commands for a device, and keeps track of the device's state."""

    PROFILE = Profile.SYMMETRIC

    def __init__(self, seed):
        super().__init__(seed)
        self.device, self.locality = Model(profile=self.PROFILE), 0
        self.events, self.played = [f"# Random script {seed}."], []
        self.made, self.digests = [], [b""]

    # Random choices.

    def happens(self, chance=SELDOM):
        return self.random() < chance

    def some_bytes(self, most):
        return self.randbytes(self.choice((0, 1, most // 2, most, most)) + self.happens(0.01))

    def bent(self, data):
        """Returns a copy of the data in which one bit is flipped."""
        at = self.randrange(len(data))
        return data[:at] + bytes([data[at] ^ 1 << self.randrange(8)]) + data[at + 1 :]

    def fitting(self, digest, algorithm):
        """Returns the digest if its size fits the hash algorithm. Otherwise usually returns an
        empty digest.
        """
        return digest if len(digest) in (0, size_of(algorithm)) or self.happens(0.1) else b""

    def hash(self):
        return 0x000C if self.happens(0.01) else self.choice((SHA1, SHA256, SHA256))

    def hierarchy(self):
        return self.choice(handle_kinds.PRIMARY_HIERARCHIES)

    def object(self, test=lambda it: True):
        """Returns the handle of a loaded object, if there is one. In rare cases, returns the handle
        of an object that does not exist.
        """
        fitting = [it for it in self.device.objects if test(self.device.objects[it])]
        if self.happens(0.02) or not fitting:
            return self.choice((0x80000000 + self.randrange(9), 0x81000000, RH_NULL))
        return self.choice(fitting)

    def session(self, *kinds):
        """Returns the handle of a session of one of these kinds. In rare cases, the session does
        not exist or is of another kind.
        """
        held = self.device.sessions
        fitting = [it for it in held if held[it].kind in kinds or self.happens(0.02)]
        return self.choice(fitting) if fitting else 0x03000000 + self.randrange(17)

    def entity(self):
        held = self.choice(PCR_NUMBERS), self.object(), self.object(), self.index(), self.index()
        return self.choice((*HIERARCHIES, *held))

    def index(self, test=lambda it: True):
        """Returns the handle of a defined index, if there is one. In rare cases, returns the handle
        of an undefined index.
        """
        indices = self.device.indices
        fitting = [it for it in indices if test(indices[it].public) or self.happens()]
        if self.happens(0.02) or not indices:
            return self.choice((*(0x01000000 + it for it in INDEX_NUMBERS), 0x01FFFFFF, RH_NULL))
        return self.choice(fitting or list(indices))

    def selection(self):
        banks = self.sample((SHA1, SHA256), self.randrange(3))
        return [(bank, self.sample(PCR_NUMBERS, self.randrange(4))) for bank in banks]

    # Parameters for objects.

    def attributes(self, usual):
        """Returns the usual attributes of an object, with random changes."""
        extra = self.choice((0, 0, Attribute.NO_DA, Attribute.NO_DA | Attribute.ADMIN_WITH_POLICY))
        if self.happens(0.15):
            usual &= ~Attribute.USER_WITH_AUTH
        if self.happens(0.05):
            usual ^= 1 << self.randrange(20)
        return usual | extra

    def public(self):
        signs = OPEN | Attribute.SIGN, KEYEDHASH, self.choice((ALG_NULL, SHA1, SHA256))
        seals = OPEN, KEYEDHASH, ALG_NULL
        usual, kind, scheme = self.choice(((STORES, SYMCIPHER, ALG_NULL), seals, seals, signs))
        digest, algorithm = self.choice(self.digests), self.hash()
        digest = self.fitting(digest, algorithm)
        unique = self.some_bytes(32)
        return Public(kind, algorithm, self.attributes(usual), digest, scheme, unique)

    def creation(self):
        public = self.public()
        seals = public.kind == KEYEDHASH and not public.has(Attribute.SIGN)
        given = public.kind == KEYEDHASH and (seals or self.happens(0.5))
        data = self.some_bytes(128) if given != self.happens() else b""
        if public.has(Attribute.SIGN) and not given:
            public = replace(public, attributes=public.attributes | Attribute.SENSITIVE_DATA_ORIGIN)
        user_auth = self.choice(AUTH_VALUES) + bytes(self.randrange(2))
        sensitive = frames.sensitive_create(user_auth, data)
        return frames.creation(sensitive, sized(public.text), self.some_bytes(34), self.selection())

    # Parameters for NV indices.

    def nv_attributes(self, hierarchy):
        """Returns attributes of an index: who may write and read it, its locks, and its type."""
        some = self.getrandbits(32) & self.getrandbits(32) & nv.NAMED & ~nv_commands.NOT_DEFINED
        attributes = some & ~nv.of_type(nv.TYPE_MASK) | self.choice((0, 0x000E_000E, 0x0006_0006))
        attributes &= ~nv.Attribute.PLATFORMCREATE
        if (hierarchy == frames.RH_PLATFORM) != self.happens():
            attributes |= nv.Attribute.PLATFORMCREATE
        kind = self.choice(TYPES)
        if kind == nv.Type.COUNTER and not self.happens():
            attributes &= ~nv.Attribute.CLEAR_STCLEAR
        attributes |= nv.of_type(kind)
        return attributes ^ 1 << self.randrange(32) if self.happens() else attributes

    def nv_size(self, kind, algorithm):
        if self.happens():
            return self.randrange(2050)
        if kind == nv.Type.ORDINARY:
            return self.choice((0, 1, 8, 16, 32, 64, self.randrange(100), 1200, 2048))
        return size_of(algorithm) if kind == nv.Type.EXTEND else nv.NUMBER_BYTES

    def nv_policy(self, algorithm):
        """Returns a policy digest: the current digest of a session, a digest that one policy
        command produces, or a digest of an earlier session.
        """
        held = self.device.sessions.values()
        told = [it.policy for it in held if it.algorithm == algorithm and not it.is_trial]
        digests = [it.digest for it in told if it.code == CC.NV_ChangeAuth or self.happens()]
        if digests and self.happens(0.8):
            return self.choice(digests)
        if algorithm in sessions.HASHES and self.happens(0.5):
            zeros = bytes(sessions.digest_bytes(algorithm))
            if self.happens(0.4):
                return policy.after_nv_written(algorithm, zeros, self.happens(0.5))
            return policy.after_command_code(algorithm, zeros, CC.NV_ChangeAuth)
        return self.fitting(self.choice(self.digests), algorithm)

    def nv_define(self):
        hierarchy, algorithm = self.choice(ASKERS), self.hash()
        attributes = self.nv_attributes(hierarchy)
        index = self.choice(INDEX_NUMBERS) + (0x02000000 if self.happens() else 0x01000000)
        public = nv.Public(index, algorithm, attributes, self.nv_policy(algorithm))
        public = replace(public, data_size=self.nv_size(public.kind, algorithm))
        auth = self.choice(AUTH_VALUES) + bytes(self.randrange(2)) + self.happens(0.02) * b"a" * 25
        return [hierarchy], frames.nv_define_space(public.text, auth)

    def nv_undefine(self):
        handle = self.index()
        held = self.device.indices.get(handle)
        is_platforms = held and held.public.has(nv.Attribute.PLATFORMCREATE)
        by_platform = is_platforms and not self.happens(0.1)
        return [frames.RH_PLATFORM if by_platform else self.choice(ASKERS), handle]

    def asked(self, kind=None, reads=False):
        """Returns an authorizing handle and the handle of an index, usually of the given type.
        Usually the first handle may authorize commands on the index.
        """
        handle = self.index(lambda it: kind in (None, it.kind))
        held = self.device.indices.get(handle)
        if held is None or self.happens(0.1):
            return [self.choice((*ASKERS, self.index())), handle]
        who = frames.RH_PLATFORM, frames.RH_OWNER, handle, handle
        allowing = [it for it in nv.Attribute if it & (nv.READS if reads else nv.WRITES)]
        allowed = [asker for asker, it in zip(who, allowing) if held.public.has(it)]
        return [self.choice(allowed or [handle]), handle]

    def nv_write(self):
        handles = self.asked(nv.Type.ORDINARY)
        held = self.device.indices.get(handles[1])
        size = held.public.data_size if held else 8
        whole = held and held.public.has(nv.Attribute.WRITEALL) or self.happens(0.2)
        offset = 0 if whole else self.randrange(size + 2)
        most = 1024 if self.happens() else min(1024, max(0, size - offset))
        data = self.randbytes(size) if whole else self.some_bytes(most)
        return handles, frames.nv_write(data, offset)

    def nv_read(self):
        handles = self.asked(reads=True)
        held = self.device.indices.get(handles[1])
        size = held.public.data_size if held else 8
        offset = self.choice((0, self.randrange(size + 2)))
        return handles, frames.nv_read(self.choice((size, max(0, size - offset), 1)), offset)

    def nv_change_auth(self):
        """Returns a TPM2_NV_ChangeAuth, usually for an index whose policy a session currently
        satisfies.
        """
        told = [it.policy for it in self.device.sessions.values()]
        digests = [it.digest for it in told if it.code == CC.NV_ChangeAuth]
        handle = self.index(lambda it: it.auth_policy in digests)
        return [handle], sized(self.choice(AUTH_VALUES) + bytes(self.randrange(33)))

    def nv_extend(self):
        return self.asked(nv.Type.EXTEND), sized(self.some_bytes(self.choice((4, 64, 1024))))

    def policy_nv(self):
        handles = self.asked(reads=True)
        held = self.device.indices.get(handles[1])
        data = held.data if held and held.data else bytes(8)
        offset = self.randrange(len(data) + 1)
        operand = data[offset : offset + self.choice((0, 1, 2, 8, 32))]
        if operand and self.happens(0.4):
            operand = self.bent(operand)
        operand += self.happens() * bytes(30)
        operation = self.randrange(len(nv_commands.OPERATIONS) + self.happens())
        (session,), _ = self.told()
        return [*handles, session], frames.policy_nv(operand, offset, operation)

    # Methods for commands. Each returns handles and parameters.

    def start(self):
        algorithm = self.hash()
        nonce = self.randbytes(self.choice((16, 20, 20)) - self.happens())
        bind = self.choice((RH_NULL, RH_NULL, self.entity()))
        cipher, kind, xor = self.choice((ALG_NULL, AES, XOR)), self.choice(KINDS), None
        if cipher == XOR:
            xor = self.hash() if self.happens(0.1) else algorithm
        return frames.start_auth_session(nonce, bind, algorithm, cipher == AES, kind=kind, xor=xor)

    def told(self, parameters=b""):
        return [self.session(frames.SE_POLICY, frames.SE_TRIAL)], parameters

    def policy_secret(self):
        (handle,), _ = self.told()
        held = self.device.sessions.get(handle)
        nonce = self.choice((b"", held.nonce_tpm if held else b"", self.some_bytes(32)))
        cp_hash = self.choice((b"", b"", self.randbytes(self.choice((20, 32, 31)))))
        expiration = int(self.happens())
        parameters = frames.policy_secret(nonce, cp_hash, self.some_bytes(4), expiration)
        return [self.entity(), handle], parameters

    def policy_cp_hash(self):
        """Returns a TPM2_PolicyCpHash, usually with the cpHash of a command without parameters, or
        with the cpHash that the session already has.
        """
        (handle,), _ = self.told()
        held = self.device.sessions.get(handle)
        algorithm = held.algorithm if held else SHA256
        uses = {
            CC.Unseal: [self.keyed(signs=False)],
            CC.NV_Increment: self.asked(nv.Type.COUNTER),
            CC.NV_WriteLock: self.asked(),
            CC.NV_ReadLock: self.asked(reads=True),
        }
        code, used = self.choice(list(uses.items()))
        cp_hash = sessions.command_hash(algorithm, code, map(self.device.name, used), b"")
        if held and held.policy.cp_hash and self.happens(0.3):
            cp_hash = held.policy.cp_hash
        return [handle], sized(self.some_bytes(32) if self.happens(0.1) else cp_hash)

    def policy_nv_written(self):
        return self.told(self.yes_or_no())

    def policy_pcr(self):
        return self.told(sized(self.happens() * b"given") + frames.selection(*self.selection()))

    def policy_or(self):
        (handle,), _ = self.told()
        held = self.device.sessions.get(handle)
        branches = self.choices(self.digests, k=self.choice((2, 3, 8, 9, 1)))
        if held and not self.happens():
            branches[-1] = held.policy.digest
        return [handle], frames.sized_list(*branches)

    def load(self):
        """Returns a TPM2_Load of a previously created object, usually with the right parent."""
        parent = self.object(lambda it: it.public.is_parent)
        name = self.device.name(parent)
        fitting = [it for it in self.made if it[0] == name or self.happens(0.02)]
        _, private, public = self.choice(fitting or [(b"", self.randbytes(99), self.public().text)])
        if self.happens():
            private = self.bent(private)
        return [parent], sized(private) + sized(public)

    def hmac(self):
        algorithm = self.choice((SHA1, SHA256, SHA256, ALG_NULL, 0x0012))
        data = self.some_bytes(self.choice((4, 64, 1024)))
        return [self.keyed(signs=True)], sized(data) + number(algorithm, 2)

    def keyed(self, signs):
        """Returns the handle of an HMAC key if `signs` is true, otherwise of sealed data. In rare
        cases, the object is of a different kind.
        """
        wanted = KEYEDHASH, signs
        is_one = lambda public: (public.kind, public.has(Attribute.SIGN)) == wanted
        return self.object(lambda it: is_one(it.public) or self.happens())

    def flushed(self):
        held = [*self.device.objects, *self.device.sessions, 0x80000007, 0x02000000, RH_NULL]
        return [], number(self.choice(held), 4)

    # Commands that change the state that a device keeps while it has no power.

    def parameters(self):
        """Returns the handle and the parameters of TPM2_DictionaryAttackParameters."""
        numbers = (self.choice(it) for it in (MOST_TRIES, RECOVERIES, RECOVERIES))
        return [frames.RH_LOCKOUT], frames.attack_parameters(*numbers)

    def capability(self):
        """Returns a TPM2_GetCapability that usually lists existing entities, beginning with the
        first one or at an existing handle.
        """
        kinds = 0, 0x40, 1, 2, 2, 3, 0x80, 0x81, 4
        held = [*self.device.objects, *self.device.sessions, *self.device.indices]
        wanted = self.choice((self.choice(kinds) << 24, self.choice(held or [0])))
        capability = self.choice((1, 1, 1, 1, 2, 5, 6, 6, 3))
        if capability == 2:
            wanted = self.choice((0, self.choice(list(NUMBERED)), 0x18F, 0x190))
        if capability == 6:
            wanted = self.choice((0, 0x100, 0x101, 0x129, 0x20E, 0x211, 0x212))
        count = self.choice((0, 1, 2, 64, 65, 2**32 - 1))
        return [], b"".join(number(it, 4) for it in (capability, wanted, count))

    def evict(self):
        handle, asker = self.object(), self.choice(ASKERS)
        held = self.device.objects.get(handle)
        if held and not self.happens(0.2):
            is_platforms = held.hierarchy == frames.RH_PLATFORM
            asker = frames.RH_PLATFORM if is_platforms else frames.RH_OWNER
        wanted = 0x81000000 + self.randrange(20)
        if (asker == frames.RH_PLATFORM) != self.happens():
            wanted += 0x00800000
        if persistent.is_persistent(handle) and not self.happens(0.1):
            wanted = handle
        return [asker, handle], number(wanted ^ self.happens() << 25, 4)

    def yes_or_no(self):
        return number(self.randrange(2) + 2 * self.happens(), 1)

    def change_auth(self):
        return [self.choice(HIERARCHIES)], sized(self.choice(AUTH_VALUES) + bytes(2))

    def clearing(self):
        return [self.choice((frames.RH_LOCKOUT, frames.RH_PLATFORM))]

    def pcr(self):
        return [self.choice((*PCR_NUMBERS, *PCR_NUMBERS, RH_NULL, 24))]

    def extension(self):
        values = [(SHA256, self.randbytes(32)), (SHA1, self.randbytes(20))]
        return self.pcr(), frames.digests(*values[: self.randrange(3)])

    COMMANDS = {
        CC.Startup: (1, lambda w: ([], number(w.randrange(2) * w.happens(0.5), 2))),
        CC.GetRandom: (2, lambda w: ([], number(w.randrange(70), 2))),
        CC.PCR_Read: (2, lambda w: ([], frames.selection(*w.selection()))),
        CC.PCR_Extend: (2, extension),
        CC.PCR_Event: (2, lambda w: (w.pcr(), sized(w.some_bytes(1024)))),
        CC.PCR_Reset: (2, lambda w: (w.pcr(), b"")),
        CC.HierarchyChangeAuth: (3, change_auth),
        CC.FlushContext: (12, flushed),
        CC.StartAuthSession: (14, start),
        CC.PolicyRestart: (1, told),
        CC.PolicyPCR: (4, policy_pcr),
        CC.PolicyOR: (3, policy_or),
        CC.PolicyAuthValue: (4, told),
        CC.PolicyPassword: (4, told),
        CC.PolicyCommandCode: (6, lambda w: w.told(number(w.choice((*USES, *NV_USES, 0x999)), 4))),
        CC.PolicyCpHash: (4, policy_cp_hash),
        CC.PolicyNvWritten: (6, policy_nv_written),
        CC.PolicyLocality: (3, lambda w: w.told(number(w.choice((0, 1, 3, 31, 31, 32)), 1))),
        CC.PolicySecret: (6, policy_secret),
        CC.PolicyGetDigest: (3, told),
        CC.CreatePrimary: (16, lambda w: ([w.hierarchy()], w.creation())),
        CC.Create: (16, lambda w: ([w.object(lambda it: it.public.is_parent)], w.creation())),
        CC.Load: (14, load),
        CC.ReadPublic: (4, lambda w: ([w.object()], b"")),
        CC.Unseal: (12, lambda w: ([w.keyed(signs=False)], b"")),
        CC.HMAC: (10, hmac),
        CC.NV_DefineSpace: (14, nv_define),
        CC.NV_UndefineSpace: (4, lambda w: (w.nv_undefine(), b"")),
        CC.NV_ReadPublic: (4, lambda w: ([w.index()], b"")),
        CC.NV_Write: (14, nv_write),
        CC.NV_Increment: (6, lambda w: (w.asked(nv.Type.COUNTER), b"")),
        CC.NV_SetBits: (4, lambda w: (w.asked(nv.Type.BITS), number(1 << w.randrange(64), 8))),
        CC.NV_Extend: (4, nv_extend),
        CC.NV_Read: (12, nv_read),
        CC.NV_WriteLock: (2, lambda w: (w.asked(), b"")),
        CC.NV_ReadLock: (2, lambda w: (w.asked(reads=True), b"")),
        CC.NV_ChangeAuth: (6, nv_change_auth),
        CC.PolicyNV: (10, policy_nv),
        CC.DictionaryAttackLockReset: (3, lambda w: ([frames.RH_LOCKOUT], b"")),
        CC.DictionaryAttackParameters: (2, parameters),
        CC.Shutdown: (1, lambda w: ([], number(w.choice((0, 1, 1)) + 2 * w.happens(), 2))),
        CC.SelfTest: (1, lambda w: ([], w.yes_or_no())),
        CC.ReadClock: (3, lambda w: ([], b"")),
        CC.GetCapability: (8, capability),
        CC.EvictControl: (10, evict),
        CC.Clear: (0.5, lambda w: (w.clearing(), b"")),
        CC.ClearControl: (0.5, lambda w: (w.clearing(), w.yes_or_no())),
    }

    assert COMMANDS.keys() == set(NUMBERED.values())

    # Methods that make entries.

    def entries(self, code, handles):
        """Returns the entries of a command. A handle that needs authorization gets a session or a
        password. Sometimes there are also sessions that only encrypt.
        """
        found = []
        if code.authorized and not self.happens(0.01):
            found.append(self.authorizing(handles[0], code))
        while not code.has(Fact.NO_SESSIONS) and self.device.sessions and self.happens(0.15):
            found.append(Entry(self.choice([*self.device.sessions]), b"", 0, b""))
        for entry in found:
            self.describe(entry, code)
        return found

    def authorizing(self, handle, code):
        held, entity = self.device.sessions, self.device.policy_entity(handle, code)
        fits = [RS_PW, *(it for it in held if held[it].kind == frames.SE_HMAC or self.happens())]
        for it in held:
            if entity and held[it].policy.digest == entity.auth_policy and not held[it].is_trial:
                fits += [it] * 9
        return Entry(self.choice(fits), b"", 0, b"")

    def describe(self, entry, code):
        entry.attributes = CONTINUE_SESSION if self.random() < 0.9 else 0
        if self.happens(0.01):
            entry.attributes |= 1 << self.randrange(8)
        if entry.handle == RS_PW:
            return
        held = self.device.sessions[entry.handle]
        entry.nonce = self.randbytes(self.choice((16, len(held.nonce_tpm))))
        encrypts = held.cipher != ALG_NULL
        if encrypts and code.takes_sized and self.happens(0.4):
            entry.attributes |= DECRYPT
        if encrypts and code.answers_sized and self.happens(0.4):
            entry.attributes |= ENCRYPT

    def authenticated(self, command):
        """Encrypts the first parameter of a command, and computes its HMACs."""
        device, found = self.device, command.with_attribute(DECRYPT)
        if found and found[1].handle in device.sessions:
            _, entry, handle = found
            held = device.sessions[entry.handle]
            key = device.encryption_key(held, handle)
            given = held.cipher, held.algorithm, key, entry.nonce, held.nonce_tpm
            encrypt = partial(sessions.encrypted, *given)
            command.parameters = sessions.on_first_buffer(encrypt, command.parameters)
        for place, entry, handle in command.places:
            entry.hmac = self.hmac_of(command, place, entry, handle)
            if self.happens(0.08 if device.touched(entry, handle) else 0.02):
                entry.hmac = self.choice((b"", self.some_bytes(32), entry.hmac + b"\0"))

    def hmac_of(self, command, place, entry, handle):
        device = self.device
        if entry.handle == RS_PW:
            return device.auth_value(handle) + bytes(self.randrange(2))
        held = device.sessions[entry.handle]
        if handle_kinds.is_policy(entry.handle) and handle is not None:
            entry.demand = held.policy.demand
            if entry.demand == policy.PASSWORD:
                return device.auth_value(handle)
        key = device.key(entry, handle)
        if not key and self.happens(0.8):
            return b""
        given = held.algorithm, key, device.cp_hash(held, command), entry.nonce, held.nonce_tpm
        others = device.nonces_of_others(command, place, handle)
        return sessions.entry_hmac(*given, others, entry.attributes)

    # Methods that send commands.

    @property
    def lines(self):
        """Returns the script's lines so far. Buffers are converted to lines here."""
        events = self.events
        return [line(it, self.PROFILE) if isinstance(it, bytes) else it for it in events]

    def code(self):
        """Returns the code of a supported command. During a lockout, about every tenth returned
        command is one that ends the lockout.
        """
        if self.device.lockout.is_locked() and self.happens(0.1):
            return self.choice((CC.DictionaryAttackLockReset, CC.DictionaryAttackParameters))
        codes = list(self.COMMANDS)
        (code,) = self.choices(codes, [self.COMMANDS[it][0] for it in codes])
        return code

    def buffer(self):
        code = self.code()
        handles, parameters = self.COMMANDS[code][1](self)
        if self.happens(0.02):
            parameters = parameters[: self.randrange(len(parameters) + 1)] + self.some_bytes(2)
        entries = self.entries(code, handles)
        command = general.Command(code, handles, entries, parameters)
        with contextlib.suppress(Short, KeyError, IndexError):
            self.authenticated(command)
        return self.damaged(frames.buffer_of(code, handles, entries, command.parameters))

    def damaged(self, buffer):
        """Returns the buffer. In rare cases, first flips one of its bits, or truncates it and
        corrects commandSize.
        """
        if self.happens(0.02):
            return self.bent(buffer)
        if self.happens(0.01):
            cut = buffer[: self.randrange(len(buffer))]
            return cut[:2] + number(len(cut), 4) + cut[6:] if len(cut) > 6 else cut
        return buffer

    def startup(self):
        """Returns a TPM2_Startup, usually with STATE if a state is saved."""
        is_saved = self.device.saved == state.Saved.STATE
        kind = state.STATE if is_saved and self.happens(0.7) else state.CLEAR
        return frames.command(CC.Startup, number(kind, 2))

    def step(self):
        is_saved = self.device.saved != state.Saved.NONE
        if self.happens(0.2 if is_saved else 0.003):
            self.device.power_cycle()
            self.played.append(POWER)
            self.events.append("power")
        if self.happens(0.02):
            self.locality = self.randrange(5)
            self.events.append(f"loc {self.locality}")
        if not self.device.started and not self.happens(0.1):
            buffer = self.startup()
        else:
            buffer = self.buffer()
        seed, elapsed = self.randbytes(7), 0
        if self.happens(0.1) or self.device.lockout.is_closed and self.happens(0.2):
            elapsed = self.choice((*WAITS, self.randrange(2**32)))
            self.events.append(f"wait {elapsed}")
        self.events += [f"entropy {seed.hex()}", buffer]
        outcome = self.device.execute(buffer, self.locality, repeated(seed), elapsed)
        self.played.append(Played(outcome, self.locality, elapsed))
        self.note(buffer, outcome.response, outcome.refused)

    def note(self, buffer, response, refused):
        """Stores the objects that TPM2_Create returned, and the current policy digests of the
        sessions.
        """
        if not refused and buffer[:2] == number(frames.SESSIONS, 2):
            if int.from_bytes(buffer[6:10], "big") == CC.Create:
                fields = reading.Fields(response[14:])
                parent = self.device.name(int.from_bytes(buffer[10:14], "big"))
                self.made = [*self.made[-20:], (parent, fields.sized(), fields.sized())]
        for held in self.device.sessions.values():
            if held.policy.digest not in self.digests:
                self.digests = [b"", *self.digests[-20:], held.policy.digest]


class CompleteWriter(Writer):
    """Generates random commands for a device of the complete profile."""

    PROFILE = Profile.COMPLETE

    def asker(self):
        return [self.choice((*ASKERS, *ASKERS, *ASKERS, RH_NULL))]

    def new_time(self):
        """Returns a time near Clock, near the largest time, or anywhere."""
        clock = min(self.device.clock, state.LAST_SET_TIME)
        near = self.choice((clock, clock, state.LAST_SET_TIME if self.happens() else clock))
        return number(near + self.choice((-1, 0, 1, 5000)) & state.LAST_TIME, 8)

    def any_code(self):
        return number(self.choice((*ALL_NUMBERED, 0x999)), 4)

    def algorithms(self):
        """Returns a list of algorithms. Sometimes the device does not implement one of them, and in
        rare cases there are too many.
        """
        count = self.choice((0, 1, 2, 2, 9, 64)) + self.happens(0.01)
        listed = self.choices([*complete_commands.ALGORITHMS], k=count)
        if listed and self.happens(0.1):
            listed[self.randrange(count)] = self.choice((*LACKS, self.randrange(2**16)))
        return number(count, 4) + b"".join(number(it, 2) for it in listed)

    def public_parameters(self):
        """Returns a type and its parameters. Sometimes one of their bits is flipped."""
        text = self.choice(
            (
                number(KEYEDHASH, 2) + number(ALG_NULL, 2),
                number(KEYEDHASH, 2) + number(frames.ALG_HMAC, 2) + number(self.hash(), 2),
                number(SYMCIPHER, 2) + frames.symmetric(True, None),
            )
        )
        return self.bent(text) if self.happens(0.2) else text

    def hashing(self):
        data = self.choice((b"", b"", b"", GENERATED_VALUE)) + self.some_bytes(1020)
        hierarchy = frames.RH_LOCKOUT if self.happens() else self.hierarchy()
        return sized(data) + number(self.hash(), 2) + number(hierarchy, 4)

    COMMANDS = {
        **Writer.COMMANDS,
        CC.PolicyCommandCode: (6, lambda w: w.told(w.any_code())),
        CC.StirRandom: (4, lambda w: ([], sized(w.some_bytes(128)))),
        CC.GetTestResult: (4, lambda w: ([], b"")),
        CC.ClockSet: (6, lambda w: (w.asker(), w.new_time())),
        CC.ClockRateAdjust: (4, lambda w: (w.asker(), number(w.randrange(-5, 6) % 256, 1))),
        CC.IncrementalSelfTest: (4, lambda w: ([], w.algorithms())),
        CC.TestParms: (4, lambda w: ([], w.public_parameters())),
        CC.Hash: (6, lambda w: ([], w.hashing())),
    }

    assert COMMANDS.keys() == set(CC)


WRITERS = {"symmetric": Writer, "complete": CompleteWriter}


def written(seed, count, profile="symmetric"):
    """Returns a writer that has written this many commands."""
    writer = WRITERS[profile](seed)
    for _ in range(count):
        writer.step()
    return writer


def main(seed, count, folder, profile="symmetric"):
    writer = written(int(seed), int(count), profile)
    path = pathlib.Path(folder) / f"{seed}.tpm"
    path.write_text("\n".join(writer.lines) + "\n", "ascii")
    write_responses(path, writer.played)


if __name__ == "__main__":
    main(*sys.argv[1:])
