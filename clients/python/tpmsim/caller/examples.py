"""A valid example of each command, with the commands that must precede it. A test that sends each
command, or sends it truncated or with changed bytes, starts from here:
    scene = Scene.on(Device())
    scene.tpm.send(EXAMPLES[CC.NV_Read](scene))
"""

from dataclasses import dataclass
from typing import Callable, Self

from tpmsim.caller.caller import Caller
from tpmsim.caller.entries import Made, Prepared, Response, Session
from tpmsim.caller.knowledge import CLEAR, NONCE_BYTES, STATE
from tpmsim.caller.templates import area, bits, BY_OWNER, counter, extended, hmac_key, sealed
from tpmsim.caller.templates import storage_key
from tpmsim.device.base import Transport
from tpmsim.standard import ALG_NULL, CC, KEYEDHASH, number, nv, policy, RH_ENDORSEMENT, RH_OWNER
from tpmsim.standard import RH_PLATFORM, SE_POLICY, SHA256, sized, start_auth_session
from tpmsim.standard.objects import Public

INDEX, COUNTER, BITS, EXTENDED, LOCKABLE = range(0x0100_0001, 0x0100_0006)
REMOVED, NEW = 0x0100_0006, 0x0100_0008
PERSISTENT = 0x8100_0001
LOCKS = nv.Attribute.WRITE_STCLEAR | nv.Attribute.READ_STCLEAR

# The digest of a policy that authorizes a change of an index's authorization value.
CHANGING = policy.after_command_code(SHA256, bytes(32), CC.NV_ChangeAuth)


@dataclass
class Scene:
    """A started device with an index of each type, the ordinary one written; and the steps of the
    examples, which make sessions, objects and more indices. Each step has a description. A subclass
    that writes a script overrides the three methods that send commands.
    """

    tpm: Caller
    power_cycle: Callable[[], None]
    object_auth: bytes = b""

    @classmethod
    def on(cls, device: Transport) -> Self:
        """Starts a fresh device, and defines the indices."""
        scene = cls(Caller(device), device.power_cycle)
        scene.tpm.start_up()
        scene.define_indices()
        return scene

    def does(self, what: str, prepared: Prepared) -> None:
        """Sends a command whose response has no fields."""
        self.tpm.send(prepared)

    def makes(self, what: str, prepared: Prepared) -> Response:
        """Sends a command that makes an object."""
        return self.tpm.send(prepared)

    def session(self) -> Session:
        """Starts a policy session."""
        return self.tpm.session(kind=SE_POLICY)

    def define(self, what: str, public: nv.Public) -> int:
        """Defines an index."""
        self.does(what, self.tpm.defining(public))
        return public.index

    def define_indices(self) -> None:
        """Defines an index of each type, and writes the ordinary one."""
        self.define("An ordinary index", area(INDEX))
        self.does("The index is written", self.tpm.writing(INDEX, b"data", by=RH_OWNER))
        self.define("A counter", counter(COUNTER))
        self.define("Bits", bits(BITS))
        self.define("An index that is extended", extended(EXTENDED))
        public = area(LOCKABLE, BY_OWNER | LOCKS, auth_policy=CHANGING)
        self.define("An index with locks, and a policy for TPM2_NV_ChangeAuth", public)

    def primary(self, what: str, public: Public, data: bytes = b"") -> int:
        """Makes a primary object."""
        auth = self.object_auth
        made = self.makes(what, self.tpm.primary(RH_OWNER, public, user_auth=auth, data=data))
        assert made.handle is not None
        return made.handle

    def storage(self) -> int:
        """Makes a storage key."""
        return self.primary("A storage key", storage_key())

    def sealed_data(self) -> int:
        """Makes a sealed object."""
        return self.primary("A sealed object", sealed(), b"data")

    def key(self) -> int:
        """Makes an HMAC key."""
        return self.primary("An HMAC key", hmac_key(), b"key")

    def create(self, parent: int) -> Made:
        """Creates a sealed object below a parent."""
        prepared = self.tpm.child(parent, sealed(), user_auth=self.object_auth, data=b"data")
        made = self.makes("An object", prepared)
        return Made(made["outPrivate"], Public.read(made["outPublic"]), self.object_auth)

    def changing_session(self) -> Session:
        """Starts a session that satisfies the policy for TPM2_NV_ChangeAuth."""
        session = self.session()
        command_code = self.tpm.command_code(session, CC.NV_ChangeAuth)
        self.does("TPM2_PolicyCommandCode of TPM2_NV_ChangeAuth", command_code)
        return session


Example = Callable[[Scene], Prepared]

# A time in milliseconds to which TPM2_ClockSet sets Clock.
LATER = 1_000_000


def unstarted(scene: Scene) -> Prepared:
    """TPM2_Startup, after a power cycle."""
    scene.power_cycle()
    return scene.tpm.starting(CLEAR)


def starting_session(scene: Scene) -> Prepared:
    """TPM2_StartAuthSession of an HMAC session that is bound to nothing."""
    nonce = scene.tpm.nonce(NONCE_BYTES)
    return scene.tpm.prepare(CC.StartAuthSession, *start_auth_session(nonce))


def loading(scene: Scene) -> Prepared:
    """TPM2_Load of an object that TPM2_Create returned."""
    parent = scene.storage()
    return scene.tpm.loading(parent, scene.create(parent))


def setting_clock(scene: Scene, milliseconds: int) -> Prepared:
    """TPM2_ClockSet, by the owner."""
    return scene.tpm.prepare(CC.ClockSet, [RH_OWNER], number(milliseconds, 8), b"")


def adjusting_rate(scene: Scene, rate: int) -> Prepared:
    """TPM2_ClockRateAdjust, by the owner."""
    return scene.tpm.prepare(CC.ClockRateAdjust, [RH_OWNER], number(rate, 1), b"")


def testing(scene: Scene, *algorithms: int) -> Prepared:
    """TPM2_IncrementalSelfTest of these algorithms."""
    listed = b"".join(number(it, 2) for it in algorithms)
    return scene.tpm.prepare(CC.IncrementalSelfTest, [], number(len(algorithms), 4) + listed)


def trying_parameters(scene: Scene) -> Prepared:
    """TPM2_TestParms of a KEYEDHASH without a scheme."""
    return scene.tpm.prepare(CC.TestParms, [], number(KEYEDHASH, 2) + number(ALG_NULL, 2))


def hashing(scene: Scene) -> Prepared:
    """TPM2_Hash with SHA-256, and a ticket of the owner's hierarchy."""
    parameters = sized(b"data") + number(SHA256, 2) + number(RH_OWNER, 4)
    return scene.tpm.prepare(CC.Hash, [], parameters)


# One device can execute all examples in this order.
EXAMPLES: dict[CC, Example] = {
    CC.Startup: unstarted,
    CC.Shutdown: lambda it: it.tpm.shutting_down(STATE),
    CC.SelfTest: lambda it: it.tpm.self_test(1),
    CC.GetCapability: lambda it: it.tpm.capability(6, 0x100, 1),
    CC.GetRandom: lambda it: it.tpm.random(8),
    CC.ReadClock: lambda it: it.tpm.clock(),
    CC.PCR_Read: lambda it: it.tpm.read_pcr(0),
    CC.PCR_Extend: lambda it: it.tpm.command("PCR_Extend", 0, digests=[(SHA256, bytes(32))]),
    CC.PCR_Event: lambda it: it.tpm.event(b"event", b""),
    CC.PCR_Reset: lambda it: it.tpm.reset(b""),
    CC.StartAuthSession: starting_session,
    CC.PolicyRestart: lambda it: it.tpm.restart(it.session()),
    CC.FlushContext: lambda it: it.tpm.flush(it.session()),
    CC.PolicyPCR: lambda it: it.tpm.pcrs(it.session(), "sha256:0"),
    CC.PolicyOR: lambda it: it.tpm.branches(it.session(), bytes(32), b"another"),
    CC.PolicyAuthValue: lambda it: it.tpm.auth_value_told(it.session()),
    CC.PolicyPassword: lambda it: it.tpm.password_told(it.session()),
    CC.PolicyCommandCode: lambda it: it.tpm.command_code(it.session(), CC.Unseal),
    CC.PolicyNV: lambda it: it.tpm.comparing(it.session(), INDEX, b"data", by=RH_OWNER),
    CC.PolicyLocality: lambda it: it.tpm.locality(it.session(), 1),
    CC.PolicySecret: lambda it: it.tpm.secret(it.session()),
    CC.PolicyGetDigest: lambda it: it.tpm.get_digest(it.session()),
    CC.CreatePrimary: lambda it: it.tpm.primary(RH_OWNER, storage_key()),
    CC.Create: lambda it: it.tpm.child(it.storage(), sealed(), data=b"data"),
    CC.Load: loading,
    CC.ReadPublic: lambda it: it.tpm.public(it.storage()),
    CC.Unseal: lambda it: it.tpm.unsealing(it.sealed_data()),
    CC.HMAC: lambda it: it.tpm.hmac(it.key(), b"data", SHA256),
    CC.EvictControl: lambda it: it.tpm.evicting(RH_OWNER, it.storage(), PERSISTENT),
    CC.HierarchyChangeAuth: lambda it: it.tpm.change_auth(RH_ENDORSEMENT, b"", b""),
    CC.NV_DefineSpace: lambda it: it.tpm.defining(area(NEW)),
    CC.NV_UndefineSpace: lambda it: it.tpm.undefining(it.define("An index", area(REMOVED))),
    CC.NV_ReadPublic: lambda it: it.tpm.index_public(INDEX),
    CC.NV_Write: lambda it: it.tpm.writing(INDEX, b"data", by=RH_OWNER),
    CC.NV_Increment: lambda it: it.tpm.incrementing(COUNTER),
    CC.NV_SetBits: lambda it: it.tpm.setting(BITS, 1),
    CC.NV_Extend: lambda it: it.tpm.extending(EXTENDED, b"data"),
    CC.NV_Read: lambda it: it.tpm.reading(INDEX, 4, by=RH_OWNER),
    CC.NV_WriteLock: lambda it: it.tpm.write_locking(LOCKABLE, by=RH_OWNER),
    CC.NV_ReadLock: lambda it: it.tpm.read_locking(LOCKABLE, by=RH_OWNER),
    CC.NV_ChangeAuth: lambda it: it.tpm.changing_auth(LOCKABLE, b"", it.changing_session()),
    CC.DictionaryAttackLockReset: lambda it: it.tpm.lock_reset(),
    CC.DictionaryAttackParameters: lambda it: it.tpm.attack_parameters(3, 1000, 1000),
    CC.ClearControl: lambda it: it.tpm.clear_control(RH_PLATFORM, 0),
    CC.Clear: lambda it: it.tpm.clearing(RH_PLATFORM),
    CC.PolicyCpHash: lambda it: it.tpm.cp_hash_told(it.session(), bytes(32)),
    CC.PolicyNvWritten: lambda it: it.tpm.written_told(it.session(), 1),
}

# The commands that only a device of the complete profile serves.
COMPLETE_EXAMPLES: dict[CC, Example] = {
    CC.StirRandom: lambda it: it.tpm.prepare(CC.StirRandom, [], sized(b"data")),
    CC.GetTestResult: lambda it: it.tpm.prepare(CC.GetTestResult, []),
    CC.IncrementalSelfTest: lambda it: testing(it, SHA256),
    CC.TestParms: trying_parameters,
    CC.Hash: hashing,
    CC.ClockSet: lambda it: setting_clock(it, LATER),
    CC.ClockRateAdjust: lambda it: adjusting_rate(it, 1),
}
