"""Examples of all commands for scripts: those of tpmsim.caller.examples, and more with other
parameters and entries.
"""

from collections.abc import Callable, Iterator
from dataclasses import dataclass
from functools import partial

from tpmsim.caller import area, hmac_key, Prepared, Response, sealed, Session, Use
from tpmsim.caller.examples import BITS, COUNTER, EXAMPLES, INDEX, LOCKABLE, Scene
from tpmsim.device import ModelDevice
from tpmsim.standard import CC, RH_OWNER, SE_TRIAL, SHA1, SHA256, start_auth_session
from tpmsim.standard.objects import Public
from tests.common.script import SUCCESS
from tests.common.script_caller import ScriptCaller


class ScriptScene(Scene):
    """A scene whose steps become commands of a script, with their descriptions."""

    def __init__(self, tpm: ScriptCaller, object_auth: bytes = b"") -> None:
        super().__init__(tpm, tpm.script.power, object_auth)

    def does(self, what: str, prepared: Prepared) -> None:
        self.tpm.does(what, prepared)

    def makes(self, what: str, prepared: Prepared) -> Response:
        return self.tpm.response(what, prepared)

    def session(self) -> Session:
        return self.tpm.policy("A policy session")

    def trial(self) -> Session:
        return self.tpm.trial("A trial session")

    def ciphering(self, **cipher: bool) -> Session:
        return self.tpm.start("A session with a cipher", **cipher)


def parameters_of(code: CC) -> bytes:
    """Returns the parameters of the example of a command."""
    with ModelDevice() as device:
        return EXAMPLES[code](Scene.on(device)).parameters


@dataclass(frozen=True)
class Example:
    """A command and its outcome. `make` first sends the commands that must precede it."""

    name: str
    make: Callable[[ScriptScene], Prepared]
    outcome: str = SUCCESS


def starting(scene: ScriptScene, **cipher: bool | int) -> Prepared:
    return scene.tpm.prepare(CC.StartAuthSession, *start_auth_session(bytes(16), **cipher))


def extending(scene: ScriptScene) -> Prepared:
    both = [(SHA1, bytes(20)), (SHA256, bytes(32))]
    return scene.tpm.command("PCR_Extend", 10, digests=both)


def by_three(scene: ScriptScene) -> Prepared:
    """TPM2_PCR_Reset with three entries; the session of the last one ends."""
    first, second = scene.ciphering(aes=True), scene.ciphering(aes=True)
    return scene.tpm.reset(b"", first, Use(second, attributes=0))


def asserting_secret(scene: ScriptScene) -> Prepared:
    parts = {"nonce_tpm": b"nonce", "cp_hash": bytes(32), "policy_ref": b"policyRef"}
    return scene.tpm.secret(scene.trial(), **parts)


def creating(code: CC, handle: int, public: Public, scene: ScriptScene) -> Prepared:
    more = {"outside_info": b"outside", "pcrs": [(SHA256, [0])], "data": b"data"}
    return scene.tpm.creation(code, handle, public, **more)


def next_to_storage(code: CC, scene: ScriptScene) -> Prepared:
    """The example of a command, on a device that has a storage key."""
    scene.storage()
    return EXAMPLES[code](scene)


TWO_BANKS, A_BANK = [(SHA1, [0]), (SHA256, [1])], [(SHA256, range(24))]

# Examples whose parameters or entries differ from those of the table. The script writes each name
# after the name of the command.
MORE = (
    Example("With a password", lambda it: it.tpm.random(4, b""), "HANDLE/s1"),
    Example("By a wrong password", lambda it: it.tpm.secret(it.trial(), b"wrong"), "BAD_AUTH/s1"),
    Example('ownerAuth becomes "abc"', lambda it: it.tpm.change_auth(RH_OWNER, b"abc", b"")),
    Example("Of a bank", lambda it: it.tpm.command("PCR_Read", pcrSelectionIn=A_BANK)),
    Example("By two digests", extending),
    Example("With AES", partial(starting, aes=True)),
    Example("Of a trial session", partial(starting, kind=SE_TRIAL)),
    Example("With TPM_ALG_XOR", partial(starting, xor=SHA256)),
    Example("A session decrypts", lambda it: it.tpm.event(b"a", it.ciphering(aes=True).decrypting)),
    Example("By a mask", lambda it: it.tpm.event(b"a", it.ciphering(xor=True).decrypting)),
    Example("By a session", lambda it: it.tpm.reset(it.ciphering())),
    Example("With three entries", by_three),
    Example("Of handles", lambda it: it.tpm.capability(1, 0, 3)),
    Example("Of two banks", lambda it: it.tpm.pcrs(it.trial(), TWO_BANKS, bytes(20))),
    Example("Of TPM_RH_ENDORSEMENT", asserting_secret),
    Example("Of an HMAC key", partial(creating, CC.CreatePrimary, RH_OWNER, hmac_key())),
    Example("Of sealed data", lambda it: creating(CC.Create, it.storage(), sealed(), it)),
    Example("Next to a storage key", partial(next_to_storage, CC.Unseal)),
    Example("Next to a storage key", partial(next_to_storage, CC.HMAC)),
    Example("Before the first index", lambda it: it.tpm.defining(area(INDEX - 1), auth=b"a")),
    Example("With an offset", lambda it: it.tpm.writing(INDEX, b"ata", offset=1, by=RH_OWNER)),
    Example(
        "Of three bytes",
        lambda it: it.tpm.comparing(it.trial(), INDEX, b"ata", offset=1, by=RH_OWNER),
    ),
    Example("By the owner", lambda it: it.tpm.incrementing(COUNTER, by=RH_OWNER)),
    Example("By the owner", lambda it: it.tpm.setting(BITS, 5, by=RH_OWNER)),
    Example("To a value", lambda it: it.tpm.changing_auth(LOCKABLE, b"abc", it.changing_session())),
)


def examples() -> Iterator[Example]:
    """Yields these examples and those of the table. One device can execute them in this order."""
    yield from MORE
    for code, make in EXAMPLES.items():
        yield Example("The example", make)
