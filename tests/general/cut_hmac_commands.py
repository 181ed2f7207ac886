"""Makes cut_hmac_commands.tpm. Commands that an HMAC authorizes are cut after their authorization
area to each shorter length, with the right commandSize. The HMAC is that of the whole parameters,
so it is wrong for the cut ones. The device compares it before it reads the parameters. For a
protected NV index or object, the wrong HMAC is a failed try: TPM_PT_LOCKOUT_COUNTER (20E) shows
that the device counts it. TPM2_DictionaryAttackLockReset forgives each failed try. A refusal leaves
the session unchanged. Therefore the whole command can be sent at the end, with the same HMAC.
"""

from collections.abc import Iterator

from tpmsim.caller import Prepared, Session
from tests.common.steps import AFTER_AUTH_VALUE, PROTECTED, with_value
from tests.common.vocabulary import area, bits, BY_POLICY, BY_VALUE, CC, extended, FIRST, FOURTH
from tests.common.vocabulary import frames, hmac_key, NvAttribute, RH_LOCKOUT, RH_OWNER, SECOND
from tests.common.vocabulary import SHA1, SHA256, sized, THIRD
from tests.general.changes import cuts, with_size
from tests.sessions.grounds_caller import GroundsCaller

PIN, DATA, LOCKOUT = b"pin", b"abc", b"lockout"
DEMANDING = AFTER_AUTH_VALUE[SHA256]
NO_TRY, TRY = 0, 1

tpm = GroundsCaller(__name__, __doc__)


def refused(what: str, outcome: str, tries: int, *buffers: bytes) -> None:
    """Sends buffers that must be refused, and checks the number of failed tries afterwards."""
    tpm.raw(f"{what}: {outcome}", *buffers)
    tpm.tries_are("Tries", tries)


def refused_alone(what: str, outcome: str, tries: int, buffer: bytes) -> None:
    """Sends one buffer, as `refused` does. If the buffer counts as a failed try, this function then
    resets the number of failed tries.
    """
    refused(what, outcome, tries, buffer)
    if tries:
        tpm.unlocks()


def cuts_of(prepared: Prepared) -> Iterator[tuple[str, bytes]]:
    """Yields copies of the command with its parameters truncated to each shorter length, each with
    a description.
    """
    whole, count = prepared.buffer(), len(prepared.parameters)
    for left in range(count):
        yield f"Cut to {left} of {count} bytes", with_size(whole[: len(whole) - count + left])


def comes_whole(prepared: Prepared) -> None:
    response = tpm.raw("Whole: SUCCESS", prepared.buffer(), fresh=True)
    tpm.received(prepared, response)
    tpm.tries_are("No try", NO_TRY)


def cut(name: str, prepared: Prepared, outcome: str = "AUTH_FAIL/s1", tries: int = TRY) -> None:
    """Sends a command cut to each shorter length, and with an extra byte. Each attempt must count
    as `tries` failed tries. Then sends the whole command.
    """
    tpm.chapter(f"{name}.")
    for what, buffer in cuts_of(prepared):
        refused_alone(what, outcome, tries, buffer)
    longer = prepared.but(parameters=prepared.parameters + b"\0")
    refused_alone("A byte too many", outcome, tries, longer.buffer())
    comes_whole(prepared)


def by_each_command(session: Session, told: Session, key: int) -> None:
    """Sends other commands on a protected index or object, authorized with an unbound session."""
    cut("TPM2_NV_Read", tpm.reading(FIRST, 3, session, offset=2))
    cut("TPM2_NV_SetBits", tpm.setting(SECOND, 5, session))
    cut("TPM2_NV_Extend", tpm.extending(THIRD, DATA, session))
    cut("TPM2_PolicyNV", tpm.comparing(told, FIRST, DATA, session, offset=2))
    cut("TPM2_PolicySecret of the index", tpm.secret(told, session, of=FIRST))
    cut("TPM2_HMAC by an object", tpm.hmac(key, DATA, SHA256, session))


def beside(session: Session, bound: Session) -> None:
    """Uses a session that is bound to the index in entries that do not authorize the index."""
    cut("TPM2_PCR_Event of PCR 16, which the bound session authorizes", tpm.event(DATA, bound))
    case = "TPM2_PCR_Event that a password authorizes, with the bound session after it"
    cut(case, tpm.event(DATA, b"", bound), "AUTH_FAIL/s2")
    cut("TPM2_GetRandom with the bound session alone", tpm.random(2, bound))
    cut(
        "TPM2_PCR_Event, with the bound session after one that is bound to nothing. The hmac of "
        "that is left out, as its key is empty; so only the second one's is wrong",
        tpm.event(DATA, session, bound),
        "AUTH_FAIL/s2",
    )


said = tpm("A protected NV index, with a policy that asks for its value")
said.define(area(FIRST, BY_VALUE | BY_POLICY, auth_policy=DEMANDING), auth=PIN)
tpm.define("Protected bits", bits(SECOND, BY_VALUE), auth=PIN)
tpm.define("A protected index that is extended", extended(THIRD, BY_VALUE), auth=PIN)
tpm.define("One with TPMA_NV_NO_DA", area(FOURTH, BY_VALUE | NvAttribute.NO_DA), auth=PIN)
tpm("The first is written").writing(FIRST, DATA, offset=2)
said, protected = tpm("A protected HMAC key"), hmac_key(attributes=PROTECTED)
key = said.create_primary(RH_OWNER, protected, user_auth=PIN, data=b"a key")

# TPM2_NV_Write of the first index, authorized with each kind of session.
unbound = tpm.start("A session that is bound to nothing: the value of the index is the key")
cut("TPM2_NV_Write by it", tpm.writing(FIRST, DATA, unbound, offset=2))
sha1 = tpm.start("One of SHA-1", algorithm=SHA1)
cut("TPM2_NV_Write by it", tpm.writing(FIRST, DATA, sha1, offset=2))
bound = tpm.start("A session that is bound to the index", FIRST)
cut("TPM2_NV_Write by it", tpm.writing(FIRST, DATA, bound, offset=2))
to_owner = tpm.start("A session that is bound to TPM_RH_OWNER, with AES", RH_OWNER, aes=True)
case = "TPM2_NV_Write by it, with encrypted data"
cut(case, tpm.writing(FIRST, DATA, to_owner.decrypting, offset=2))
told = tpm.policy("A policy session")
tpm("TPM2_PolicyAuthValue").auth_value_told(told)
cut("TPM2_NV_Write by it", tpm.writing(FIRST, DATA, with_value(told), offset=2))

tpm("A session is flushed").flush(sha1)

prepared = tpm.writing(FIRST, DATA, unbound, offset=2)
tpm.chapter(
    "TPM2_NV_Write, cut before its parameters, with commandSize corrected, and anywhere, with "
    "commandSize as it was. No hmac is compared, so that is no try."
)
cut_to_old_size, *corrected = cuts(prepared.buffer())
for what, outcome, buffers in (*corrected[:3], cut_to_old_size):
    refused(what, outcome, NO_TRY, *buffers)
comes_whole(prepared)

# The entry is right for the truncated parameters. Therefore the command is refused only because
# parameters are missing.
whole = frames.nv_write(DATA, 2)
in_data = range(len(sized(DATA)))
for words, use in (
    ("An hmac that is made of what is left of the parameters", unbound),
    ("The password", PIN),
):
    tpm.chapter(f"{words} is right: so the parameters are refused, and that is no try.")
    for left in range(len(whole)):
        prepared = tpm.prepare(CC.NV_Write, [FIRST, FIRST], whole[:left], use)
        outcome = f"INSUFFICIENT/{'p1' if left in in_data else 'p2'}"
        refused(f"{left} bytes are left", outcome, NO_TRY, prepared.buffer())
tpm.chapter("A wrong password is a try, whatever is left.")
for left in range(len(whole)):
    prepared = tpm.prepare(CC.NV_Write, [FIRST, FIRST], whole[:left], b"x")
    refused_alone(f"{left} bytes are left", "AUTH_FAIL/s1", TRY, prepared.buffer())

tpm.chapter("Tries add up to maxTries, which is 3. No more is counted then.")
prepared = tpm.writing(FIRST, DATA, unbound, offset=2)
for tries, (what, buffer) in enumerate(cuts_of(prepared), 1):
    refused(what, "AUTH_FAIL/s1" if tries <= 3 else "LOCKOUT", min(tries, 3), buffer)
refused("Whole", "LOCKOUT", 3, prepared.buffer())
tpm.unlocks()
comes_whole(prepared)

tpm.set_protection("TPM2_DictionaryAttackParameters: maxTries is 1", 1, 1000, 1000)
prepared = tpm.writing(FIRST, DATA, unbound, offset=2)
for what, buffer in cuts_of(prepared):
    refused(what, "AUTH_FAIL/s1", TRY, buffer)
    refused("Now it is locked: the same", "LOCKOUT", TRY, buffer)
    refused_alone("And whole", "LOCKOUT", TRY, prepared.buffer())
comes_whole(prepared)

tpm.set_protection("maxTries is 3 again", 3, 1000, 1000)
tpm.restarts(told)
by_each_command(unbound, told, key)
beside(unbound, bound)

# Truncated commands on entities without dictionary attack protection.
case = "TPM2_NV_Write of the index with TPMA_NV_NO_DA"
cut(case, tpm.writing(FOURTH, DATA, unbound), "BAD_AUTH/s1", NO_TRY)
tpm('ownerAuth is "pin"').change_auth(RH_OWNER, PIN, b"")
case = "TPM2_HierarchyChangeAuth of TPM_RH_OWNER"
cut(case, tpm.change_auth(RH_OWNER, b"", unbound), "BAD_AUTH/s1", NO_TRY)

tpm.chapter(
    "TPM2_DictionaryAttackParameters by a session: a try at lockoutAuth counts nothing, and "
    "closes it for lockoutRecovery, which is 1,000 seconds."
)
tpm('lockoutAuth is "lockout"').change_auth(RH_LOCKOUT, LOCKOUT, b"")
prepared = tpm.attack_parameters(3, 1000, 1000, unbound)
for what, buffer in cuts_of(prepared):
    refused(what, "AUTH_FAIL/s1", NO_TRY, buffer)
    refused("Now it is closed: the same", "LOCKOUT", NO_TRY, buffer)
    refused("And whole", "LOCKOUT", NO_TRY, prepared.buffer())
    tpm.wait(1_000_000)
comes_whole(prepared)
