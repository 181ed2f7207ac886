"""Makes flush_context.tpm. TPM2_FlushContext ends a session. The handle is its parameter, and
needs no authorization. Objects are flushed in tests/objects/flush_objects.tpm.
"""

from tpmsim.standard import area
from tests.common.vocabulary import CC, command, entry, frames, number, RH_NULL, RH_OWNER, RS_PW
from tests.common.vocabulary import SHA1, Teller

tpm = Teller(__name__, __doc__, starts=False)


def texts(words, *those, tag=frames.NO_SESSIONS):
    tpm.raw(words, *(command(CC.FlushContext, it, tag) for it in those))


def flushes(words, *handles):
    texts(words, *(number(it, 4) for it in handles))


flushes("Before TPM2_Startup: INITIALIZE", 0x0200_0000)
tpm.startup()
flushes("While there is no session: HANDLE/p1", 0x0200_0000, 0x0200_000F)
session = tpm.start("An HMAC session, 02000000", RH_OWNER)

tpm.chapter("Refused commands, which end no session.")
areas = area(entry()), area(entry(session.handle)), area()
texts(
    "With sessions (tag 8002), whatever the authorization area holds: a password, the session, "
    "nothing, or a size that is cut: AUTH_CONTEXT",
    *(it + number(0x0200_0000, 4) for it in areas),
    b"",
    tag=frames.SESSIONS,
)
texts("No handle, and three bytes of one: INSUFFICIENT/p1", b"", bytes([2, 0, 0]))
case = "A byte after it, even if the handle is no session's: SIZE"
texts(case, *(number(it, 4) + b"\0" for it in (session.handle, RH_OWNER)))
flushes(
    "A handle that is neither a session's nor a transient object's: PCR 2, an NV index, "
    "TPM_RH_OWNER, TPM_RH_NULL, TPM_RS_PW, a persistent object, and numbers of no kind: VALUE/p1",
    *(2, 0x0100_0000, RH_OWNER, RH_NULL, RS_PW, 0x8100_0000, 0x0400_0000, 0xFFFF_FFFF),
)
flushes(
    "A session that does not exist: another number, far numbers, and a policy session with the "
    "number of the HMAC session: HANDLE/p1",
    *(0x0200_0001, 0x0200_0010, 0x0200_0100, 0x02FF_FFFF, 0x0300_0000),
)
flushes("A transient object, while there is none: HANDLE/p1", 0x8000_0000, 0x80FF_FFFF)
tpm("The session is unchanged").reset(session)

tpm.chapter("Commands that end a session.")
other = tpm.start("Another session, 02000001", algorithm=SHA1, aes=True)
tpm.accepted("The first is flushed", tpm.flush(session))
flushes("Once more: HANDLE/p1", session.handle)
tpm("TPM2_PCR_Reset by it: REFERENCE_S0").reset(session)
tpm("By the other, which is unchanged").reset(other)
again = tpm.start("The next session has its number, but not its key", RH_OWNER)
assert again.handle == session.handle
stale = tpm.reset(again)
session.nonce_tpm = again.nonce_tpm
tpm("TPM2_PCR_Reset by the old key: BAD_AUTH/s1").reset(session)
tpm.accepted("By its own", stale)
tpm.accepted("Both are flushed", tpm.flush(other))
tpm.accepted("", tpm.flush(again))
flushes("The sessions no longer exist: HANDLE/p1", 0x0200_0000, 0x0200_0001, 0x0200_0002)
