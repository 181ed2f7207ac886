"""Makes policy_handles.tpm. The policy commands have the handle of a policy or trial session, which
needs no authorization. In TPM2_PolicySecret it is the second handle.
"""

from tpmsim.standard import area, HandleKind, NUMBERED
from tests.common.examples import parameters_of
from tests.common.vocabulary import CC, entry, frames, number, RH_ENDORSEMENT, RH_NULL, RH_OWNER
from tests.common.vocabulary import RS_PW, SHA1, Teller, wrong_in

tpm = Teller(__name__, __doc__, starts=False)
refused = tpm.raw

COMMANDS = [
    (it, parameters_of(it))
    for it in NUMBERED.values()
    if [of.kind for of in it.handles] == [HandleKind.POLICY]
]

# PCR 0, an NV index, HMAC sessions, permanent entities, objects, and handles with undefined types.
OTHERS = (
    *(0, 0x0100_0000, 0x0200_0000, 0x0200_0001, RH_OWNER, RH_NULL, RS_PW),
    *(0x8000_0000, 0x8100_0000, 0x0400_0000, 0xFF00_0000),
)
PASSWORD = area(entry())
TAGGED = "With sessions (tag 8002), and no authorization area"
ABSENT = (0x0300_0000, 0x0300_0004, 0x0300_000F, 0x0300_0010, 0x0300_0101, 0x03FF_FFFF)


def plain(code, *handles, text=b""):
    return frames.command(code, b"".join(number(it, 4) for it in handles) + text)


def by_password(handle, session=ABSENT[0]):
    """Returns a TPM2_PolicySecret that is authorized by the empty password."""
    text = number(handle, 4) + number(session, 4) + PASSWORD + NOTHING
    return frames.command(CC.PolicySecret, text, frames.SESSIONS)


NOTHING = frames.policy_secret()
OF_NONE = [plain(code, ABSENT[0], text=text) for code, text in COMMANDS]
refused("Before TPM2_Startup: INITIALIZE", *OF_NONE, by_password(RH_ENDORSEMENT))
tpm.startup()
refused("While there is no session at all: REFERENCE_H0", *OF_NONE)
refused("TPM2_PolicySecret: REFERENCE_H1", by_password(RH_ENDORSEMENT))
hmac = tpm.start("An HMAC session, 02000000, whose place no policy session has", RH_OWNER)
policy = tpm.policy("A policy session, 03000001, bound to TPM_RH_OWNER", bind=RH_OWNER)
trial = tpm.trial("A trial session, 03000002")
assert (hmac.handle, policy.handle, trial.handle) == (0x0200_0000, 0x0300_0001, 0x0300_0002)


def handles_of(code, text):
    tpm.chapter(f"TPM2_{code.name}.")
    refused("No handle: INSUFFICIENT/h1", plain(code), plain(code, text=b"\3\0\0"))
    refused("A handle of another kind: VALUE/h1", *(plain(code, it, text=text) for it in OTHERS))
    case = "A session that does not exist; the first has an HMAC session's place: REFERENCE_H0"
    refused(case, *(plain(code, it, text=text) for it in ABSENT))
    for words, handle, behind in (
        (f"{TAGGED}; the handle comes first: AUTHSIZE", policy.handle, b""),
        ("The handle comes before it: REFERENCE_H0", ABSENT[0], b""),
        ("A password, which authorizes nothing here: HANDLE/s1", policy.handle, PASSWORD + text),
    ):
        refused(words, frames.command(code, number(handle, 4) + behind, frames.SESSIONS))
    in_policy = tpm.told(code, policy, text, hmac, policy, trial)
    case = "Three sessions, of which the second has a wrong hmac: BAD_AUTH/s2"
    tpm.refused(case, wrong_in(in_policy, 2))
    tpm.accepted("And the right one", in_policy)
    tpm("The trial session alone").told(code, trial, text, trial)
    restarts = [tpm.restart(it) for it in (policy, trial)]
    tpm.says("The sessions are restarted: SUCCESS", *restarts)
    told = [tpm.told(code, it, text) for it in (policy, trial)]
    tpm.says("Each without sessions (tag 8001), and restarted again: SUCCESS", *told, *restarts)


for command in COMMANDS:
    handles_of(*command)

tpm.chapter("TPM2_PolicySecret, whose first handle needs authorization.")
SECRET = CC.PolicySecret
refused("No authHandle: INSUFFICIENT/h1", plain(SECRET), plain(SECRET, text=b"\x40\0\0"))
handles = RH_NULL, 24, RS_PW, 0x4000_0000, 0x4000_0008, 0x0200_0000, 0x0300_0001, 0xFF00_0000
refused(
    "An authHandle that is no entity of its own: TPM_RH_NULL, PCR 24, TPM_RS_PW, two other "
    "permanent handles, sessions, and a number of no kind: VALUE/h1",
    *(by_password(it, policy.handle) for it in handles),
)
refused("authHandle is checked before policySession is read: VALUE/h1", plain(SECRET, RH_NULL))
case = "A transient object, while there is none: REFERENCE_H0"
refused(case, by_password(0x8000_0000, policy.handle), by_password(0x80FF_FFFF, RH_OWNER))
case = "A persistent object, and an NV index, while there are none: HANDLE/h1"
refused(case, *(by_password(it, policy.handle) for it in (0x8100_0000, 0x0100_0000)))
case = "No policySession: INSUFFICIENT/h2"
refused(case, plain(SECRET, RH_OWNER), plain(SECRET, RH_OWNER, text=b"\3\0\0"))
refused("A policySession of another kind: VALUE/h2", *(by_password(RH_OWNER, it) for it in OTHERS))
refused(
    "A session that does not exist: REFERENCE_H1", *(by_password(RH_OWNER, it) for it in ABSENT)
)
case = "Without sessions (tag 8001), after the handles: AUTH_MISSING"
refused(case, plain(SECRET, RH_OWNER, policy.handle, text=NOTHING))
case = "Which are looked at before: REFERENCE_H1"
refused(case, plain(SECRET, RH_OWNER, ABSENT[0], text=NOTHING))
tpm.refused("A second password, which authorizes nothing: HANDLE/s2", tpm.secret(policy, b"", b""))
tpm("A password, the HMAC session and the policy session itself").secret(policy, b"", hmac, policy)

tpm.chapter("The place of an HMAC session is no policy session's, and the other way round.")
other = tpm.start("An HMAC session, 02000003", algorithm=SHA1)
refused("TPM2_PolicyGetDigest of 03000003: REFERENCE_H0", plain(CC.PolicyGetDigest, 0x0300_0003))
tpm("The session is flushed").flush(other)
other = tpm.policy("A policy session takes its place", algorithm=SHA1)
assert other.handle == 0x0300_0003
tpm("The digest of the session").get_digest(other)
