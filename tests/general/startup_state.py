"""Makes startup_state.tpm. TPM2_Startup(STATE) restores PCRs 0 to 15 as TPM2_Shutdown(STATE) saved
them. It keeps platformAuth and the locks of NV indices, which TPM2_Startup(CLEAR) resets. Even
TPM2_Startup(STATE) removes objects and sessions.
"""

from tests.common.steps import Steps
from tests.common.vocabulary import area, BY_OWNER, BY_VALUE, CLEAR, FIRST, FOURTH, LOCKS
from tests.common.vocabulary import NvAttribute, RH_NULL, RH_OWNER, RH_PLATFORM, SECOND, SHA256
from tests.common.vocabulary import STATE, storage_key, THIRD

# PCRs 0 to 16 and 23 are zeros after TPM2_Startup, and 17 to 22 are ones.
PCRS = 0, 3, 15, 16, 17, 22, 23
LOCALITY_OF = {17: 2, 22: 2}

tpm = Steps(__name__, __doc__)


def extend(what):
    """Extends each of the PCRs with an event, which is the PCR's number."""
    for locality, words in ((0, what), (2, "PCRs 17 and 22 are extended from locality 2")):
        tpm.locality_is(locality)
        for pcr in (it for it in PCRS if LOCALITY_OF.get(it, 0) == locality):
            tpm(words).event(b"%d" % pcr, b"", pcr=pcr)
            words = ""
    tpm.locality_is(0)


def values(what):
    """Reads the PCRs one by one. Returns their values in both banks, without the update counter."""
    return {it: tpm(what if it == PCRS[0] else "").read_pcr(it)[4:] for it in PCRS}


def resume():
    tpm.saves_and_resumes("TPM2_Startup(STATE), a resume")


def restart():
    tpm.saves()
    tpm.power()
    tpm.start_up("TPM2_Startup(CLEAR), a restart")


def reset():
    tpm.power()
    tpm.start_up("TPM2_Startup(CLEAR), a reset")


def null_name(what):
    with tpm.held(what, storage_key(), hierarchy=RH_NULL) as handle:
        return tpm.names[handle]


tpm.chapter("PCRs.")
at_start = values("The PCRs after TPM2_Startup(CLEAR), here 0, 3, 15, 16, 17, 22 and 23")
extend("The PCRs are extended")
extended = values("The values of the PCRs")
resume()
resumed = values("PCRs 0, 3 and 15 have their saved values, the others their starting values")
assert all(resumed[it] == (extended if it < 16 else at_start)[it] for it in PCRS)
tpm("TPM2_PCR_Read: the update counter is 0").read_pcr(3)
extend("The PCRs are extended again")
again = values("PCRs 0, 3 and 15 continue from the saved values")
assert again[3] not in (extended[3], resumed[3]) and again[16] == extended[16]
restart()
assert values("All PCRs have their starting values") == at_start
extend("They are extended")
tpm.saves()
tpm.chapter("TPM2_Shutdown saves the values at that time.")
tpm("TPM2_Shutdown(CLEAR)").shutting_down(CLEAR)
tpm.resumes_not()
tpm("TPM2_Shutdown(STATE), before any extend").shutting_down(STATE)
tpm.resumes()
assert values("The PCRs have their starting values") == at_start

tpm.chapter("TPM2_Startup(STATE) from each locality.")
tpm("PCR 3 is extended").event(b"3", b"", pcr=3)
for locality in (4, 3):
    tpm.saves()
    tpm.power()
    tpm.locality_is(locality)
    tpm.start_up(f"TPM2_Startup(STATE) from locality {locality}", STATE)
    tpm("TPM2_PCR_Read of PCR 3").read_pcr(3)
tpm.locality_is(0)

tpm.chapter("Sessions and transient objects no longer exist.")
session = tpm.start("An HMAC session")
policy = tpm.policy("A policy session")
trial = tpm.trial("A trial session")
handle = tpm.owned("A storage key", storage_key())
resume()
tpm("The HMAC session: REFERENCE_S0").reset(session)
said = tpm("The policy session, and the trial session: REFERENCE_H0")
said.fails(tpm.get_digest(policy), tpm.get_digest(trial))
tpm("The storage key: REFERENCE_H0").public(handle)
tpm.start("A new HMAC session has the next handle")
tpm.policy("A new policy session has the next handle")
tpm.trial("A new trial session has the next handle")
tpm.power_cycle()

tpm.chapter("The session of an earlier policy no longer exists.")
policy = tpm.policy("A policy session")
tpm("TPM2_PolicyPCR of PCR 3").pcrs(policy, [(SHA256, [3])])
resume()
tpm("TPM2_PolicyGetDigest: REFERENCE_H0").get_digest(policy)

tpm.chapter("platformAuth, and the primary seed of the null hierarchy.")
name = null_name("A primary object of TPM_RH_NULL")
tpm('platformAuth is "platform"').change_auth(RH_PLATFORM, b"platform", b"")
resume()
assert null_name("The same primary object") == name
tpm("The empty password of TPM_RH_PLATFORM: BAD_AUTH/s1").change_auth(RH_PLATFORM, b"x", b"")
tpm("platformAuth is unchanged").change_auth(RH_PLATFORM, b"platform", b"platform")
restart()
assert null_name("The same primary object") == name
tpm("platformAuth is empty").change_auth(RH_PLATFORM, b"platform", b"")
reset()
assert null_name("The primary object is another one, since the seed is new") != name
tpm("platformAuth is empty").change_auth(RH_PLATFORM, b"", b"")

tpm.chapter("NV indices. A resume keeps their locks and data, which TPM2_Startup(CLEAR) clears.")
tpm.define("An index that can be locked until a start", area(FIRST, BY_OWNER | LOCKS))
tpm.define(
    "An index that is cleared at a start", area(SECOND, BY_OWNER | NvAttribute.CLEAR_STCLEAR)
)
tpm.define("An index that is locked permanently", area(THIRD, BY_OWNER | NvAttribute.WRITEDEFINE))
for index in (FIRST, SECOND, THIRD):
    tpm("The indices are written" if index == FIRST else "").writing(
        index, b"8 bytes.", by=RH_OWNER
    )
tpm("TPM2_NV_WriteLock").write_locking(FIRST, by=RH_OWNER)
tpm("TPM2_NV_WriteLock of the last index").write_locking(THIRD, by=RH_OWNER)
tpm("TPM2_NV_ReadLock").read_locking(FIRST, by=RH_OWNER)
resume()
for index in (FIRST, SECOND, THIRD):
    tpm.is_now("All indices are unchanged" if index == FIRST else "", index)
tpm.read("The second index is unchanged", SECOND, b"8 bytes.", by=RH_OWNER)
tpm("The first index is locked: NV_LOCKED").reading(FIRST, 8, by=RH_OWNER)
restart()
said = tpm("The first index is no longer locked")
said.is_now(FIRST, cleared=NvAttribute.WRITELOCKED | NvAttribute.READLOCKED)
tpm.is_now("The second index is not written", SECOND, cleared=NvAttribute.WRITTEN)
tpm.is_now("The third index is locked", THIRD)

tpm.chapter("With lockoutRecovery 0, lockoutAuth stays disabled until a reset.")
tpm.set_protection("lockoutRecovery is 0", 3, 1000, 0)
tpm("A wrong password: AUTH_FAIL/s1").lock_reset(b"wrong")
resume()
tpm("lockoutAuth is disabled: LOCKOUT").lock_reset()
restart()
tpm("It is closed: LOCKOUT").lock_reset()
tpm("TPM2_Shutdown(CLEAR)").shutting_down(CLEAR)
reset()
tpm("lockoutAuth is enabled").lock_reset()
tpm.chapter("Failed tries survive a reset, a restart and a resume.")
tpm.written("An index", area(FOURTH, BY_VALUE), b"x", auth=b"a")
wrong = tpm.writing(FOURTH, b"x", b"b")
tpm.fails("A wrong password: AUTH_FAIL/s1", wrong)
resume()
tpm.fails("The second: AUTH_FAIL/s1", wrong)
restart()
tpm.fails("The third failed try: AUTH_FAIL/s1", wrong)
reset()
tpm("The right password: LOCKOUT").writing(FOURTH, b"x")
