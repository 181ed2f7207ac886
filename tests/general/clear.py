"""Makes clear.tpm. TPM2_Clear prepares the device for a new owner: it removes the old owner's
objects and NV indices, the seed of its primary objects, its authorization values and its lockout.
The platform's entities stay.
"""

from tpmsim.model.capability import HANDLES, PROPERTIES
from tests.common.steps import AUTHORIZED, Steps
from tests.common.vocabulary import area, BY_PLATFORM, BY_VALUE, CC, command, counter, FIRST, number
from tests.common.vocabulary import NvAttribute, on_handle, RH_ENDORSEMENT, RH_LOCKOUT, RH_NULL
from tests.common.vocabulary import RH_OWNER, RH_PLATFORM, sealed, SECOND, SHA256, storage_key
from tests.common.vocabulary import THIRD, wrong

WITH_OBJECTS = (
    (RH_OWNER, "the owner", 0x8100_0000, RH_OWNER),
    (RH_ENDORSEMENT, "the endorsement hierarchy", 0x8100_0001, RH_OWNER),
    (RH_PLATFORM, "the platform", 0x8180_0000, RH_PLATFORM),
)

tpm = Steps(__name__, __doc__, starts=False)
says = tpm.raw


def listed(what, wanted, *handles):
    """Checks which handles of a kind TPM2_GetCapability lists."""
    tpm.lists(what, HANDLES, wanted, 64, handles)


def lockout_is(what, *values):
    """Checks TPM_PT_LOCKOUT_COUNTER and the three properties after it."""
    tpm.lists(what, PROPERTIES, 0x20E, 4, list(enumerate(values, 0x20E)))


def counter_of(what):
    """Returns the update counter of the PCRs."""
    return int.from_bytes(tpm(what).read_pcr(16)[:4], "big")


def primary_of(what, hierarchy):
    """Creates a primary object, flushes it, and returns its Name and its creation ticket."""
    with tpm.held(what, storage_key(), hierarchy=hierarchy) as handle:
        return tpm.names[handle], tpm.ticket


says("Before TPM2_Startup: INITIALIZE", on_handle(CC.Clear, RH_PLATFORM))
tpm.startup()
says("No handle: INSUFFICIENT/h1", command(CC.Clear, b""))
case = "Handles that cannot authorize TPM2_Clear: VALUE/h1"
says(case, *(on_handle(CC.Clear, it) for it in (RH_OWNER, RH_ENDORSEMENT, RH_NULL, 0, 0x8000_0000)))
says("Without sessions: AUTH_MISSING", command(CC.Clear, number(RH_LOCKOUT, 4)))
says("AUTH_MISSING", command(CC.Clear, number(RH_PLATFORM, 4)))
case = "A byte after the handle: SIZE"
says(case, *(on_handle(CC.Clear, it, b"\0") for it in (RH_LOCKOUT, RH_PLATFORM)))
tpm("A wrong password: BAD_AUTH/s1").clearing(RH_PLATFORM, b"x")
policy = tpm.policy("A policy session")
tpm("No policy authorizes TPM2_Clear: AUTH_UNAVAILABLE").clearing(RH_PLATFORM, policy)
tpm("The policy session is flushed").flush(policy)
case = "TPM2_Clear by the platform, and by lockoutAuth: SUCCESS"
says(case, *(on_handle(CC.Clear, it) for it in (RH_PLATFORM, RH_LOCKOUT)))

tpm.chapter("Preparation: entities of each kind, a reset and a restart.")
tpm.power_cycle()
tpm.saves_and_resumes()
tpm.wait(5000)
tpm.define("An NV index of the owner, and one of the platform", area(FIRST))
tpm("").writing(FIRST, b"data", by=RH_OWNER)
platforms = BY_PLATFORM | BY_VALUE | NvAttribute.PLATFORMCREATE
tpm.define("", area(SECOND, platforms), by=RH_PLATFORM)
tpm("").writing(SECOND, b"data", by=RH_PLATFORM)
tpm.define("A counter of the owner", counter(THIRD))
for words in ("The counter is incremented to 3", "", ""):
    tpm(words).incrementing(THIRD)
for hierarchy, words, kept, asker in WITH_OBJECTS:
    handle = tpm.create_primary(f"An object of {words}", hierarchy, storage_key())
    tpm.keep("The object becomes persistent", asker, handle, kept)
tpm.create_primary("An object of TPM_RH_NULL", RH_NULL, storage_key())
for handle, name, value in AUTHORIZED:
    tpm(f'The value of {name} is "{value.decode()}"').change_auth(handle, value, b"")
tpm.set_protection("maxTries is 5, and the two times change too", 5, 2000, 3000)

tpm.chapter("TPM2_Clear by the platform.")
names = {it: primary_of("A primary object before TPM2_Clear", it) for it, *_ in AUTHORIZED[:3]}
parent = tpm.owned("A storage key of the owner", storage_key(), b"owner")
below = tpm.create("An object below the storage key", parent, sealed(), data=b"data")
tpm("A failed try: AUTH_FAIL/s1").writing(SECOND, b"x", b"x")
tpm("A wrong password that disables lockoutAuth: AUTH_FAIL/s1").lock_reset(b"x")
session = tpm.start("A session that is bound to the owner", RH_OWNER)
policy = tpm.policy("A policy session")
tpm("TPM2_PolicyPCR").pcrs(policy, [(SHA256, [0])])
lockout_is("failedTries is 1", 1, 5, 2000, 3000)
before = counter_of("The update counter, and PCR 16")
tpm.clock_is("The clock", 5000, 5000, 1, 1)
tpm.wait(70)
tpm("TPM2_Clear").clearing(RH_PLATFORM)
tpm.wait(7)
tpm.clock_is("Clock and the counts are 0, and Time continues", 5077, 7, 0, 0)
assert counter_of("The update counter is one higher, and PCR 16 is unchanged") == before + 1
lockout_is("failedTries is 0, and the parameters are unchanged", 0, 5, 2000, 3000)
tpm("lockoutAuth is enabled and empty").lock_reset()
tpm("ownerAuth is empty").change_auth(RH_OWNER, b"", b"")
tpm("endorsementAuth is empty").change_auth(RH_ENDORSEMENT, b"", b"")
tpm("platformAuth is unchanged: BAD_AUTH/s1").change_auth(RH_PLATFORM, b"", b"")
tpm("TPM2_PolicyPCR fails as if a PCR had changed: PCR_CHANGED").pcrs(policy, [(SHA256, [0])])
tpm("The sessions still exist, and reset PCR 16").reset(session)
tpm("The bound session on TPM_RH_OWNER, whose value has changed").change_auth(
    RH_OWNER, b"", session
)
tpm.chapter("The handles that still exist.")
left = 0x8000_0002, 0x8000_0003
listed("The transient objects of the platform and of TPM_RH_NULL", 0x8000_0000, *left)
listed("The platform's persistent object", 0x8100_0000, 0x8180_0000)
listed("The index of the platform", 0x0100_0000, SECOND)
tpm("TPM2_ReadPublic of the platform's object").public(0x8180_0000)
tpm.read("TPM2_NV_Read of the platform's index", SECOND, b"data", by=RH_PLATFORM)
tpm("The owner's index: HANDLE/h1").index_public(FIRST)
tpm("The owner's object: HANDLE/h1").public(0x8100_0000)
tpm.chapter("The owner's seed is new, and the other seeds are not.")
for hierarchy, name, _ in AUTHORIZED[:3]:
    object_name, ticket = primary_of(f"The same primary object of {name}", hierarchy)
    assert (object_name == names[hierarchy][0]) == (hierarchy != RH_OWNER)
    # The owner's and the endorsement hierarchy have new proofs, so their old tickets are invalid.
    assert (ticket == names[hierarchy][1]) == (hierarchy == RH_PLATFORM)
parent = tpm.owned("A storage key of the new owner", storage_key())
tpm("The object created below the old storage key: INTEGRITY/p1").loading(parent, below)
tpm.chapter("No counter decreases.")
tpm.define("The counter is defined again", counter(THIRD))
tpm("TPM2_NV_Increment").incrementing(THIRD)
tpm.read("The counter is 4", THIRD, number(4, 8))

tpm.chapter(
    "TPM2_Clear with sessions. The key of the response's hmac contains the new, empty value."
)
tpm('lockoutAuth is "lockout"').change_auth(RH_LOCKOUT, b"lockout", b"")
unbound = tpm.start("An HMAC session that is bound to nothing")
bound = tpm.start("A session that is bound to TPM_RH_LOCKOUT", RH_LOCKOUT)
tpm.fails("A wrong hmac: AUTH_FAIL/s1", wrong(tpm.clearing(RH_LOCKOUT, unbound)))
tpm("lockoutAuth is disabled: LOCKOUT").clearing(RH_LOCKOUT, unbound)
tpm("TPM2_Clear by the platform enables lockoutAuth").clearing(RH_PLATFORM)
tpm('lockoutAuth is "lockout"').change_auth(RH_LOCKOUT, b"lockout", b"")
tpm("TPM2_Clear with the unbound session").clearing(RH_LOCKOUT, unbound)
tpm('lockoutAuth is "lockout"').change_auth(RH_LOCKOUT, b"lockout", b"")
tpm("TPM2_Clear with the bound session").clearing(RH_LOCKOUT, bound)
tpm("TPM2_Clear with the bound session once more").clearing(RH_LOCKOUT, bound)
tpm("TPM2_Clear by the platform, with both sessions after the password").clearing(
    RH_PLATFORM, b"platform", unbound, bound
)

tpm.chapter("Starts after TPM2_Clear.")
tpm.saves()
tpm("TPM2_Clear cancels the saved state").clearing(RH_PLATFORM)
tpm.resumes_not()
tpm.clock_is("ReadClock reports the first reset", 0, 0, 1, 0)
listed("The persistent object of the platform", 0x8100_0000, 0x8180_0000)
tpm("platformAuth is empty now").clearing(RH_PLATFORM, b"")
