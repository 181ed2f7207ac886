"""Makes lockout_authorization.tpm. A wrong entry gets AUTH_FAIL, and disables lockoutAuth for
lockoutRecovery, if it is an attempt on TPM_RH_LOCKOUT: as a password, in the key of an HMAC, or
because its session was bound to TPM_RH_LOCKOUT at the start. Every other wrong entry gets BAD_AUTH.
"""

from tests.common.vocabulary import area, BY_VALUE, CC, FIRST, frames, RH_LOCKOUT, RH_OWNER, Teller
from tests.common.vocabulary import wrong

LOCKOUT = b"lockout"

tpm = Teller(__name__, __doc__, tries=True)


def change(handle, *means):
    """Returns a command that replaces an authorization value with the same value."""
    return tpm.change_auth(handle, tpm.auth_value(handle), *means)


tpm.script.wait_each_time()
early = tpm.start("A session that is bound to TPM_RH_LOCKOUT while that has no value", RH_LOCKOUT)
tpm.accepted('lockoutAuth is "lockout"', tpm.change_auth(RH_LOCKOUT, LOCKOUT, b""))
tpm.accepted('ownerAuth is "owner"', tpm.change_auth(RH_OWNER, b"owner", b""))
bound = tpm.start("A session that is bound to TPM_RH_LOCKOUT now", RH_LOCKOUT)
unbound = tpm.start("A session that is bound to nothing")
to_owner = tpm.start("A session that is bound to TPM_RH_OWNER", RH_OWNER)

tpm.chapter("Entries that authorize TPM_RH_LOCKOUT itself.")
said = tpm("A wrong password: another one, the empty one, and ownerAuth: AUTH_FAIL/s1")
others = b"wrong", b"", b"owner", b"lockou", b"lockout\0\1"
said.says(*(tpm.change_auth(RH_LOCKOUT, b"x", it) for it in others))
tpm.refused(
    "A wrong hmac, of the session that is bound to nothing, of the one bound to TPM_RH_OWNER, and "
    "of those bound to TPM_RH_LOCKOUT: AUTH_FAIL/s1",
    *(wrong(change(RH_LOCKOUT, it)) for it in (unbound, to_owner, bound, early)),
)
said = tpm("No hmac for a session without a key of its own: AUTH_FAIL/s1")
said.refused(change(RH_LOCKOUT, unbound).but_entry(1, hmac=b""))
for session, words in (
    (unbound, "The right hmac of the session that is bound to nothing"),
    (to_owner, "Bound to TPM_RH_OWNER"),
    (bound, "Bound to TPM_RH_LOCKOUT"),
    (early, "Bound to it before its value was set"),
):
    tpm.does(words, change(RH_LOCKOUT, session))
tpm.accepted("The right password", change(RH_LOCKOUT, LOCKOUT))

tpm.chapter("Unprotected entities, with a session that is bound to TPM_RH_LOCKOUT.")
said = tpm("A wrong hmac on TPM_RH_OWNER, whose value is also in the key: AUTH_FAIL/s1")
said.refused(wrong(change(RH_OWNER, bound)), wrong(change(RH_OWNER, early)))
tpm.refused(
    "A wrong hmac on PCR 16: AUTH_FAIL/s1", wrong(tpm.reset(bound)), wrong(tpm.reset(early))
)
said = tpm("A wrong hmac on TPM_RH_NULL, in TPM2_PCR_Event: AUTH_FAIL/s1")
said.refused(wrong(tpm.event(b"abc", bound, pcr=frames.RH_NULL)))
tpm.refused("No hmac: AUTH_FAIL/s1", tpm.reset(bound).but_entry(1, hmac=b""))
tpm("The right hmac on TPM_RH_OWNER").change_auth(RH_OWNER, b"owner", bound)
tpm("The right hmac on PCR 16").reset(bound)

tpm.chapter("Entries that authorize nothing.")
tpm.refused("A wrong entry after a password: AUTH_FAIL/s2", wrong(tpm.reset(b"", bound), 2))
said = tpm("A wrong entry after two right entries: AUTH_FAIL/s3")
behind_two = tpm.reset(b"", to_owner, bound), tpm.reset(to_owner, unbound, early)
said.refused(*(wrong(it, 3) for it in behind_two))
said = tpm("A wrong entry of TPM2_GetRandom: AUTH_FAIL/s1")
said.refused(wrong(tpm.random(4, bound)), wrong(tpm.random(4, bound, to_owner)))
start = frames.start_auth_session(bytes(16))
starting = tpm.prepare(CC.StartAuthSession, *start, to_owner, bound)
tpm.refused("A wrong second entry of TPM2_StartAuthSession: AUTH_FAIL/s2", wrong(starting, 2))
tpm("Right entries").reset(to_owner, bound, early)

tpm.chapter("Entries that are no attempt on TPM_RH_LOCKOUT.")
said = tpm("A wrong hmac on TPM_RH_OWNER, bound to it or to nothing: BAD_AUTH/s1")
said.refused(wrong(change(RH_OWNER, to_owner)), wrong(change(RH_OWNER, unbound)))
tpm("lockoutAuth as the password of TPM_RH_OWNER: BAD_AUTH/s1").change_auth(RH_OWNER, b"x", LOCKOUT)
said = tpm("A wrong hmac next to a right one of a session bound to TPM_RH_LOCKOUT: BAD_AUTH/s1")
said.refused(wrong(tpm.reset(to_owner, bound)))
tpm.refused("A wrong hmac after the right one: BAD_AUTH/s2", wrong(tpm.reset(bound, to_owner), 2))
case = "The second entry of TPM_RH_LOCKOUT's own command, with a right first one: BAD_AUTH/s2"
tpm.refused(case, wrong(change(RH_LOCKOUT, bound, to_owner), 2))
case = "Of two wrong entries the first one counts, here the one that is no attempt: BAD_AUTH/s1"
tpm.refused(case, wrong(wrong(tpm.reset(to_owner, bound)), 2))
tpm.refused(
    "Here the first wrong entry is an attempt: AUTH_FAIL/s1",
    wrong(wrong(tpm.reset(bound, to_owner)), 2),
)

tpm.chapter("A binding of the start counts, whatever has become of the value.")
tpm.accepted('lockoutAuth is "another"', tpm.change_auth(RH_LOCKOUT, b"another", LOCKOUT))
case = "A wrong hmac on PCR 16 through the session that was bound to its old value: AUTH_FAIL/s1"
tpm.refused(case, wrong(tpm.reset(bound)))
tpm("On TPM_RH_LOCKOUT the key of this session contains the new value").change_auth(
    RH_LOCKOUT, b"", bound
)
tpm("lockoutAuth is empty: a wrong password: AUTH_FAIL/s1").change_auth(RH_LOCKOUT, b"x", b"x")
said = tpm("A wrong hmac of the session that is bound to nothing: AUTH_FAIL/s1")
said.refused(tpm.change_auth(RH_LOCKOUT, b"", unbound).but_entry(1, hmac=b"\0"))
tpm("No hmac of this session").change_auth(RH_LOCKOUT, b"", unbound)

# From here on, time passes only at explicit waits.
tpm.script.pause = 0


def right(what, after=0):
    if after:
        tpm.wait(after)
    tpm(what).lock_reset(LOCKOUT)


def wrong_password(what):
    tpm(f"{what}: AUTH_FAIL/s1").lock_reset(b"wrong")


def closed(what, *passwords, after=0):
    if after:
        tpm.wait(after)
    tpm.fails(f"{what}: LOCKOUT", *(tpm.lock_reset(it) for it in passwords or (LOCKOUT,)))


def closed_for(what, milliseconds):
    tpm.chapter(what)
    closed(f"{milliseconds - 1:,} milliseconds later", after=milliseconds - 1)
    right("The right password one millisecond later", after=1)


tpm.chapter("One wrong attempt disables lockoutAuth for lockoutRecovery, to the millisecond.")
said = tpm("TPM2_DictionaryAttackParameters: lockoutRecovery is 1,000 seconds")
said.set_protection(3, 1000, 1000)
tpm.accepted('lockoutAuth is "lockout"', tpm.change_auth(RH_LOCKOUT, LOCKOUT, b""))
wrong_password("A wrong password of TPM2_DictionaryAttackLockReset")
closed("The right password, and other passwords", LOCKOUT, b"wrong", b"")
said = tpm("TPM2_DictionaryAttackParameters and TPM2_HierarchyChangeAuth: LOCKOUT")
said.fails(tpm.attack_parameters(3, 1000, 1000), tpm.change_auth(RH_LOCKOUT, b"x", LOCKOUT))
said = tpm("An unbound session, a session bound to TPM_RH_LOCKOUT, and a wrong hmac: LOCKOUT")
said.fails(tpm.lock_reset(unbound), tpm.lock_reset(bound), wrong(tpm.lock_reset(unbound)))
case = "A session bound to it that authorizes PCR 16, and one that authorizes nothing: LOCKOUT"
tpm.fails(case, tpm.reset(bound), tpm.random(2, bound), tpm.reset(b"", bound))
tpm("A session that is bound to another entity").reset(to_owner)
closed_for(
    "lockoutAuth is enabled again. Wrong attempts while it was disabled did not count.", 1_000_000
)
tpm.chapter("In the middle of the time.")
wrong_password("A wrong password")
closed("Another wrong password", b"wrong", after=500_000)
closed_for("The time goes on.", 500_000)
tpm.chapter("A wrong hmac also disables lockoutAuth.")
tpm.fails("A wrong hmac on PCR 16, bound to TPM_RH_LOCKOUT: AUTH_FAIL/s1", wrong(tpm.reset(bound)))
closed("The right password")
right("Later", after=1_000_000)
tpm.fails("A wrong entry after a password: AUTH_FAIL/s2", wrong(tpm.reset(b"", bound), 2))
closed("The right password")
closed_for("lockoutAuth is enabled again.", 1_000_000)

tpm.chapter("A power cycle does not enable lockoutAuth, and restarts the time.")
wrong_password("A wrong one")
closed("A millisecond before the end", after=999_999)
tpm.power_cycle()
closed("The right password after TPM2_Startup, in that millisecond", after=1)
closed_for("The time counts from the power cycle on.", 999_999)
tpm.chapter("Time counts before TPM2_Startup too.")
wrong_password("A wrong one")
tpm.power()
tpm.wait(1_000_000)
tpm.startup()
right("lockoutAuth is enabled again")

tpm.chapter("With lockoutRecovery 0, only the next reset enables lockoutAuth again.")
tpm("lockoutRecovery is 0").attack_parameters(3, 1000, 0, LOCKOUT)
wrong_password("A wrong one")
closed("The right password, after the longest time that one command can take", after=4_294_967_295)
tpm.power_cycle()
right("The right password after a power cycle and TPM2_Startup(CLEAR)")
wrong_password("A wrong one")
closed("lockoutAuth is disabled again")
tpm.power_cycle()
tpm("lockoutRecovery is 1 second").attack_parameters(3, 1000, 1, LOCKOUT)
wrong_password("A wrong one")
closed_for("It opens.", 1_000)

tpm.chapter("lockoutAuth and the other protected entities do not affect each other.")
tpm.define("An NV index", area(FIRST, BY_VALUE), auth=b"pin")
tpm("The index is written").writing(FIRST, b"data")
to_lockout = tpm.start("A session that is bound to TPM_RH_LOCKOUT", RH_LOCKOUT)
to_index = tpm.start("A session that is bound to the index", FIRST)
said = tpm("Three wrong passwords of the index: AUTH_FAIL/s1")
said.fails(*(tpm.writing(FIRST, b"x", it) for it in (b"0", b"1", b"2")))
tpm("The index is locked: LOCKOUT").writing(FIRST, b"x")
wrong_password("A wrong password of TPM_RH_LOCKOUT")
closed("lockoutAuth is disabled too")
tpm("The index is locked: LOCKOUT").writing(FIRST, b"x")
tpm.wait(1_000)
tpm("The index is still locked after lockoutRecovery: LOCKOUT").writing(FIRST, b"x")
tpm("The first session is accepted for PCR 16").reset(to_lockout)
tpm("The second session is refused: LOCKOUT").reset(to_index)
said = tpm("The first session for the index, whose value in the key counts: LOCKOUT")
said.writing(FIRST, b"x", to_lockout)
said = tpm("The second session for TPM_RH_LOCKOUT, where lockoutAuth counts; it resets failedTries")
said.lock_reset(to_index)
wrong_password("A wrong password disables lockoutAuth")
tpm("The second session for TPM_RH_LOCKOUT: LOCKOUT").lock_reset(to_index)
tpm("The index is not locked").writing(FIRST, b"x")
tpm("The second session for PCR 16").reset(to_index)
tpm("The first session for PCR 16: LOCKOUT").reset(to_lockout)
tpm("The first session for the index").writing(FIRST, b"y", to_lockout)
tpm.wait(1_000)
tpm("The first session for PCR 16, after lockoutRecovery").reset(to_lockout)
tpm("recoveryTime 0 does not affect lockoutAuth").attack_parameters(3, 0, 1, LOCKOUT)
wrong_password("A wrong one")
closed("The right password")
tpm.wait(1_000)
tpm("maxTries 0 does not affect lockoutAuth either").attack_parameters(0, 1000, 1, LOCKOUT)
right("The right password")
tpm("The right password of the index: LOCKOUT").writing(FIRST, b"x")

tpm.chapter("The longest lockoutRecovery.")
tpm("lockoutRecovery is FFFFFFFF").attack_parameters(3, 1000, 0xFFFF_FFFF, LOCKOUT)
wrong_password("A wrong one")
closed("4,294,967 seconds are nothing to it", after=4_294_967_295)
tpm.power_cycle()
closed("A reset does not open it, as it has a time")
