"""Makes replays.tpm. Commands that were accepted are sent again, byte for byte. The HMAC of a
session covers its nonceTPM, which each accepted command replaces. So the command is refused when
the HMAC is compared. If nothing is compared, or if the random bytes repeat, it is accepted. Each
command of a session has its own random bytes, unless stated otherwise.
"""

from dataclasses import replace

from tests.common.vocabulary import AUTH_VALUE, BY_POLICY, BY_VALUE, CC, CLEAR, ENDS, FIRST, frames
from tests.common.vocabulary import NvAttribute, PASSWORD, RH_ENDORSEMENT, RH_LOCKOUT, RH_NULL
from tests.common.vocabulary import RH_OWNER, SE_HMAC, SE_POLICY, SHA256, STATE, Use
from tests.sessions.grounds_caller import AFTER_AUTH_VALUE, DATA, GroundsCaller, OWNER, ZEROS

VALUE, LOCKOUT_AUTH, OTHER_DATA = b"a", b"lockout", b"to write"
RECOVERY = 1_000_000  # recoveryTime and lockoutRecovery of a new device, in milliseconds

# Random bytes that are used more than once.
SEED, OTHER_SEED = b"\xa1", b"\xb2"

tpm = GroundsCaller(__name__, __doc__)


def with_random(what, seed, prepared):
    """Sends a command that must be accepted, with these random bytes. Returns its response."""
    tpm.chapter(f"{what}: SUCCESS.")
    tpm.script.entropy(seed)
    return tpm.received(prepared, tpm.raw("SUCCESS", prepared.buffer()))


class Start:
    """A TPM2_StartAuthSession that is executed with given random bytes. Methods start its session
    again, with the same buffer or with another nonce.
    """

    def __init__(self, what, bind=RH_NULL, kind=SE_HMAC):
        self.bind, self.kind, self.nonce = bind, kind, tpm.nonce()
        self.session = self.sent(what, SEED, self.nonce)
        self.at_first = replace(self.session)

    def sent(self, what, seed, nonce):
        handles, parameters = frames.start_auth_session(nonce, self.bind, kind=self.kind)
        answer = with_random(what, seed, tpm.prepare(CC.StartAuthSession, handles, parameters))
        return tpm.started(answer, nonce, self.bind, SHA256, self.kind)

    def anew(self):
        """Flushes the session, and starts it again."""
        tpm.flushed(self.session)
        self.again()

    def again(self):
        """Starts the session again. Its state must then be the same as after the first start."""
        what = "TPM2_StartAuthSession with the same bytes, and the same random bytes"
        assert self.sent(what, SEED, self.nonce) == self.at_first
        self.session.nonce_tpm = self.at_first.nonce_tpm

    def otherwise(self, what, seed=SEED, nonce=None):
        """Starts another session in the slot of this session. The caller does not use the other
        session.
        """
        assert self.sent(what, seed, nonce or self.nonce).handle == self.session.handle


def again(words, prepared, check="G9"):
    """Sends a command again. It must be refused by this check."""
    tpm.refused_by(check, words, prepared)


def accepted(what, prepared):
    """Sends a command for the first time. Returns it, so that it can be sent again."""
    tpm.does(what, prepared)
    return prepared


def replayed(what, prepared, refusal, check="G9"):
    """Sends a command twice. It must be accepted first, and then refused."""
    again(f"The same again: {refusal}", accepted(what, prepared), check)
    return prepared


def write(by, data=DATA, index=FIRST):
    return tpm.writing(index, data, by)


tpm('ownerAuth is "owner"').change_auth(RH_OWNER, OWNER, b"")
said = tpm('An index with AUTHWRITE and AUTHREAD, whose value is "a"')
assert FIRST == said.index(BY_VALUE, value=VALUE)
tpm.does("It is written, so that its Name stays from here on", write(VALUE))

# An unbound session, and its accepted commands.
tpm.chapter("A PROTECTED INDEX. It is no index with NO_DA, so each wrong entry is a try.")
start = Start("TPM2_StartAuthSession of an HMAC session, bound to nothing")
session = start.session
guarded = replayed("TPM2_NV_Write by it, and it goes on", write(session), "AUTH_FAIL/s1")
tpm.tries_are("That is a failed try", 1)
tpm.does("A refusal has left the nonce, by which another is accepted", write(session))
tpm.tries_are("The accepted command forgives no failed try", 1)
again("The first again, two nonces later: AUTH_FAIL/s1", guarded)
again("And once more: AUTH_FAIL/s1", guarded)
tpm.tries_are("Three failed tries, as many as maxTries", 3)
right = write(session, OTHER_DATA)
again("The index is locked: the first again: LOCKOUT", guarded)
again("A command with the present nonce: LOCKOUT", right)
tpm.tries_are("Neither is a try", 3)
tpm.wait(RECOVERY)
tpm.tries_are("recoveryTime later one try is forgiven", 2)
again("The first again: AUTH_FAIL/s1", guarded)
tpm.tries_are("The index is locked again", 3)
tpm.unlocks()
tpm.does("The command that LOCKOUT refused used no nonce, and is accepted now", right)
again("But not again: AUTH_FAIL/s1", right)
tpm.unlocks()

said = tpm("A session bound to TPM_RH_ENDORSEMENT, which is not protected")
endorsed = said.start(RH_ENDORSEMENT)

session = start.session

tpm.chapter("WHAT IS NOT PROTECTED. A wrong entry is no try.")
openly = tpm.index("An index with NO_DA", BY_VALUE | NvAttribute.NO_DA, value=VALUE)
tpm.does("", write(VALUE, index=openly))
replayed("TPM2_NV_Write of it", write(session, index=openly), "BAD_AUTH/s1")
case = "TPM2_HierarchyChangeAuth of the owner"
replayed(case, tpm.change_auth(RH_OWNER, OWNER, session), "BAD_AUTH/s1")
replayed("TPM2_PCR_Event by a session with a key", tpm.event(b"event", endorsed), "BAD_AUTH/s1")
tpm.tries_are("There is no failed try", 0)

tpm.chapter("LOCKOUTAUTH. A wrong entry closes it for lockoutRecovery.")
tpm('lockoutAuth is "lockout"').change_auth(RH_LOCKOUT, LOCKOUT_AUTH, b"")
case = "TPM2_DictionaryAttackLockReset by the session"
first = replayed(case, tpm.lock_reset(start.session), "AUTH_FAIL/s1")
tpm.tries_are("The refusal is no failed try", 0)
again("But lockoutAuth is closed: the same again: LOCKOUT", first)
again("The right password: LOCKOUT", tpm.lock_reset())
tpm.wait(RECOVERY)
tpm("lockoutRecovery later, the password").lock_reset()

tpm.chapter(
    "A SESSION THAT WAS BOUND TO THE PROTECTED INDEX. Its wrong entry is a try wherever no "
    "other value is compared."
)
bound = tpm.start("TPM2_StartAuthSession", FIRST)
replayed("TPM2_NV_Write of the index", write(bound), "AUTH_FAIL/s1")
tpm.tries_are("A failed try", 1)
replayed(
    "TPM2_GetRandom, whose entry authorizes nothing", tpm.random(2, bound), "AUTH_FAIL/s1", "G10"
)
tpm.tries_are("A failed try", 2)
tpm.unlocks()
tpm.flushed(bound)

tpm.chapter(
    "OTHER PLACES. No command has two handles to authorize, so that the sessions in the second "
    "and in the third entry authorize nothing. The first entry is here a password."
)
aes = tpm.start("A session with AES, bound to TPM_RH_ENDORSEMENT", RH_ENDORSEMENT, aes=True)
unbound = tpm.start("One without, bound to nothing")
case = "TPM2_NV_Write, with a session in the second entry"
replayed(case, tpm.writing(FIRST, DATA, VALUE, endorsed), "BAD_AUTH/s2", "G10")
case = "With one in the second entry, whose key and hmac are empty, and one in the third"
replayed(case, tpm.writing(FIRST, DATA, VALUE, unbound, endorsed), "BAD_AUTH/s3", "G10")
case = "TPM2_NV_Read, and the session encrypts"
replayed(case, tpm.reading(FIRST, 8, VALUE, aes.encrypting), "BAD_AUTH/s2", "G10")
case = "TPM2_NV_Write, and the session decrypts"
decrypting = accepted(case, tpm.writing(FIRST, OTHER_DATA, VALUE, aes.decrypting))
tpm.does("Other data are written", write(VALUE))
again("The command with the decrypting session again: BAD_AUTH/s2", decrypting, "G10")
tpm.read("The data are as they were", FIRST, DATA, VALUE)
case = "TPM2_GetRandom: the first entry authorizes nothing"
replayed(case, tpm.random(2, aes), "BAD_AUTH/s1", "G10")
tpm.tries_are("None of these was a failed try", 0)
case = "TPM2_NV_Write by a session, and another one decrypts"
both = tpm.writing(FIRST, DATA, start.session, aes.decrypting)
replayed(case, both, "AUTH_FAIL/s1, which the first entry refuses")
tpm.tries_are("And that is a failed try", 1)
tpm.unlocks()
tpm.flushed(aes, unbound)

tpm.chapter("NOTHING IS COMPARED if key and hmac are empty, and a password has no nonce.")
first = accepted("TPM2_PCR_Event by an empty hmac", tpm.event(b"event", start.session))
tpm.does("The same again, and PCR 16 is extended twice", first)
shown = tpm.event(b"event", Use(start.session, shows_empty_key=True))
tpm.does("By an hmac of the empty key", shown)
again("The same again: BAD_AUTH/s1", shown)
by_password = accepted("TPM2_NV_Write by the password", write(VALUE))
tpm.does("The same again", by_password)

tpm.chapter("Parameter encryption has the nonce in its key all the same.")
aes = tpm.start("A session with AES, bound to nothing", aes=True)
case = "TPM2_NV_Write by the password, and this session decrypts, whose hmac is empty"
decrypting = accepted(case, tpm.writing(FIRST, OTHER_DATA, VALUE, aes.decrypting))
tpm.read("The data that were written", FIRST, OTHER_DATA, VALUE)
tpm.does("The same again", decrypting)
answer = tpm("Other bytes were written").reading(FIRST, 8, VALUE)
assert len(answer) == 10 and answer[2:] not in (OTHER_DATA, DATA)
tpm.flushed(aes)

tpm.chapter(
    "A POLICY SESSION forgets its assertions with each use. If it asserts them again, the "
    "hmac is compared."
)
zeros = tpm.index("An index whose authPolicy is 32 zeros", BY_POLICY, ZEROS)
case = "A policy session, bound to TPM_RH_OWNER, which has a key"
bound = Start(case, RH_OWNER, SE_POLICY).session
tpm.does("TPM2_NV_Write", write(bound, index=zeros))
first = replayed("TPM2_NV_Write, now that it is written", write(bound, index=zeros), "BAD_AUTH/s1")
tpm.restarts(bound)
again("The same again: BAD_AUTH/s1, as TPM2_PolicyRestart gives no nonce back", first)
unsent = write(bound, index=zeros)
tpm.restarts(bound)
tpm.does("TPM2_PolicyRestart also takes no nonce away: a command that was not sent yet", unsent)

tpm.chapter("The same with the demands of TPM2_PolicyAuthValue and TPM2_PolicyPassword.")
said = tpm("An index of their policy")
value = said.written_index(BY_POLICY | NvAttribute.OWNERWRITE, AFTER_AUTH_VALUE)
tpm.asserts_value(bound)
by_value = write(Use(bound, demand=AUTH_VALUE), index=value)
first = replayed("TPM2_NV_Write", by_value, "POLICY_FAIL/s1, as nothing was asserted")
tpm.asserts_value(bound)
again("The same again: AUTH_FAIL/s1", first)
tpm.tries_are("The index is protected: a failed try", 1)
tpm.restarts(bound)
tpm.asserts_value(bound)
again("The same command after TPM2_PolicyRestart: AUTH_FAIL/s1", first)
tpm.tries_are("Another session", 2)
tpm.restarts(bound)
tpm.unlocks()
tpm.asserts_password(bound)
by_password = write(Use(bound, demand=PASSWORD), index=value)
first = replayed("TPM2_NV_Write", by_password, "POLICY_FAIL/s1, as nothing was asserted")
tpm.asserts_password(bound)
tpm.does("The same again|as a password has no nonce", first)

tpm.chapter("And if key and hmac are empty.")
unbound = tpm.policy("A policy session, bound to nothing")
first = accepted("TPM2_NV_Write of the first index", write(unbound, index=zeros))
tpm.does("The same again", first)
tpm.flushed(bound, unbound)

tpm.chapter(
    "A NEW SESSION WITH THE SAME BYTES. The nonceTPM is of the random bytes: where they come "
    "again so does it, and that is not refused."
)
session = start.session
tpm.flushed(session)
again("The first TPM2_NV_Write again: REFERENCE_S0, as there is no session", guarded, "G8")
start.again()
tpm.does("The first TPM2_NV_Write again", guarded)
again("And once more: AUTH_FAIL/s1", guarded)
tpm.tries_are("That is a failed try", 1)

tpm.flushed(session)

tpm.chapter("Other bytes.")
start.otherwise("With other random bytes", OTHER_SEED)
again("The first again: AUTH_FAIL/s1", guarded)
tpm.flushed(session)
case = "With another nonceCaller, which is in no key of an unbound session"
start.otherwise(case, nonce=tpm.nonce())
tpm.does("The first again", guarded)
tpm.unlocks()
tpm.flushed(session)
other = tpm.policy("A policy session is started in its place")
again("The first again: REFERENCE_S0, as this is no HMAC session", guarded, "G8")
elsewhere = start.sent("The same bytes start the session in another slot", SEED, start.nonce)
assert replace(elsewhere, handle=session.handle) == start.at_first
again("The first again: REFERENCE_S0, as its handle is of no session", guarded, "G8")
tpm.flushed(other, elsewhere)

tpm.chapter("A bound session, whose key is of its nonceCaller and of the value.")
bound = Start("TPM2_StartAuthSession, bound to TPM_RH_OWNER", RH_OWNER)
event = replayed("TPM2_PCR_Event", tpm.event(b"event", bound.session), "BAD_AUTH/s1")
bound.anew()
tpm.does("The same again", event)
tpm.flushed(bound.session)
bound.otherwise("With another nonceCaller", nonce=tpm.nonce())
again("The same again: BAD_AUTH/s1", event)
tpm.flushed(bound.session)
tpm("ownerAuth is another").change_auth(RH_OWNER, b"other", OWNER)
bound.otherwise("With the same bytes")
again("The same again: BAD_AUTH/s1", event)
tpm.flushed(bound.session)
tpm("ownerAuth is unchanged").change_auth(RH_OWNER, OWNER, b"other")
bound.again()
tpm.does("The same again", event)
tpm.flushed(bound.session)

tpm.chapter("The hmac is of the Name, too, which the first write of an index changes.")
index = tpm.index("An index", BY_VALUE, value=VALUE)
public = tpm.publics[index]
start.again()
first = accepted("TPM2_NV_Write", write(start.session, index=index))
start.anew()
again("The same again: AUTH_FAIL/s1", first)
tpm("The index is undefined").undefining(index)
tpm.define("The index is defined as before", public, auth=VALUE)
tpm.does("The same again", first)
tpm.unlocks()
tpm.flushed(start.session)

tpm.chapter("ONE NONCE TWICE IN ONE SESSION, as random bytes come again. Here the session goes on.")
start.again()
session = start.session
with_random("TPM2_NV_Write", OTHER_SEED, write(session))
first = write(session, OTHER_DATA)
with_random("Another, by which the nonce becomes what it was", OTHER_SEED, first)
with_random("The same again", OTHER_SEED, first)
tpm.does("The same command once more, with other random bytes", first)
again("And once more: AUTH_FAIL/s1", first)
with_random("TPM2_NV_Write, with the random bytes of before", OTHER_SEED, write(session))
tpm.does("The same again, of a nonce that was past", first)
again("And once more: AUTH_FAIL/s1", first)
tpm.unlocks()
tpm.flushed(session)

tpm.chapter("A POWER CYCLE ends all sessions.")
start.again()
told = tpm.policy("A policy session in addition")
for kind, words in ((CLEAR, "CLEAR"), (STATE, "STATE")):
    tpm.does("The first TPM2_NV_Write of the protected index", guarded)
    again("The same again: AUTH_FAIL/s1", guarded)
    tpm(f"TPM2_Shutdown({words})").shutting_down(kind)
    tpm.power()
    again("The same again: INITIALIZE, as the device is not started", guarded, "G5")
    tpm.start_up(f"TPM2_Startup({words})", kind)
    again("The same again: REFERENCE_S0, as the session is gone", guarded, "G8")
    again("TPM2_PolicyGetDigest of the policy session: REFERENCE_H0", tpm.get_digest(told), "G6")
    tpm.tries_are("The failed try is kept, and there is no other", 1)
    tpm.unlocks()
    start.again()
tpm.does("The first TPM2_NV_Write again", guarded)
again("And once more: AUTH_FAIL/s1", guarded)
tpm.unlocks()

endorsed = tpm.start("A session bound to TPM_RH_ENDORSEMENT", RH_ENDORSEMENT)

tpm.chapter("WITHOUT continueSession a session ends with the use of it.")
start.anew()
last = replayed("TPM2_NV_Write", write(Use(start.session, ENDS)), "REFERENCE_S0", "G8")
start.again()
tpm.does("The same again", last)
again("And once more: REFERENCE_S0", last, "G8")
for what, outcome, *uses in (
    ("In the second entry", "REFERENCE_S1", VALUE),
    ("In the third entry", "REFERENCE_S2", VALUE, endorsed),
):
    start.again()
    replayed(what, tpm.writing(FIRST, DATA, *uses, Use(start.session, ENDS)), outcome, "G8")
tpm.tries_are("None of these was a failed try", 0)

tpm.chapter(
    "WHAT WAS REFUSED can be sent again until it is accepted: a refusal makes no nonce new."
)
reset = tpm.reset(endorsed, pcr=20)
again("TPM2_PCR_Reset of PCR 20 from locality 0: LOCALITY", reset, "A1")
again("The same again: LOCALITY", reset, "A1")
tpm.locality_is(4)
tpm.does("The same from locality 4", reset)
again("And once more: BAD_AUTH/s1", reset)
tpm.locality_is(0)
again("From locality 0: BAD_AUTH/s1", reset)
