"""Makes lockout.tpm. Dictionary attack protection: a wrong authorization value of an object
without noDA or of an NV index without TPMA_NV_NO_DA is counted in failedTries. At maxTries all of
them are locked: the right value is refused too. After each recoveryTime one failed try is forgiven.
A new device has maxTries 3, recoveryTime 1,000 seconds, and lockoutRecovery 1,000 seconds.
"""

from tests.common.steps import AFTER_AUTH_VALUE, PROTECTED, Steps
from tests.common.vocabulary import area, BY_VALUE, CC, FIRST, NvAttribute, ObjectAttribute
from tests.common.vocabulary import RH_OWNER, sealed, SECOND, SHA256, THIRD

PIN, SECRET = b"2468", b"a secret"

FIVE = b"0", b"1", b"2", b"3", b"4"

# Two objects, of which the first one is protected.
GUARDED, FREE = 0x8000_0000, 0x8000_0001

tpm = Steps(__name__, __doc__)


def right(what, index=FIRST, after=0):
    if after:
        tpm.wait(after)
    tpm.read(what, index, SECRET, PIN)


def reads(words, passwords, index, after):
    if after:
        tpm.wait(after)
    tpm.fails(words, *(tpm.reading(index, 8, it) for it in passwords))


def wrong(what, *passwords, index=FIRST, after=0):
    reads(f"{what}: AUTH_FAIL/s1", passwords or (b"0000",), index, after)


def locked(what, *passwords, index=FIRST, after=0):
    reads(f"{what}: LOCKOUT", passwords or (PIN,), index, after)


def opened(what, wait):
    """Checks that the lockout ends after exactly this many milliseconds."""
    tpm.chapter(what)
    locked(f"{wait - 1:,} milliseconds later", after=wait - 1)
    right("The right password one millisecond later", after=1)


def lock():
    """Makes the three failed tries that a new device allows."""
    wrong("Three wrong passwords", b"0000", b"1111", b"2222")


said, only_password = tpm('An NV index with the value "2468"'), AFTER_AUTH_VALUE[SHA256]
public = area(FIRST, BY_VALUE | NvAttribute.POLICYREAD, auth_policy=only_password)
said.written(public, SECRET, auth=PIN)
said = tpm("Another index, which only the owner can write")
owners = area(SECOND, NvAttribute.AUTHREAD | NvAttribute.OWNERWRITE)
said.written(owners, SECRET, auth=PIN, by=RH_OWNER)
free = area(THIRD, BY_VALUE | NvAttribute.NO_DA)
tpm.written("An index with TPMA_NV_NO_DA", free, SECRET, auth=PIN)


def sealed_objects():
    """Creates two sealed objects, one with noDA and one without. A power cycle removes them."""
    for words, handle, more in (("without", GUARDED, 0), ("with", FREE, ObjectAttribute.NO_DA)):
        said, template = tpm(f"A sealed object {words} noDA"), sealed(attributes=PROTECTED | more)
        made = said.owned(template, user_auth=PIN, data=SECRET)
        assert made == handle


sealed_objects()

tpm.chapter("Three failed tries.")
wrong("A wrong password")
right("The right password does not forgive a failed try")
wrong("Two more wrong ones: the empty password, and one with an extra byte", b"", PIN + b"1")
locked("The right password comes too late")
locked("Every other password is refused too", b"0000", b"")
locked("All protected entities are locked, here another NV index", index=SECOND)
tpm("A sealed object: LOCKOUT").unsealing(GUARDED)
tpm("The sealed object with a wrong password: LOCKOUT").unsealing(GUARDED, b"x")
tpm("A command without authorization is accepted: it reads the public area").public(GUARDED)
tpm("TPM2_PCR_Reset").reset(b"")

opened("The last try was just now. It is forgiven after recoveryTime.", 1_000_000)
tpm.chapter("One failed try is forgiven, and two are not.")
wrong("One more failed try")
locked("The right password")
opened("The same assertion once more.", 1_000_000)
tpm.chapter("A counted failed try restarts recoveryTime.")
wrong("The third failed try, a millisecond before one would be forgiven", after=999_999)
locked("In that millisecond no failed try was forgiven", after=1)
locked("One millisecond before the end", after=999_998)
right("The right password at the end", after=1)
tpm.chapter("An attempt that gets LOCKOUT is not counted, and does not restart recoveryTime.")
wrong("The third failed try")
locked(
    "Wrong passwords in the middle of recoveryTime",
    b"0000",
    b"1111",
    b"2222",
    b"3333",
    after=500_000,
)
locked("The right password, a millisecond before the end", after=499_999)
right("The right password at the end", after=1)

tpm.chapter("Several failed tries are forgiven at once, and the remaining time counts.")
wrong("The third one")
said = tpm("TPM2_DictionaryAttackParameters with maxTries 1: all three have to be forgiven now")
said.set_protection(1, 1000, 1000)
locked("One and a half times recoveryTime later, two failed tries are left", after=1_500_000)
case = "A millisecond before three times recoveryTime, one is left, since the half counted"
locked(case, after=1_499_999)
right("A millisecond later", after=1)
tpm.set_protection("maxTries is 3 again", 3, 1000, 1000)
lock()
tpm.set_protection("maxTries is 1", 1, 1000, 1000)
locked("Two failed tries are forgiven at once, and the third one is not", after=2_999_999)
right("The third failed try is forgiven", after=1)
tpm.set_protection("maxTries is 3 again", 3, 1000, 1000)
wrong("A wrong password")
right("Time without failed tries does not count towards later failed tries", after=4_294_967_295)
lock()
locked("So three failed tries count as three")
tpm.unlocks()

tpm.chapter("While there is no try, no time counts.")
tpm.wait(999_999)
lock()
locked("A millisecond after the last try, and 1,000 seconds after the last before", after=1)
opened("That millisecond counted.", 999_999)
tpm.unlocks()

tpm.chapter("Time passes with every command, even with a refused one.")
lock()
tpm.wait(333_333)
tpm("A wrong password: LOCKOUT").reading(FIRST, 8, b"0000")
tpm.wait(333_333)
tpm.raw("The empty buffer: COMMAND_SIZE", b"")
tpm.wait(333_333)
tpm("TPM2_GetRandom").random(2)
locked("999,999 milliseconds have passed")
right("The right password one millisecond later", after=1)
tpm.unlocks()

tpm.chapter("A power cycle forgives no try, and restarts the time.")
lock()
locked("A millisecond before the end", after=999_999)
tpm.power_cycle()
locked("The right password after TPM2_Startup, in that millisecond", after=1)
opened("The time counts from the power cycle on.", 999_999)
tpm.chapter("Time counts before TPM2_Startup too.")
wrong("The third one")
tpm.power()
tpm.wait(400_000)
tpm("TPM2_GetRandom: INITIALIZE").random(2)
tpm.wait(599_999)
tpm.startup()
locked("A millisecond before the end")
right("At the end", after=1)
tpm.chapter("Tries are kept at once: power that is cut after each of them saves none.")
tpm.unlocks()
for what in ("The first failed try", "The second failed try", "The third failed try"):
    wrong(what)
    tpm.power_cycle()
locked("The right password")
tpm.unlocks()

sealed_objects()

tpm.chapter("TPM2_DictionaryAttackParameters restarts the time, and forgives no try.")
lock()
tpm.wait(999_999)
tpm.set_protection("The same values as before", 3, 1000, 1000)
locked("A millisecond later", after=1)
opened("From there on.", 999_999)
tpm.chapter("A new recoveryTime counts from there on.")
wrong("The third one")
tpm.set_protection("recoveryTime is one second", 3, 1, 1000)
opened("One second.", 1_000)
tpm.set_protection("The longest recoveryTime", 3, 0xFFFF_FFFF, 1000)
wrong("The third one")
locked("4,294,967 seconds are nothing to it", after=4_294_967_295)
tpm.chapter("A larger maxTries ends the lockout at once.")
tpm.set_protection("maxTries is 4", 4, 1000, 1000)
right("The right password")
wrong("The fourth failed try")
locked("The right password")
tpm.set_protection("The largest maxTries", 0xFFFF_FFFF, 1000, 1000)
wrong("Five more", *FIVE)
right("The right password")
tpm.set_protection("maxTries is 5, and there are nine", 5, 1000, 1000)
locked("The right password")
tpm.set_protection("maxTries is 3 again", 3, 1000, 1000)
tpm.chapter("TPM2_DictionaryAttackLockReset forgives all failed tries.")
tpm.unlocks()
right("The right password")
wrong("Two wrong passwords", b"0", b"1")
right("The right password")
tpm.unlocks()
wrong("Two more wrong passwords", b"0", b"1")
right("The right password")
wrong("One more wrong password")
locked("The right password")
tpm.unlocks()

tpm.chapter(
    "With recoveryTime 0 the protection is off: no failed try is counted, and nothing is locked."
)
lock()
locked("The right password")
tpm.set_protection("recoveryTime is 0", 3, 0, 1000)
right("The right password")
wrong("Wrong passwords still get AUTH_FAIL", *FIVE)
right("The right password")
right("The right password after some time", after=4_294_967_295)
tpm.set_protection(
    "recoveryTime is 1,000 again, and the earlier failed tries still count", 3, 1000, 1
)
locked("The right password")
opened("failedTries is three, as before.", 1_000_000)
tpm.unlocks()
tpm.chapter("With maxTries 0 everything protected is locked, without a failed try.")
tpm.set_protection("maxTries is 0", 0, 1000, 1000)
locked("The right password, and a wrong one", PIN, b"0")
tpm("The object: LOCKOUT").unsealing(GUARDED)
locked("Time does not end the lockout", after=4_294_967_295)
tpm.unlocks()
locked("TPM2_DictionaryAttackLockReset does not end it either")
tpm.set_protection("But with recoveryTime 0 the protection is off", 0, 0, 1000)
right("The right password")
wrong("A wrong password")
tpm.set_protection("The values of a new device", 3, 1000, 1000)
right("The right password")

tpm.chapter("noDA and TPMA_NV_NO_DA: no try is counted.")
said = tpm("Five wrong passwords of an index: BAD_AUTH/s1")
said.fails(*(tpm.reading(THIRD, 8, it) for it in FIVE))
tpm.fails("Five of an object: BAD_AUTH/s1", *(tpm.unsealing(FREE, it) for it in FIVE))
said = tpm("Five of TPM_RH_OWNER: BAD_AUTH/s1")
said.fails(*(tpm.change_auth(RH_OWNER, b"x", it) for it in FIVE))
right("The protected index is not locked")
lock()
locked("The protected index is locked")
right("The index with TPMA_NV_NO_DA is not locked", index=THIRD)
tpm.unseal("The object with noDA is not locked", FREE, SECRET)
tpm("TPM_RH_OWNER is not locked").change_auth(RH_OWNER, b"", b"")
tpm("A wrong password of these three gets the same code as before: BAD_AUTH/s1").unsealing(
    FREE, b"0"
)
tpm.unlocks()

tpm.chapter("The order of the checks: what comes before LOCKOUT, and what after it.")
session = tpm.policy("A policy session")
lock()
read = tpm.reading(FIRST, 8)
said = tpm("Before LOCKOUT, a reserved attribute: RESERVED_BITS/s1")
said.fails(read.but_entry(1, attributes=0x08))
tpm("An index without AUTHWRITE: AUTH_UNAVAILABLE").writing(SECOND, b"x")
tpm("An index without a policy: AUTH_UNAVAILABLE").reading(SECOND, 8, session)
tpm("A policy session whose digest is another: POLICY_FAIL/s1").reading(FIRST, 8, session)
tpm("TPM2_PolicyCommandCode of another command").command_code(session, CC.NV_Write)
tpm("The command code is wrong: POLICY_CC/s1").reading(FIRST, 8, session)
tpm.restarts(session)
tpm("TPM2_PolicyLocality of locality 1").locality(session, 2)
tpm("A command from locality 0: LOCALITY").reading(FIRST, 8, session)
tpm.restarts(session)
tpm("TPM2_PolicyPCR").pcrs(session, [(SHA256, [0])])
tpm("TPM2_PCR_Reset of PCR 16").reset(b"")
tpm("A PCR has changed: PCR_CHANGED").reading(FIRST, 8, session)
tpm.restarts(session)
trial = tpm.trial("A trial session")
tpm("A trial session authorizes nothing: ATTRIBUTES/s1").reading(FIRST, 8, trial)
tpm("TPM2_PolicyPassword").password_told(session)
session_read = tpm.reading(FIRST, 8, session).but_entry(1, hmac=PIN)
tpm.fails("The policy that is right, with the right password: LOCKOUT", session_read)
tpm("A wrong entry without a protected value: BAD_AUTH/s1").reset(b"x")
plain = tpm.start("An HMAC session that is bound to nothing")
bound = tpm.start("A session that is bound to the index", bind=FIRST)
wrong_hmac = tpm.reset(plain, bound).but_entry(1, hmac=b"x")
tpm.fails("A wrong entry before an entry with the protected value: BAD_AUTH/s1", wrong_hmac)
tpm("A right entry before that entry: LOCKOUT").reset(plain, bound)
wrong_behind = tpm.reset(bound, plain).but_entry(2, hmac=b"x")
tpm.fails("That entry, and a wrong entry after it: LOCKOUT", wrong_behind)
tpm.fails("After LOCKOUT: no parameters: LOCKOUT", read.but(parameters=b""))
tpm.fails("Bytes after them: LOCKOUT", read.but(parameters=bytes(20)))
tpm("A range that does not exist: LOCKOUT").reading(FIRST, 9)
tpm.unlocks()
tpm.fails("The same parameters when nothing is locked: INSUFFICIENT/p1", read.but(parameters=b""))
tpm("The same range when nothing is locked: NV_RANGE").reading(FIRST, 9)
