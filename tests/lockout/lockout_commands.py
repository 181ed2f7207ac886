"""Makes lockout_commands.tpm. Each command that a protected entity authorizes. maxTries is 1, so
one wrong entry locks the entity. Then the right entry is refused, whichever command had the wrong
one.
"""

from tests.common.steps import PROTECTED, Steps
from tests.common.vocabulary import area, bits, BY_POLICY, BY_VALUE, CC, counter, extended, FIFTH
from tests.common.vocabulary import FIRST, FOURTH, hmac_key, LOCKS, policy, sealed, SECOND, SHA256
from tests.common.vocabulary import storage_key, STORES, THIRD, wrong


PIN, DATA = b"pin", b"data"

# A policy that permits TPM2_NV_ChangeAuth with the authorization value of the index.
AFTER_CODE = policy.after_command_code(SHA256, bytes(32), CC.NV_ChangeAuth)
CHANGING = policy.after_auth_value(SHA256, AFTER_CODE)

tpm = Steps(__name__, __doc__)


def tries(name, prepare, outcome="SUCCESS"):
    """Sends a right entry, a wrong one, and the right one again. Even with the right entry, the
    command itself may be refused.
    """
    tpm.chapter(f"TPM2_{name}.")
    if outcome == "SUCCESS":
        tpm.accepted("The right entry", prepare())
    else:
        tpm.fails(f"Right, and refused for another reason: {outcome}", prepare())
    tpm.fails("A wrong entry: AUTH_FAIL/s1", wrong(prepare()))
    tpm.fails("The right entry: LOCKOUT", prepare())
    tpm("TPM2_Unseal of another entity: LOCKOUT").unsealing(SEALED)
    tpm.unlocks()


def change_auth():
    told = tpm.policy("A policy session")

    def prepare():
        tpm.restarts(told)
        tpm("TPM2_PolicyCommandCode").command_code(told, CC.NV_ChangeAuth)
        return tpm.changing_auth(FIFTH, PIN, tpm.by_value(told))

    tries("NV_ChangeAuth, by a policy that asks for the value", prepare)
    tpm("The session is flushed").flush(told)


tpm.set_protection("TPM2_DictionaryAttackParameters: maxTries is 1", 1, 1000, 1000)

PARENT, SEALED, KEY = (
    tpm.owned(f"{words} without noDA", template, user_auth=PIN, data=data)
    for words, template, data in (
        ("A storage key", storage_key(attributes=PROTECTED | STORES), b""),
        ("A sealed object", sealed(attributes=PROTECTED), DATA),
        ("An HMAC key", hmac_key(attributes=PROTECTED), DATA),
    )
)
made = tpm.create("An object below the storage key", PARENT, sealed(), data=DATA)
tries("Create", lambda: tpm.child(PARENT, sealed(), data=DATA))
tries("Load", lambda: tpm.loading(PARENT, made))
tries("Unseal", lambda: tpm.unsealing(SEALED))
tries("HMAC", lambda: tpm.hmac(KEY, DATA, SHA256))
tries("Unseal of an HMAC key", lambda: tpm.unsealing(KEY), "ATTRIBUTES/h1")
session = tpm.policy("A policy session")
tries("PolicySecret of an object", lambda: tpm.secret(session, PIN, of=SEALED))

tpm.chapter("NV indices.")
for words, public in (
    ("An ordinary index with locks", area(FIRST, BY_VALUE | LOCKS)),
    ("A counter", counter(SECOND, BY_VALUE)),
    ("Bits", bits(THIRD, BY_VALUE)),
    ("An index that is extended", extended(FOURTH, BY_VALUE)),
    ("An index with a policy for TPM2_NV_ChangeAuth", area(FIFTH, BY_POLICY, auth_policy=CHANGING)),
):
    tpm.define(words, public, auth=PIN)
session = tpm.policy("A policy session")
tries("NV_Write", lambda: tpm.writing(FIRST, DATA))
tries("NV_Write past the end", lambda: tpm.writing(FIRST, DATA, offset=5), "NV_RANGE")
tries("NV_Read", lambda: tpm.reading(FIRST, 4))
tries("NV_Increment", lambda: tpm.incrementing(SECOND))
tries("NV_SetBits", lambda: tpm.setting(THIRD, 1))
tries("NV_Extend", lambda: tpm.extending(FOURTH, DATA))
tries("PolicySecret of an index", lambda: tpm.secret(session, PIN, of=FIRST))
tries("PolicyNV", lambda: tpm.comparing(session, FIRST, DATA))
tries("PolicyNV that does not hold", lambda: tpm.comparing(session, FIRST, b"x"), "POLICY")
other = "NV_Write of another index than the one that authorizes"
tries(other, lambda: tpm.writing(THIRD, DATA, PIN, by=FIRST), "NV_AUTHORIZATION")
tries("NV_WriteLock", lambda: tpm.write_locking(FIRST))
tries("NV_Write of what is locked", lambda: tpm.writing(FIRST, DATA), "NV_LOCKED")
tries("NV_ReadLock", lambda: tpm.read_locking(FIRST))
tpm("The session is flushed").flush(session)

change_auth()

tpm.chapter("A command counts as one failed try at most, whichever of its entries are wrong.")
first = tpm.start("A session that is bound to the sealed object", SEALED)
second = tpm.start("A session that is bound to an index", FIRST)
third = tpm.start("A session that is bound to nothing")
tpm.set_protection("maxTries is 2", 2, 1000, 1000)
tpm.fails(
    "The first two entries are wrong: AUTH_FAIL/s1",
    wrong(wrong(tpm.reset(first, second, third)), 2),
)
tpm("Nothing is locked, and all three entries are right").reset(first, second, third)
tpm.unlocks()
tpm.fails(
    "The second of three entries is wrong: AUTH_FAIL/s2", wrong(tpm.reset(third, first, second), 2)
)
tpm("Nothing is locked, and all three entries are right").reset(first, second, third)
tpm.fails(
    "The third of three entries is wrong: AUTH_FAIL/s3", wrong(tpm.reset(third, first, second), 3)
)
tpm("The entities are locked: LOCKOUT").reset(third, first, second)
tpm.unlocks()
said = tpm("All entries are wrong, and only the first one is no attempt: BAD_AUTH/s1")
said.fails(*(wrong(wrong(wrong(tpm.reset(third, first, second)), 2), 3) for _ in range(2)))
tpm("Nothing is locked").reset(third, first, second)
