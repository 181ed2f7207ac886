"""Makes evict_control.tpm. TPM2_EvictControl makes a persistent object from a transient one, or
removes a persistent one. A persistent object survives power cycles, has a handle of 81000000 or
higher, and is used like the transient one.
"""

from tpmsim.model.capability import HANDLES
from tests.common.steps import PROTECTED, Steps
from tests.common.vocabulary import area, CC, command, DECRYPT, ENCRYPT, hmac_key, number
from tests.common.vocabulary import ObjectAttribute, RH_ENDORSEMENT, RH_LOCKOUT, RH_NULL, RH_OWNER
from tests.common.vocabulary import RH_PLATFORM, sealed, SHA256, storage_key, wrong

# Handles of persistent objects. The owner's are below 81800000, and the platform's begin there.
FIRST, OWNERS_LAST, PLATFORMS_FIRST, LAST = 0x8100_0000, 0x817F_FFFF, 0x8180_0000, 0x81FF_FFFF
OTHER, THIRD = 0x8100_0001, 0x8100_0002

CLEARED = storage_key(attributes=storage_key().attributes | ObjectAttribute.ST_CLEAR)

tpm = Steps(__name__, __doc__)


def fails(words, *commands):
    """Sends TPM2_EvictControl with the empty password. Each of `commands` contains the hierarchy,
    the object, and the persistent handle.
    """
    tpm.says(words, *(tpm.evicting(*it, b"") for it in commands))


def kept_handles(what, *handles):
    """Checks the handles of all persistent objects with TPM2_GetCapability."""
    tpm.lists(what, HANDLES, FIRST, 64, handles)


def handles_and_parameter(owners):
    tpm.chapter("The handles and the parameter.")
    handles = number(RH_OWNER, 4) + number(owners, 4)
    tpm.raw("No handle: INSUFFICIENT/h1", command(CC.EvictControl, b""))
    case = "Handles that have no persistent objects: VALUE/h1"
    fails(case, *((it, owners, FIRST) for it in (RH_ENDORSEMENT, RH_LOCKOUT, RH_NULL, 0, owners)))
    tpm.raw("No object: INSUFFICIENT/h2", command(CC.EvictControl, handles[:4]))
    case = "Handles of other kinds: PCR 0, an NV index, a session, and a hierarchy: VALUE/h2"
    others = 0, 0x0100_0000, 0x0200_0000, 0x0300_0000, RH_OWNER
    fails(case, *((RH_OWNER, it, FIRST) for it in others))
    fails("A transient object that is not there: REFERENCE_H1", (RH_OWNER, 0x8000_0007, FIRST))
    fails("A persistent object that is not there: HANDLE/h2", (RH_OWNER, FIRST, FIRST))
    tpm.raw("Without sessions: AUTH_MISSING", command(CC.EvictControl, handles + number(FIRST, 4)))

    def evicting(parameters, password=b""):
        return tpm.prepare(CC.EvictControl, [RH_OWNER, owners], parameters, password)

    tpm.says("A wrong password, and no parameter: BAD_AUTH/s1", evicting(b"", b"x"))
    tpm.says("The parameter cut: INSUFFICIENT/p1", evicting(b""), evicting(b"\x81" * 3))
    case = "The parameter is no handle of a persistent object: VALUE/p1"
    others = 0, owners, 0x8200_0000, 0x0100_0000, 0xFFFF_FFFF
    fails(case, *((RH_OWNER, owners, it) for it in others))
    tpm.says(
        "The same parameter, and a byte after it: VALUE/p1", evicting(number(owners, 4) + b"\0")
    )
    tpm.says("A byte after a right one: SIZE", evicting(number(FIRST, 4) + b"\0"))


def in_order():
    """Causes each refusal in turn, with commands that also have the faults of all later checks."""
    tpm.chapter("The checks in their order; each command has the later faults too.")
    owners = tpm.owned("An object of the owner", storage_key())
    clears = tpm.owned("An object of the owner with stClear", CLEARED)
    said = tpm("An object of the endorsement hierarchy")
    endorsements = said.create_primary(RH_ENDORSEMENT, storage_key())
    platforms = tpm.create_primary("An object of the platform", RH_PLATFORM, storage_key())
    platforms_clears = tpm.create_primary(
        "An object of the platform with stClear", RH_PLATFORM, CLEARED
    )
    nulls = tpm.create_primary("An object of TPM_RH_NULL with stClear", RH_NULL, CLEARED)
    handles_and_parameter(owners)

    tpm.chapter("The hierarchy of the object.")
    case = "The platform has its own alone: HIERARCHY/h2"
    others = owners, clears, endorsements, nulls
    fails(case, *((RH_PLATFORM, it, at) for at in (FIRST, LAST) for it in others))
    case = "The owner has the platform's not, and those of TPM_RH_NULL not: HIERARCHY/h2"
    others = platforms, platforms_clears, nulls
    fails(case, *((RH_OWNER, it, at) for at in (FIRST, LAST) for it in others))
    tpm.chapter("stClear, and a wrong range.")
    fails(
        "An object that a start removes cannot stay: ATTRIBUTES/h2",
        *((RH_OWNER, clears, it) for it in (FIRST, LAST)),
        *((RH_PLATFORM, platforms_clears, it) for it in (LAST, FIRST)),
    )
    tpm.chapter("The range of handles.")
    case, all_owners = "The owner's ends at 817FFFFF: RANGE/p1", (owners, endorsements)
    fails(case, *((RH_OWNER, it, at) for it in all_owners for at in (PLATFORMS_FIRST, LAST)))
    case = "The platform's begins after it: RANGE/p1"
    fails(case, *((RH_PLATFORM, platforms, it) for it in (FIRST, OWNERS_LAST)))
    return owners, endorsements, platforms


def borders(owners, endorsements, platforms):
    tpm.chapter("At the borders of the ranges.")
    kept_handles("There is no persistent object")
    for asker, handle, wanted, words in (
        (RH_OWNER, owners, FIRST, "The owner's, at the first handle"),
        (RH_OWNER, endorsements, OWNERS_LAST, "The endorsement hierarchy's, at the last one"),
        (RH_PLATFORM, platforms, PLATFORMS_FIRST, "The platform's, at its first handle"),
        (RH_PLATFORM, platforms, LAST, "The platform's object, at its last handle"),
    ):
        tpm.keep(words, asker, handle, wanted)
    kept_handles("The four", FIRST, OWNERS_LAST, PLATFORMS_FIRST, LAST)
    tpm.chapter("A persistent object is taken away by its own handle.")
    case = "The owner cannot remove the platform's, by whatever handle: HIERARCHY/h2"
    fails(case, *((RH_OWNER, it, it) for it in (PLATFORMS_FIRST, LAST)), (RH_OWNER, LAST, FIRST))
    fails("The owner's by a handle of the platform: RANGE/p1", (RH_OWNER, FIRST, LAST))
    fails(
        "By another handle, whether there is something or not: HANDLE/h2",
        *((RH_OWNER, FIRST, it) for it in (OWNERS_LAST, OTHER)),
        *((RH_PLATFORM, FIRST, it) for it in (LAST, OTHER)),
        (RH_PLATFORM, LAST, PLATFORMS_FIRST),
    )
    by_owner = (RH_OWNER, owners, FIRST), (RH_OWNER, endorsements, FIRST)
    fails("A handle that is taken: NV_DEFINED", *by_owner, (RH_PLATFORM, platforms, LAST))
    tpm.remove("The owner removes the last one", RH_OWNER, OWNERS_LAST)
    tpm("The persistent object no longer exists: HANDLE/h1").public(OWNERS_LAST)
    kept_handles("Three are left", FIRST, PLATFORMS_FIRST, LAST)
    tpm.remove("The platform removes the owner's", RH_PLATFORM, FIRST)
    for handle in (PLATFORMS_FIRST, LAST):
        tpm.remove("The platform removes its own object", RH_PLATFORM, handle)
    kept_handles("None")
    fails("None is there: HANDLE/h2", (RH_PLATFORM, LAST, LAST), (RH_OWNER, FIRST, FIRST))


borders(*in_order())
tpm.power_cycle()

tpm.chapter("Sixteen persistent objects, and no more.")
transient = tpm.owned("An object of the owner", storage_key())
platforms = tpm.create_primary("An object of the platform", RH_PLATFORM, storage_key())
handles = [FIRST + 3 * it for it in range(15)] + [LAST]
for handle in handles[:-1]:
    tpm.keep("Fifteen of the owner" if handle == FIRST else "", RH_OWNER, transient, handle)
tpm.keep("A persistent object of the platform", RH_PLATFORM, platforms, LAST)
kept_handles("The persistent and the transient objects exist", *handles)
case = "One more persistent object, of either: NV_SPACE"
fails(case, (RH_OWNER, transient, OTHER), (RH_PLATFORM, platforms, PLATFORMS_FIRST))
fails("At a handle that is taken: NV_DEFINED", (RH_OWNER, transient, FIRST))
fails("In the wrong range: RANGE/p1", (RH_OWNER, transient, LAST))
tpm.chapter(
    "Persistent objects take no slot of transient objects, and NV indices take none of theirs."
)
for count in range(6):
    tpm.create_primary("Six more transient ones" if not count else "", RH_OWNER, storage_key())
tpm("The ninth: OBJECT_MEMORY").primary(RH_OWNER, storage_key())
tpm.define("An NV index", area(size=2048))
tpm("The index is undefined").undefining(0x0100_0001)
tpm.remove("A persistent object is removed", RH_OWNER, handles[5])
tpm.keep("There is a place for another", RH_OWNER, transient, OTHER)
handles = sorted({*handles, OTHER} - {handles[5]})
kept_handles("The handles are in ascending order", *handles)
tpm.power_cycle()
kept_handles("A power cycle later", *handles)
for handle in handles:
    tpm.remove("The platform removes all" if handle == FIRST else "", RH_PLATFORM, handle)
kept_handles("None")

tpm.chapter("A persistent object is what the transient one was.")
root = tpm.owned("A storage key", storage_key())
public, qualified = tpm.read_public("TPM2_ReadPublic of it", root)
tpm.keep("The object becomes persistent as 81000000", RH_OWNER, root, FIRST)
assert tpm.read_public("The same public area and names", FIRST) == (public, qualified)
tpm.flush_objects("The transient one is flushed", root)
tpm("The persistent one cannot be: VALUE/p1").flush(FIRST)
said = tpm("TPM2_Create under the persistent one")
handle = said.below(FIRST, sealed(attributes=PROTECTED), user_auth=b"pin", data=b"a secret")
below = tpm.read_public("The qualified name depends on the parent's", handle)
tpm.keep("The object becomes persistent as 81000001", RH_OWNER, handle, OTHER)
assert tpm.read_public("The persistent copy has the same names", OTHER) == below
said = tpm("An HMAC key of the endorsement hierarchy")
mac_key = said.create_primary(RH_ENDORSEMENT, hmac_key(), user_auth=b"mac", data=b"a key")
session = tpm.start("A session that is bound to it", mac_key)
tpm.keep("The object becomes persistent as 81000002", RH_OWNER, mac_key, THIRD)
first = tpm("TPM2_HMAC by it").hmac(mac_key, b"data", SHA256, session)
tpm.flush_objects("The transient one is flushed", mac_key)
said = tpm("The session is bound to the persistent one too, as both have one Name")
assert said.hmac(THIRD, b"data", SHA256, session) == first

tpm.chapter("After a power cycle.")
tpm.power()
tpm("Before TPM2_Startup: INITIALIZE").public(OTHER)
tpm.startup()
tpm.unseal("TPM2_Unseal by the password", OTHER, b"a secret", b"pin")
session = tpm.start("A session that is bound to it, with AES", OTHER, aes=True)
tpm.unseal("TPM2_Unseal by it, encrypted", OTHER, b"a secret", session.encrypting)
tpm.fails("A wrong hmac: AUTH_FAIL/s1", wrong(tpm.unsealing(OTHER, session)))
tpm("A wrong password: AUTH_FAIL/s1").unsealing(OTHER, b"nip")
policy = tpm.policy("A policy session")
tpm.accepted("TPM2_PolicySecret of it", tpm.secret(policy, b"pin", of=OTHER))
handle = tpm.below("TPM2_Create under 81000000", FIRST, sealed(), data=b"another")
tpm.unseal("TPM2_Unseal", handle, b"another")
tpm("A third wrong password locks: AUTH_FAIL/s1").unsealing(OTHER, b"nip")
tpm("The right one: LOCKOUT").unsealing(OTHER, b"pin")
tpm.unlocks()

tpm.saves_and_resumes()
tpm.unseal("The persistent object exists", OTHER, b"a secret", b"pin")
tpm("The transient object does not exist: REFERENCE_H0").public(handle)

tpm.chapter("TPM2_EvictControl by sessions.")
handle = tpm.owned("An object of the owner", storage_key())
wanted = 0x8100_0003
tpm('ownerAuth is "owner"').change_auth(RH_OWNER, b"owner", b"")
session = tpm.start("An HMAC session, bound to TPM_RH_OWNER", RH_OWNER, aes=True)
tpm.fails("A wrong hmac: BAD_AUTH/s1", wrong(tpm.evicting(RH_OWNER, handle, wanted, session)))
tpm.keep("The right one", RH_OWNER, handle, wanted, session)
tpm.remove("The same handle removes the object again", RH_OWNER, wanted, session)
prepared = (tpm.evicting(RH_OWNER, handle, wanted, session) for _ in range(2))
bent = (it.but_entry(1, attributes=bit) for it, bit in zip(prepared, (DECRYPT, ENCRYPT)))
tpm.fails("Nothing can be encrypted or decrypted: ATTRIBUTES/s1", *bent)
policy = tpm.policy("A policy session")
tpm("No policy authorizes a hierarchy: AUTH_UNAVAILABLE").evicting(RH_OWNER, handle, wanted, policy)
tpm("ownerAuth is empty").change_auth(RH_OWNER, b"", b"owner")
for kept in (FIRST, OTHER, THIRD):
    tpm.remove("All are taken away" if kept == FIRST else "", RH_OWNER, kept)
tpm("The persistent objects no longer exist: HANDLE/h1").public(FIRST)
kept_handles("None")
