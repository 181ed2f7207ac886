"""Makes load.tpm. TPM2_Load takes a private and a public area that TPM2_Create returned for this
parent.
"""

from dataclasses import replace

from tests.common.steps import GENERATED, NO_OBJECT, OTHERS, PROTECTED, Steps
from tests.common.vocabulary import CC, frames, HERE, hmac_key, mac, number, ObjectAttribute, OPEN
from tests.common.vocabulary import RH_ENDORSEMENT, sealed, SHA1, SHA256, sized, storage_key, STORES

tpm = Steps(__name__, __doc__)
refused = tpm.says

parent = tpm.owned('A storage key, whose value is "parent"', storage_key(), user_auth=b"parent")
said = tpm('TPM2_Create: sealed data, whose value is "child"')
made = said.create(parent, sealed(), user_auth=b"child", data=b"secret")

tpm.chapter("parentHandle.")
refused(NO_OBJECT, *(tpm.loading(it, made) for it in OTHERS))
case = "A transient object that is not there: REFERENCE_H0"
refused(case, *(tpm.loading(it, made) for it in (0x8000_0001, 0x8000_0008, 0x80FF_FFFF)))
refused("A persistent object: HANDLE/h1", tpm.loading(0x8100_0000, made))
tpm.needs_entries(CC.Load, parent)
refused("By the value of the child: BAD_AUTH/s1", tpm.loading(parent, made, b"child"))

tpm.chapter("An object is loaded as often as there are places.")
first = tpm.load("TPM2_Load: it is 80000001", parent, made)
second = tpm.load("Once more: it is 80000002, and has the same Name", parent, made)
assert (first, second) == (0x8000_0001, 0x8000_0002)
tpm.unseal('TPM2_Unseal of the first, by "child"', first, b"secret")
tpm.unseal("TPM2_Unseal of the second object", second, b"secret")
refused("By the value of the parent: BAD_AUTH/s1", tpm.unsealing(second, b"parent"))
tpm.flush_objects("The first is flushed", first)
refused("The object no longer exists: REFERENCE_H0", tpm.unsealing(first, b"child"))
tpm.unseal("The second is", second, b"secret")
tpm.flush_objects("The object is flushed", second)
session = tpm.start("An HMAC session, bound to the parent", bind=parent, algorithm=SHA1)
with tpm.loaded("TPM2_Load by it", parent, made, session) as by_session:
    refused("Sealed data are no parent: TYPE/h1", tpm.loading(by_session, made))

tpm.chapter("inPrivate belongs to one parent and to one public area.")
with tpm.held("Another primary key", storage_key(unique=b"twin"), user_auth=b"parent") as twin:
    refused("TPM2_Load under it: INTEGRITY/p1", tpm.loading(twin, made))
same = tpm.owned("The same primary key once more", storage_key(), user_auth=b"parent")
loaded = tpm.load("TPM2_Load under it", same, made)
tpm.unseal("TPM2_Unseal", loaded, b"secret")
tpm.flush_objects("Both objects are flushed", loaded, same)
said = tpm("The same template in TPM_RH_ENDORSEMENT")
with said.held(storage_key(), hierarchy=RH_ENDORSEMENT, user_auth=b"parent") as alien:
    refused("TPM2_Load under it: INTEGRITY/p1", tpm.loading(alien, made))


def with_public(**changes):
    return tpm.loading(parent, replace(made, public=replace(made.public, **changes)))


tpm.chapter("With another public area.")
for what, changes in (
    ("Another nameAlg", {"name_algorithm": SHA1}),
    ("stClear in the attributes", {"attributes": HERE | OPEN | ObjectAttribute.ST_CLEAR}),
    ("Neither fixedTPM nor fixedParent", {"attributes": OPEN}),
    ("Without noDA", {"attributes": PROTECTED}),
    ("sign", {"attributes": HERE | OPEN | ObjectAttribute.SIGN}),
    ("An authPolicy", {"auth_policy": bytes(32)}),
    ("Another unique", {"unique": bytes(32)}),
    ("Without unique", {"unique": b""}),
    ("An HMAC key", {"attributes": HERE | OPEN | ObjectAttribute.SIGN, "scheme": SHA256}),
    ("A storage key", {"kind": frames.SYMCIPHER, "attributes": HERE | OPEN | STORES}),
):
    refused(f"{what}: INTEGRITY/p1", with_public(**changes))
other = tpm.create("TPM2_Create of the same data", parent, sealed(), data=b"secret")
case = "The private area of the one, and the public area of the other: INTEGRITY/p1"
mixed = replace(made, public=other.public), replace(made, private=other.private)
refused(case, *(tpm.loading(parent, it) for it in mixed))

tpm.chapter("Sizes.")
whole = tpm.loading(parent, made)
case, long = "inPrivate of 257 bytes, whole and cut: SIZE/p1", replace(made, private=bytes(257))
cut = (whole.but(parameters=it) for it in (number(257, 2), b"\xff\xff"))
refused(case, tpm.loading(parent, long), *cut)
others = (replace(made, private=it) for it in (bytes(256), b""))
refused("Of 256 bytes, and empty: INTEGRITY/p1", *(tpm.loading(parent, it) for it in others))
refused("A byte after inPublic: SIZE", whole.but(parameters=whole.parameters + b"\0"))
case = "inPrivate reaches beyond the command: INSUFFICIENT/p1"
refused(case, whole.but(parameters=number(256, 2) + whole.parameters[2:]))
case = "inPublic does: INSUFFICIENT/p2"
refused(case, whole.but(parameters=sized(made.private) + number(200, 2) + made.public.text))
said = tpm("The longest private area of all: TPM2_Create")
longest = said.create(parent, sealed(auth_policy=bytes(32)), user_auth=b"a" * 32, data=b"d" * 128)
assert len(longest.private) == 254
with tpm.loaded("TPM2_Load", parent, longest) as handle:
    tpm.unseal("TPM2_Unseal", handle, b"d" * 128)

tpm.chapter("Objects of each type.")
for what, public, data in (
    ("An HMAC key that is given", hmac_key(), b"key"),
    ("An HMAC key that is generated, of SHA-1", hmac_key(attributes=GENERATED, scheme=SHA1), b""),
    ("A storage key", storage_key(), b""),
    ("A storage key with nameAlg SHA-1", storage_key(SHA1), b""),
    ("Sealed data with nameAlg SHA-1", sealed(SHA1), b"secret"),
):
    made = tpm.create(f"{what}: TPM2_Create", parent, public, data=data)
    with tpm.loaded("TPM2_Load", parent, made) as handle:
        if public.has(ObjectAttribute.SIGN):
            _, answer = tpm.accepted("TPM2_HMAC", tpm.hmac(handle, b"text", frames.ALG_NULL))
            assert not data or answer == sized(mac(SHA256, data, b"text"))
        elif not public.is_parent:
            tpm.unseal("TPM2_Unseal", handle, data)

tpm.chapter("Eight objects, and a ninth.")
for place in range(1, 8):
    assert tpm.load("" if place > 1 else "Seven more", parent, made) == 0x8000_0000 + place
refused("The ninth: OBJECT_MEMORY", tpm.loading(parent, made))
tpm.flush_objects("The fourth is flushed", 0x8000_0003)
assert tpm.load("The freed slot is used again", parent, made) == 0x8000_0003
refused("There is no free slot: OBJECT_MEMORY", tpm.loading(parent, made))
