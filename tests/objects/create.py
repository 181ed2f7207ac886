"""Makes create.tpm. TPM2_Create makes an object and returns it in a private area, which only its
parent can load. The device keeps nothing of the object.
"""

from tpmsim.model import object_rules
from tpmsim.standard import aes, Fields
from tests.common.steps import aes_key, GENERATED, HIERARCHIES, PROTECTED, RESTRICTED_KEY, Steps
from tests.common.vocabulary import ALG_NULL, CC, digest, ENCRYPT, frames, HASHES, hmac_key, mac
from tests.common.vocabulary import number, ObjectAttribute, RH_ENDORSEMENT, RH_OWNER, RH_PLATFORM
from tests.common.vocabulary import sealed, SHA1, SHA256, storage_key, STORES, Use

tpm = Steps(__name__, __doc__)
refused = tpm.says


def under(handle, *uses):
    return tpm.child(handle, sealed(), *uses, data=b"x")


tpm.chapter("parentHandle.")
transient = 0x8000_0000, 0x8000_0007, 0x8000_0008, 0x80FF_FFFF
persistent = 0x8100_0000, 0x8180_0000, 0x81FF_FFFF
tpm.refuses_others(under, 0x7F00_0000, transient=transient, persistent=persistent)
parent = tpm.owned('A storage key, whose value is "parent"', storage_key(), user_auth=b"parent")
case = "Another number is still not there: REFERENCE_H0"
refused(case, *(under(it, b"parent") for it in (0x8000_0001, 0x8000_0007, 0x8001_0000)))
tpm.needs_entries(CC.Create, parent)
refused("By another password: BAD_AUTH/s1", under(parent, b"Parent"))
with tpm.held("A storage key without noDA", storage_key(attributes=PROTECTED | STORES)) as guarded:
    refused("By another password: AUTH_FAIL/s1", under(guarded, b"Parent"))
    tpm.create("By the right one, the empty one", guarded, sealed(), data=b"x")

tpm.chapter("Not every object is a parent: that has to be a restricted key to decrypt.")
for what, public, data in (
    ("Sealed data", sealed(), b"x"),
    ("An HMAC key", hmac_key(), b"key"),
    ("A restricted HMAC key", RESTRICTED_KEY, b"key"),
    ("An AES key to decrypt, which is not restricted", aes_key(ObjectAttribute.DECRYPT), bytes(16)),
    ("An AES key to encrypt and decrypt", aes_key(), bytes(16)),
):
    with tpm.held(what, public, data=data) as handle:
        refused("As a parent: TYPE/h1", under(handle))

tpm.chapter("Each created object is new, since its seed is drawn: the same template twice.")
first = tpm.create("Sealed data", parent, sealed(), data=b"secret")
second = tpm.create("Once more", parent, sealed(), data=b"secret")
assert first.public.unique != second.public.unique
again = tpm.child(parent, sealed(), data=b"secret")
tpm.says("With the same random bytes it is the same: SUCCESS", again, again)

tpm.chapter(
    "The random bytes are drawn from the front: a key, if none is given, then the seed, and "
    "then the first block of the cipher, which is in the private area. Here they are 00 to ff."
)
RANDOM = bytes(range(256))
tpm.script.entropy(RANDOM)
for what, public, data, key_bytes in (
    ("Sealed data: a seed of 32 bytes, and the first block", sealed(), b"data", 0),
    ("nameAlg SHA-1: a seed of 20 bytes", sealed(SHA1), b"data", 0),
    ("An HMAC key of SHA-256", hmac_key(attributes=GENERATED), b"", 32),
    ("Of SHA-1", hmac_key(attributes=GENERATED, scheme=SHA1), b"", 20),
    ("Of scheme NULL", hmac_key(attributes=GENERATED, scheme=ALG_NULL), b"", 32),
    ("Of scheme NULL, and nameAlg SHA-1", hmac_key(SHA1, GENERATED, ALG_NULL), b"", 20),
    ("Of SHA-256, and nameAlg SHA-1", hmac_key(SHA1, GENERATED), b"", 32),
    ("A storage key", storage_key(), b"", 16),
    ("A storage key, and nameAlg SHA-1", storage_key(SHA1), b"", 16),
):
    fields = Fields(tpm(what).child(parent, public, data=data))
    private, made = Fields(fields.sized()), object_rules.Parameters(fields.data)
    made = made.structure(object_rules.read_public)
    seed_end = key_bytes + (20 if public.name_algorithm == SHA1 else 32)
    key, seed = RANDOM[:key_bytes] or data, RANDOM[key_bytes:seed_end]
    assert made.unique == digest(public.name_algorithm, seed + key)
    assert (len(private.sized()), private.sized()) == (32, RANDOM[seed_end : seed_end + aes.BLOCK])

tpm.chapter("The nonces of sessions are drawn after them.")
session = tpm.start("A session", aes=True)
other = tpm.start("Another session")
tpm.create("TPM2_Create with both", parent, storage_key(), session, other)
ranks = "first", "second", "third"
long = [tpm.start(f"With a nonce of 32 bytes, the {it}", size=32, aes=True) for it in ranks]
tpm.chapter(
    "A key of 32 bytes, a seed of 32, the first block, and three nonces of 32: 176 random bytes "
    "are the most that are drawn. What is answered is the longest of a creation, too."
)
tpm.script.entropy(RANDOM)
longest = {"user_auth": b"a" * 32, "outside_info": b"o" * 34}
template = hmac_key(attributes=GENERATED, auth_policy=bytes(32), unique=bytes(32))
uses, pcrs = (long[0], long[1].decrypting, Use(long[2], ENCRYPT)), 16 * [(SHA256, range(24))]
prepared = tpm.child(parent, template, *uses, **longest, pcrs=pcrs)
said = tpm("TPM2_Create with three sessions, of which the last ends: SUCCESS")
tpm.received(prepared, said.raw(prepared.buffer()))
assert [it.nonce_tpm for it in long] == [RANDOM[at : at + 32] for at in (80, 112, 144)]

tpm.chapter("The creation data, their hash and the ticket.")
proofs = {RH_OWNER: 0x80, RH_ENDORSEMENT: 0xA0, RH_PLATFORM: 0xC0}
for hierarchy, name in HIERARCHIES:
    handle = tpm.create_primary(f"A parent in {name}", hierarchy, storage_key())
    made = tpm.create("TPM2_Create", handle, sealed(), data=b"secret", outside_info=b"label")
    ticket_hierarchy, ticket = tpm.ticket
    assert ticket_hierarchy == hierarchy
    if hierarchy in proofs:
        # The device is manufactured with the random bytes 00 to ff. The second half becomes the
        # proofs.
        proof = bytes(range(proofs[hierarchy], proofs[hierarchy] + 32))
        text = number(frames.ST_CREATION, 2) + made.public.name
        assert ticket == mac(SHA256, proof, text + digest(SHA256, tpm.creation_data))
    fields = Fields(tpm.creation_data)
    assert fields.take(4) == bytes(4) and fields.sized() == digest(SHA256, b"")
    assert fields.take(3) == b"\x01" + number(SHA256, 2)
    assert fields.sized() == tpm.names[handle]
    qualified = digest(SHA256, number(hierarchy, 4) + tpm.names[handle])
    assert fields.sized() == number(SHA256, 2) + qualified and fields.sized() == b"label"
    tpm.flush_objects("The object is flushed", handle)
for what, pcrs in (
    ("PCR 0 and 17 of the SHA-256 bank", [(SHA256, [0, 17])]),
    ("PCR 17 of the SHA-1 bank, and PCR 0 of the SHA-256 bank", [(SHA1, [17]), (SHA256, [0])]),
    ("All of both", [(SHA1, range(24)), (SHA256, range(24))]),
):
    for algorithm, hash_name in HASHES:
        said = tpm(f"{what}, hashed by {hash_name}, which is nameAlg")
        said.create(parent, sealed(algorithm), data=b"secret", pcrs=pcrs)
tpm.locality_is(3)
tpm.create("From locality 3, which is bit 3", parent, sealed(), data=b"secret")
assert tpm.creation_data[4 + 34] == 1 << 3
tpm.locality_is(0)

tpm.chapter("Sizes.")
said = tpm("The longest of all: 128 bytes of data, 32 bytes of userAuth and of authPolicy")
said.create(parent, sealed(auth_policy=bytes(32)), **longest, data=b"d" * 128)
refused("129 bytes of data: SIZE/p1", tpm.child(parent, sealed(), data=bytes(129)))
case = "35 bytes of outsideInfo: SIZE/p3"
refused(case, tpm.child(parent, sealed(), data=b"x", outside_info=bytes(35)))
refused("17 banks: SIZE/p4", tpm.child(parent, sealed(), data=b"x", pcrs=17 * [(SHA1, [])]))
whole = under(parent)
refused("A byte after creationPCR: SIZE", whole.but(parameters=whole.parameters + b"\0"))
