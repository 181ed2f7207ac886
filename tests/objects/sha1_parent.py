"""Makes sha1_parent.tpm. The nameAlg of the parent protects a private area. The Name, the
qualified name, the hashes in the creation data and unique use the nameAlg of the object itself. The
hierarchy comes from the parent.
"""

from tpmsim.standard import Fields
from tests.common.steps import HIERARCHIES, Steps
from tests.common.vocabulary import CC, digest, digest_bytes, HASHES, HERE, hmac_key, NAMES, number
from tests.common.vocabulary import ObjectAttribute, OPEN, policy, RH_ENDORSEMENT, RH_NULL, RH_OWNER
from tests.common.vocabulary import RH_PLATFORM, sealed, SHA1, SHA256, storage_key, STORES

tpm = Steps(__name__, __doc__)


def qualified(above, name, algorithm):
    return number(algorithm, 2) + digest(algorithm, above + name)


for parent_algorithm, parent_hash in HASHES:
    tpm.chapter(f"A parent with nameAlg {parent_hash}.")
    parent = tpm.owned("TPM2_CreatePrimary", storage_key(parent_algorithm), user_auth=b"parent")
    _, above = tpm.read_public("TPM2_ReadPublic", parent)
    assert above == qualified(number(RH_OWNER, 4), tpm.names[parent], parent_algorithm)
    for algorithm, hash_name in HASHES:
        with_policy = sealed(algorithm, auth_policy=bytes(digest_bytes(algorithm)))
        for what, public, data in (
            ("sealed data", with_policy, b"secret"),
            ("an HMAC key", hmac_key(algorithm, scheme=SHA1), b"key"),
            ("a storage key", storage_key(algorithm), b""),
        ):
            said = tpm(f"TPM2_Create of {what} with nameAlg {hash_name}")
            pcrs = [(SHA1, [0]), (SHA256, [0])]
            made = said.create(parent, public, user_auth=b"child", data=data, pcrs=pcrs)
            # The parent's hash algorithm determines the size of integrity. The first block of the
            # cipher always has 16 bytes.
            fields = Fields(made.private)
            assert len(fields.sized()) == digest_bytes(parent_algorithm)
            assert len(fields.sized()) == 16
            assert len(made.public.unique) == digest_bytes(algorithm)
            fields = Fields(tpm.creation_data)
            fields.take(4 + 2 * 6)
            assert fields.sized() == digest(algorithm, bytes(52))
            assert fields.take(3) == b"\1" + number(parent_algorithm, 2)
            assert (fields.sized(), fields.sized()) == (tpm.names[parent], above)
            with tpm.loaded("TPM2_Load", parent, made) as child:
                public, answered = tpm.read_public("TPM2_ReadPublic", child)
                assert answered == qualified(above, public.name, algorithm)
    tpm.flush_objects("The parent is flushed", parent)

tpm.chapter("Children of children: four storage keys under one another, and sealed data.")
chain = [tpm.owned("The primary key", storage_key(SHA1))]
_, above = tpm.read_public("TPM2_ReadPublic", chain[0])
links = []
for place, algorithm in enumerate((SHA256, SHA1, SHA1, SHA256), 1):
    said = tpm(f"TPM2_Create of a storage key with {NAMES[algorithm]}")
    links.append(said.create(chain[-1], storage_key(algorithm), user_auth=b"%d" % place))
    chain.append(tpm.load("TPM2_Load", chain[-1], links[-1]))
    public, answered = tpm.read_public("TPM2_ReadPublic", chain[-1])
    above = qualified(above, public.name, algorithm)
    assert answered == above
leaf = tpm.create("TPM2_Create of sealed data", chain[-1], sealed(SHA1), data=b"deep")
handle = tpm.load("TPM2_Load", chain[-1], leaf)
tpm.unseal("TPM2_Unseal", handle, b"deep")
_, answered = tpm.read_public("TPM2_ReadPublic", handle)
assert answered == qualified(above, leaf.public.name, SHA1)
said = tpm("The object is loaded under its own parent alone: INTEGRITY/p1")
said.says(*(tpm.loading(it, leaf) for it in chain[:-1]))
tpm.flush_objects("The parents are flushed", *chain)
tpm.unseal("The children stay loaded", handle, b"deep")
assert tpm.read_public("A child keeps its qualified name", handle)[1] == answered
tpm.flush_objects("The object is flushed", handle)
tpm.chapter("All of it once more, from the primary key on.")
parent = tpm.owned("The primary key", storage_key(SHA1))
for made in links:
    child = tpm.load("TPM2_Load of the next one", parent, made)
    tpm.flush_objects("The parent is flushed", parent)
    parent = child
handle = tpm.load("TPM2_Load of the sealed data", parent, leaf)
tpm.unseal("TPM2_Unseal", handle, b"deep")
tpm.flush_objects("Both objects are flushed", handle, parent)

tpm.chapter("A child is in its parent's hierarchy: the ticket, and the qualified name.")
for hierarchy in (RH_PLATFORM, RH_ENDORSEMENT, RH_NULL):
    name = dict(HIERARCHIES)[hierarchy]
    primary = tpm.create_primary(f"A parent in {name}", hierarchy, storage_key(SHA1))
    made = tpm.create("TPM2_Create of a storage key under it", primary, storage_key())
    assert tpm.ticket[0] == hierarchy
    child = tpm.load("TPM2_Load", primary, made)
    leaf = tpm.create("TPM2_Create under that", child, sealed(), data=b"leaf")
    assert tpm.ticket[0] == hierarchy
    handle = tpm.load("TPM2_Load", child, leaf)
    first = qualified(number(hierarchy, 4), tpm.names[primary], SHA1)
    second = qualified(first, tpm.names[child], SHA256)
    _, answered = tpm.read_public("TPM2_ReadPublic", handle)
    assert answered == qualified(second, tpm.names[handle], SHA256)
    tpm.unseal("TPM2_Unseal", handle, b"leaf")
    tpm.flush_objects("The objects are flushed", primary, child, handle)

tpm.chapter("fixedTPM: what is under a parent without it is without it, down to the last.")
movable = storage_key(attributes=OPEN | STORES)
primary = tpm.owned("A parent without fixedTPM", movable)
inner = storage_key(SHA1, attributes=OPEN | STORES | ObjectAttribute.FIXED_PARENT)
child = tpm.below("TPM2_Create of a storage key with fixedParent", primary, inner)
said = tpm("TPM2_Create under that, with fixedTPM and fixedParent: ATTRIBUTES/p2")
said.child(child, sealed(), data=b"leaf")
handle = tpm.below("With neither of them", child, sealed(attributes=OPEN), data=b"leaf")
tpm.unseal("TPM2_Unseal", handle, b"leaf")
tpm.flush_objects("The objects are flushed", primary, child, handle)

tpm.chapter("A policy of SHA-1.")
parent = tpm.owned("A parent with SHA-256", storage_key())
for_unseal = policy.after_command_code(SHA1, bytes(20), CC.Unseal)
template = sealed(SHA1, HERE | ObjectAttribute.NO_DA, auth_policy=for_unseal)
said = tpm("Sealed data with nameAlg SHA-1 and a policy: TPM2_Create")
handle = said.below(parent, template, data=b"secret")
session = tpm.policy("A policy session with SHA-1", algorithm=SHA1)
tpm("TPM2_PolicyCommandCode").command_code(session, CC.Unseal)
tpm.unseal("TPM2_Unseal", handle, b"secret", session)
