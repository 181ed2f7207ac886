"""Makes create_primary.tpm. TPM2_CreatePrimary makes an object from its template and its
hierarchy's seed.
"""

from tests.common.steps import aes_key, GENERATED, HIERARCHIES, Steps
from tests.common.vocabulary import ALG_NULL, CC, digest, frames, HASHES, HERE, hmac_key, mac
from tests.common.vocabulary import number, ObjectAttribute, on_handle, RH_ENDORSEMENT, RH_LOCKOUT
from tests.common.vocabulary import RH_NULL, RH_OWNER, RH_PLATFORM, sealed, SHA1, SHA256, sized
from tests.common.vocabulary import storage_key, STORES

QUESTION = b"what do ya want for nothing?"

tpm = Steps(__name__, __doc__)
creates = tpm.create_primary

tpm.chapter(
    "An HMAC key that is given, byte by byte. inSensitive: userAuth is empty, and the key is "
    '"Jefe". inPublic: type KEYEDHASH (0008), nameAlg SHA-256 (000B), attributes userWithAuth, '
    "noDA and sign (00040440), no authPolicy, scheme HMAC (0005) with SHA-256, and unique is "
    "empty. No outsideInfo, and no PCRs."
)
jefe = "0008 0000 0004 4A656665 0010 0008 000B 00040440 0000 0005 000B 0000 0000 00000000"
said = tpm("TPM2_CreatePrimary in TPM_RH_OWNER: the object is 80000000: SUCCESS")
said.raw(on_handle(CC.CreatePrimary, RH_OWNER, bytes.fromhex(jefe)))
FIRST = 0x8000_0000
case = 'TPM2_HMAC of "what do ya want for nothing?" with SHA-256, which is test case 2 of RFC 4231'
answer = tpm(case).hmac(FIRST, QUESTION, SHA256, b"")
assert mac(SHA256, b"Jefe", QUESTION) in answer
said = tpm("With SHA-1, which is not its scheme's: VALUE/p2")
said.raw(on_handle(CC.HMAC, FIRST, sized(QUESTION) + number(SHA1, 2)))
tpm.raw("TPM2_Unseal: it is a key: ATTRIBUTES/h1", on_handle(CC.Unseal, FIRST))
tpm("The object is flushed").flush(FIRST)

tpm.chapter("primaryHandle.")
others = RH_LOCKOUT, frames.RS_PW, 0, 0x0100_0000, 0x0200_0000, 0x0300_0000
objects = 0x8000_0000, 0x8100_0000, 0x4000_0000, 0xFFFF_FFFF
tpm.says(
    "No hierarchy that has objects: TPM_RH_LOCKOUT, TPM_RS_PW, PCR 0, an NV index, sessions, "
    "objects: VALUE/h1",
    *(tpm.primary(it, storage_key()) for it in others + objects),
)
tpm.needs_entries(CC.CreatePrimary, RH_OWNER)
tpm.accepted('The value of TPM_RH_OWNER is "owner"', tpm.change_auth(RH_OWNER, b"owner", b""))
tpm("By the empty password: BAD_AUTH/s1").primary(RH_OWNER, storage_key(), b"")
session = tpm.start("An HMAC session")
by_session = tpm.owned("By that session", storage_key(), session, user_auth=b"abc")
tpm.flush_objects("The object is flushed", by_session)

tpm.chapter("The same template and the same hierarchy give the same object, whatever is drawn.")
names = set()
for algorithm, hash_name in HASHES:
    for hierarchy, hierarchy_name in HIERARCHIES:
        case = f"A storage key in {hierarchy_name} with nameAlg {hash_name}"
        first = creates(case, hierarchy, storage_key(algorithm))
        second = creates("Once more", hierarchy, storage_key(algorithm))
        assert tpm.names[first] == tpm.names[second]
        names.add(tpm.names[first])
        public, qualified = tpm.read_public("TPM2_ReadPublic", second)
        assert qualified[2:] == digest(algorithm, number(hierarchy, 4) + public.name)
        tpm.flush_objects("Both objects are flushed", first, second)
assert len(names) == 2 * len(HIERARCHIES)

tpm.chapter("Whatever is another in inSensitive or inPublic gives another object.")
names = set()
SAME_VALUE = '"a" and a zero, which is the same authorization value, and another object'
USUAL = storage_key().attributes
for what, public, more in (
    ("userAuth is empty", storage_key(), {}),
    ('"a"', storage_key(), {"user_auth": b"a"}),
    (SAME_VALUE, storage_key(), {"user_auth": b"a\0"}),
    ("unique is one zero", storage_key(unique=b"\0"), {}),
    ("32 bytes 11", storage_key(unique=b"\x11" * 32), {}),
    ("An authPolicy", storage_key(auth_policy=bytes(32)), {}),
    ("stClear", storage_key(attributes=USUAL | ObjectAttribute.ST_CLEAR), {}),
    ("adminWithPolicy", storage_key(attributes=USUAL | ObjectAttribute.ADMIN_WITH_POLICY), {}),
    ("Neither fixedTPM nor fixedParent", storage_key(attributes=USUAL & ~HERE), {}),
):
    with tpm.held(what, public, **more) as handle:
        names.add(tpm.read_public("TPM2_ReadPublic", handle)[0].unique)
assert len(names) == 9

tpm.chapter("outsideInfo, PCRs and the locality are no part of the object, but of its creation.")
same = []
for what, more in (
    ("With nothing", {}),
    ('outsideInfo is "serial 1"', {"outside_info": b"serial 1"}),
    ("34 bytes of it, the most that there may be", {"outside_info": bytes(range(34))}),
    ("PCR 0 to 23 of both banks", {"pcrs": [(SHA1, range(24)), (SHA256, range(24))]}),
    ("PCR 17 of the SHA-1 bank, twice", {"pcrs": [(SHA1, [17]), (SHA1, [17])]}),
    ("Banks of which no PCR is selected", {"pcrs": [(SHA1, []), (SHA256, [])]}),
):
    with tpm.held(what, storage_key(), **more) as handle:
        same.append((tpm.names[handle], tpm.creation_data))
for locality in (4, 1, 0):
    tpm.locality_is(locality)
    with tpm.held(f"From locality {locality}", storage_key()) as handle:
        same.append((tpm.names[handle], tpm.creation_data))
assert len({name for name, _ in same}) == 1 and len({data for _, data in same}) == 8
tpm("35 bytes of outsideInfo: SIZE/p3").primary(RH_OWNER, storage_key(), outside_info=bytes(35))
case = "16 banks, the most that there may be, and one more: SIZE/p4"
tpm(case).primary(RH_OWNER, storage_key(), pcrs=17 * [(SHA1, [])])
creates("16 of them", RH_OWNER, storage_key(), pcrs=16 * [(SHA256, [23])])
tpm.flush_objects("The object is flushed", FIRST)
whole = tpm.primary(RH_OWNER, storage_key())
tpm.says("A byte after creationPCR: SIZE", whole.but(parameters=whole.parameters + b"\0"))

tpm.chapter("Objects of each type, with data that are given and that are generated.")
for algorithm, hash_name in HASHES:
    tpm.chapter(f"Their nameAlg is {hash_name}.")
    handle = creates("Sealed data of one byte", RH_OWNER, sealed(algorithm), data=b"x")
    tpm.unseal("TPM2_Unseal", handle, b"x")
    case = "Sealed data of 128 bytes, the most that there may be, by a value of d bytes"
    most = {"user_auth": digest(algorithm, b"long"), "data": bytes(range(128))}
    handle = creates(case, RH_NULL, sealed(algorithm), **most)
    tpm.unseal("TPM2_Unseal", handle, bytes(range(128)))
    handle = creates("An HMAC key of 128 bytes", RH_OWNER, hmac_key(algorithm), data=b"k" * 128)
    _, answer = tpm.accepted("TPM2_HMAC", tpm.hmac(handle, b"text", ALG_NULL))
    assert answer == sized(mac(SHA256, b"k" * 128, b"text"))
    case = "An HMAC key of SHA-1 that is generated"
    handle = creates(case, RH_ENDORSEMENT, hmac_key(algorithm, GENERATED, SHA1))
    tpm.accepted("TPM2_HMAC", tpm.hmac(handle, b"text", SHA1))
    case = "With scheme NULL: as long as a digest of nameAlg"
    handle = creates(case, RH_PLATFORM, hmac_key(algorithm, GENERATED, ALG_NULL))
    tpm.accepted("TPM2_HMAC with SHA-256", tpm.hmac(handle, b"text", SHA256))
    restricted = hmac_key(algorithm, GENERATED | ObjectAttribute.RESTRICTED)
    creates("A restricted one", RH_OWNER, restricted)
    case = "An AES key of 16 bytes, which may sign and decrypt"
    creates(case, RH_OWNER, aes_key(algorithm=algorithm), data=bytes(range(16)))
    given = aes_key(STORES, algorithm)
    creates("A storage key of 16 bytes that are given", RH_OWNER, given, data=bytes(range(16)))
    tpm("A ninth object: OBJECT_MEMORY").primary(RH_OWNER, storage_key())
    tpm.flush_objects("The eight are flushed", *range(FIRST, FIRST + 8))
