"""Makes full_device.tpm. A device that is filled up to each of its limits: sixteen persistent
objects, eight transient ones, 64 NV indices of 16,384 bytes in all, and sixteen sessions.
tests/images/images.py prints its image.
"""

from tpmsim.model import nv_commands
from tests.common.steps import AFTER_AUTH_VALUE, GENERATED, PROTECTED, Steps
from tests.common.vocabulary import ALG_NULL, area, bits, BY_OWNER, BY_PLATFORM, BY_POLICY, BY_VALUE
from tests.common.vocabulary import CC, counter, extended, frames, HERE, hmac_key, LOCKS
from tests.common.vocabulary import NvAttribute, RH_ENDORSEMENT, RH_LOCKOUT, RH_NULL, RH_OWNER
from tests.common.vocabulary import RH_PLATFORM, SE_HMAC, SE_POLICY, SE_TRIAL, sealed, SHA1, SHA256
from tests.common.vocabulary import storage_key

PERSISTENT, OBJECTS, SESSIONS = 16, 8, 16
AUTH_VALUES = (
    (RH_OWNER, b"owner"),
    (RH_ENDORSEMENT, b"endorsement endorsement 32 bytes"),
    (RH_PLATFORM, b"p"),
    (RH_LOCKOUT, b"lockout"),
)

# Persistent objects of each type, scheme and hash algorithm.
TEMPLATES = (
    (storage_key(), b"", b""),
    (storage_key(SHA1), b"", b"a"),
    (sealed(), b"a secret", b"pin"),
    (sealed(attributes=PROTECTED), b"x", b""),
    (sealed(SHA1, HERE, auth_policy=AFTER_AUTH_VALUE[SHA1]), bytes(range(128)), b"b" * 20),
    (sealed(auth_policy=AFTER_AUTH_VALUE[SHA256]), bytes(128), b"c" * 32),
    (hmac_key(), b"a key", b""),
    (hmac_key(SHA1, scheme=SHA1), b"another key", b"mac"),
    (hmac_key(scheme=ALG_NULL), b"k", b""),
    (hmac_key(attributes=GENERATED), b"", b""),
)

SHA1_POLICY = {"algorithm": SHA1, "auth_policy": AFTER_AUTH_VALUE[SHA1]}
SHA256_POLICY = {"auth_policy": AFTER_AUTH_VALUE[SHA256]}

# Indices: ordinary ones of different sizes, written or not, and indices of the other types.
INDICES = (
    (area(0x0100_0000, BY_OWNER, size=2048), b""),
    (area(0x01FF_FFFF, BY_OWNER, size=2048), b"a"),
    (area(0x0100_0001, BY_OWNER | LOCKS, size=2048), b"b" * 32),
    (area(0x0100_0002, BY_VALUE, size=0), b""),
    (area(0x0100_0003, BY_POLICY, size=3, **SHA1_POLICY), b"c" * 20),
    (counter(0x0100_0004), b"count"),
    (counter(0x0100_0005, BY_OWNER | NvAttribute.NO_DA), b""),
    (bits(0x0100_0006), b""),
    (extended(0x0100_0007), b""),
    (extended(0x0100_0008, algorithm=SHA1), b""),
    (area(0x0100_0009, BY_OWNER | BY_POLICY, size=100, **SHA256_POLICY), b""),
)

tpm = Steps(__name__, __doc__, starts=False)


def define_all():
    tpm.chapter("NV indices.")
    for public, auth in INDICES:
        tpm.define("An index of each kind" if public is INDICES[0][0] else "", public, auth=auth)
    platforms = area(0x0180_0000, BY_PLATFORM | NvAttribute.PLATFORMCREATE, size=1)
    tpm.define("An index of the platform", platforms, by=RH_PLATFORM)
    taken = sum(it.data_size for it, _ in INDICES) + platforms.data_size
    count = nv_commands.INDICES - len(INDICES) - 1
    for at in range(count):
        left_for_this = nv_commands.ALL_BYTES - taken - 8 * (count - 1 - at)
        public = area(0x0140_0000 + at, BY_OWNER, size=min(left_for_this, nv_commands.INDEX_BYTES))
        tpm.define("The largest number of indices, with all bytes" if at == 0 else "", public)
        taken += public.data_size
    assert taken == nv_commands.ALL_BYTES and len(tpm.publics) == nv_commands.INDICES
    tpm("One more index: NV_SPACE").defining(area(0x0100_00FF, size=0))


def write_some():
    tpm("Some indices are written").writing(0x0100_0000, b"data", by=RH_OWNER, offset=1000)
    tpm("").writing(0x0100_0001, bytes(range(256)) * 4, by=RH_OWNER)
    tpm("").writing(0x0100_0002, b"")
    tpm("").writing(0x0180_0000, b"p", by=RH_PLATFORM)
    for _ in range(3):
        tpm("").incrementing(0x0100_0004)
    tpm("").setting(0x0100_0006, 0x8000_0000_0000_0001)
    for index in (0x0100_0007, 0x0100_0008):
        tpm("").extending(index, b"data")
    tpm("An index is locked for writing").write_locking(0x0100_0001, by=RH_OWNER)
    tpm("An index is locked for reading").read_locking(0x0100_0001, by=RH_OWNER)


def keep_all():
    tpm.chapter("Persistent objects of all three hierarchies, and of each type.")
    hierarchies = (RH_OWNER, RH_OWNER), (RH_ENDORSEMENT, RH_OWNER), (RH_PLATFORM, RH_PLATFORM)
    for at in range(PERSISTENT - 1):
        public, data, user_auth = TEMPLATES[at % len(TEMPLATES)]
        hierarchy, asker = hierarchies[at % len(hierarchies)]
        first = 0x8180_0000 if asker == RH_PLATFORM else 0x8100_0000
        said, chosen = tpm("A primary object"), {"data": data, "user_auth": user_auth}
        with said.held(
            public, hierarchy=hierarchy, flushed="The transient object is flushed", **chosen
        ) as handle:
            tpm.keep("The object becomes persistent", asker, handle, first + 0x1000 * at)
    made = tpm.create("A child of the first object", 0x8100_0000, hmac_key(), data=b"key")
    with tpm.loaded("The child is loaded", 0x8100_0000, made) as handle:
        tpm.keep("The object becomes persistent", RH_OWNER, handle, 0x817F_FFFF)
        tpm("One more: NV_SPACE").evicting(RH_OWNER, handle, 0x8100_0001)


def transient():
    tpm.chapter("Transient objects and sessions, which a power cycle removes.")
    for at in range(OBJECTS):
        hierarchy = (RH_OWNER, RH_NULL)[at % 2]
        tpm.create_primary("Eight objects" if at == 0 else "", hierarchy, storage_key())
    tpm("One more object: OBJECT_MEMORY").primary(RH_NULL, storage_key())
    for at in range(SESSIONS):
        kind = (SE_HMAC, SE_POLICY, SE_TRIAL)[at % 3]
        tpm.start("Sixteen sessions" if at == 0 else "", kind=kind)
    start = tpm.prepare(CC.StartAuthSession, *frames.start_auth_session(bytes(16)))
    tpm.fails("One more session: SESSION_MEMORY", start)


def the_rest():
    tpm.chapter("Authorization values, failed tries, and the saved state.")
    tpm.set_protection("TPM2_DictionaryAttackParameters", 5, 0x0102_0304, 0xFFFF_FFFF)
    for handle, value in AUTH_VALUES:
        tpm("An authorization value").change_auth(handle, value, b"")
    tpm("TPM2_Clear is disabled").clear_control(RH_PLATFORM, 1)
    wrong = tpm.writing(0x0100_0002, b"", b"wrong")
    tpm.fails("Two failed tries: AUTH_FAIL/s1", wrong, wrong)
    tpm("A wrong password disables lockoutAuth: AUTH_FAIL/s1").lock_reset(b"wrong")
    for pcr in (0, 3, 15, 16):
        tpm("A PCR is extended").event(b"event", b"", pcr=pcr)
    tpm.wait(123_456_789)
    tpm.saves()


tpm.startup()
tpm.saves()
tpm.power()
tpm.start_up("TPM2_Startup(CLEAR), a restart")
define_all()
write_some()
keep_all()
transient()
the_rest()
