"""Makes order_of_object_refusals.tpm. The order of refusals in the commands of objects: a buffer
has many faults, which are repaired one after the other. The response always reports the first
remaining fault.
"""

from functools import partial

from tests.common.order import OrderTeller
from tests.common.steps import GENERATED, RESTRICTED_KEY
from tests.common.vocabulary import ALG_NULL, CC, DECRYPT, frames, HERE, hmac_key, number
from tests.common.vocabulary import ObjectAttribute, OPEN, RH_OWNER, sealed, SHA1
from tests.common.vocabulary import SHA256, sized, storage_key, Use

tpm = OrderTeller(__name__, __doc__)
SECRET = b"secret"


def in_order(code, handle, uses, *cases):
    tpm.in_order(code, uses, *((*words, [handle], parameters) for *words, parameters in cases))


parent = tpm.create_primary("A storage key", RH_OWNER, storage_key(), user_auth=b"parent")
made = tpm.create("TPM2_Create of sealed data", parent, sealed(), user_auth=b"s", data=SECRET)
handle = tpm.load("TPM2_Load", parent, made)
key = tpm.create_primary("An HMAC key", RH_OWNER, hmac_key(), user_auth=b"k", data=b"key")
said = tpm("A restricted one")
restricted = said.create_primary(RH_OWNER, RESTRICTED_KEY, user_auth=b"r", data=b"key")
session = tpm.start("A session with AES, that is bound to TPM_RH_OWNER", bind=RH_OWNER, aes=True)
DECRYPTS = Use(session, 1 | DECRYPT)

# A template whose authPolicy, attributes and scheme are wrong. The templates below it have only
# some of these faults.
WRONG = hmac_key(SHA1, HERE | OPEN | ObjectAttribute.RESTRICTED, ALG_NULL, auth_policy=b"p")
FIXED_ALONE = sealed(SHA1, ObjectAttribute.FIXED_TPM | OPEN, scheme=SHA1)
PUBLIC_FAULTS = (
    ("authPolicy", "SIZE/p2", WRONG),
    ("fixedTPM without fixedParent", "ATTRIBUTES/p2", FIXED_ALONE),
    ("Scheme HMAC without sign", "SCHEME/p2", sealed(SHA1, scheme=SHA1)),
)
GOOD = frames.sensitive_create(data=SECRET)
# A sensitive area with a userAuth that is too long.
LONG = frames.sensitive_create(b"a" * 21, SECRET)
NONE, BAD_TYPE = sized(b""), sized(number(1, 2))
BANK = number(1, 4) + number(0x000C, 2) + b"\x03\0\0\0"


def with_public(public, first=LONG):
    return first + sized(public.text) + NONE + frames.selection()


for code, on in ((CC.CreatePrimary, RH_OWNER), (CC.Create, parent)):
    tpm.chapter(f"TPM2_{code.name}, with inSensitive encrypted.")
    uses = [tpm.auth_value(on), DECRYPTS]
    tpm.refuses_before_parameters(code, [on], GOOD[:-1], uses)
    faults = sized(bytes(35)) + BANK
    of_creation = partial(in_order, code, on, uses)
    of_creation(
        ("inSensitive is cut", "INSUFFICIENT/p1", GOOD[:-1]),
        (
            "It is too long for what is in it",
            "SIZE/p1",
            sized(LONG[2:] + b"\0") + BAD_TYPE + faults,
        ),
        ("The type", "TYPE/p2", LONG + BAD_TYPE + faults),
        ("outsideInfo of 35 bytes", "SIZE/p3", LONG + sized(WRONG.text) + faults),
        ("The hash of a bank", "HASH/p4", LONG + sized(WRONG.text) + NONE + BANK),
        ("A byte after creationPCR", "SIZE", with_public(WRONG) + b"\0"),
    )
    if code == CC.Create:
        case = "Under what is no parent", "TYPE/h1", [handle], with_public(WRONG)
        tpm.in_order(code, uses, case)
    of_creation(
        *((*words, with_public(public)) for *words, public in PUBLIC_FAULTS),
        ("userAuth of 21 bytes", "SIZE/p1", with_public(sealed(SHA1, GENERATED))),
        (
            "sensitiveDataOrigin, with data",
            "ATTRIBUTES/p2",
            with_public(sealed(SHA1, GENERATED), GOOD),
        ),
        ("With nothing wrong", "SUCCESS", with_public(sealed(SHA1), GOOD)),
    )
tpm("The object of the first is flushed").flush(0x8000_0004)

tpm.chapter("TPM2_Load, with inPrivate encrypted.")
uses = [b"parent", DECRYPTS]
private, public = sized(made.private), sized(made.public.text)
tpm.refuses_before_parameters(CC.Load, [parent], private[:-1], uses)
of_loading = partial(in_order, CC.Load, parent, uses)
of_loading(
    ("inPrivate is cut", "INSUFFICIENT/p1", private[:-1]),
    ("It has 257 bytes", "SIZE/p1", sized(bytes(257)) + BAD_TYPE + b"\0"),
    ("The type", "TYPE/p2", NONE + BAD_TYPE + b"\0"),
    ("A byte after inPublic", "SIZE", NONE + sized(WRONG.text) + b"\0"),
)
case = "Under what is no parent", "TYPE/h1", [handle], NONE + sized(WRONG.text)
tpm.in_order(CC.Load, uses, case)
faults = ((*words, NONE + sized(public.text)) for *words, public in PUBLIC_FAULTS)
of_loading(*faults)
others = [tpm.load("" if it else "Eight objects are there", parent, made) for it in range(4)]
of_loading(
    ("Another private area", "INTEGRITY/p1", sized(bytes(64)) + public),
    ("No place", "OBJECT_MEMORY", private + public),
)
tpm.flush_objects("Some are flushed", *others)
again = tpm.load("With nothing wrong", parent, made, *uses)
tpm.flush_objects("The object is flushed", again)

tpm.chapter("TPM2_ReadPublic, with a session that authorizes nothing.")
tpm.refuses_before_parameters(CC.ReadPublic, [key], b"\0", [Use(session)])
tpm("A byte after the handle: SIZE").prepare(CC.ReadPublic, [key], b"\0", session)
tpm.read_public("With nothing wrong", key, session)

tpm.chapter("TPM2_Unseal.")
tpm.refuses_before_parameters(CC.Unseal, [key], b"\0", [b"k", Use(session)])
tpm("A byte after the area, of a key: SIZE").prepare(CC.Unseal, [key], b"\0", b"k", session)
tpm("A storage key: TYPE/h1").prepare(CC.Unseal, [parent], b"", b"parent", session)
tpm("An HMAC key: ATTRIBUTES/h1").prepare(CC.Unseal, [key], b"", b"k", session)
tpm.unseal("With nothing wrong", handle, SECRET, b"s", session)

tpm.chapter("TPM2_HMAC, with the buffer encrypted.")
uses = [b"k", DECRYPTS]
data = sized(b"text")
by_sha1 = data + number(SHA1, 2)
tpm.refuses_before_parameters(CC.HMAC, [key], data[:-1], uses)
tpm.in_order(
    CC.HMAC,
    uses,
    ("The buffer is cut", "INSUFFICIENT/p1", [key], data[:-1]),
    ("It has 1,025 bytes", "SIZE/p1", [key], sized(bytes(1025)) + number(0, 2) + b"\0"),
    ("hashAlg", "HASH/p2", [key], data + number(0, 2) + b"\0"),
    ("A byte after it", "SIZE", [key], by_sha1 + b"\0"),
    ("A storage key", "TYPE/h1", [parent], by_sha1),
    ("A restricted key", "ATTRIBUTES/h1", [restricted], by_sha1),
    ("Sealed data", "KEY/h1", [handle], by_sha1),
    ("Another hash algorithm than the scheme's", "VALUE/p2", [key], by_sha1),
    ("With nothing wrong", "SUCCESS", [key], data + number(SHA256, 2)),
)
