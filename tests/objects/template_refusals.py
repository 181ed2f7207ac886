"""Makes template_refusals.tpm. The refusals of TPM2_CreatePrimary, TPM2_Create and TPM2_Load for
inSensitive and inPublic: first what cannot be parsed, in reading order; then what is wrong in any
public area; and then what is wrong in the area of a new object.
"""

from dataclasses import dataclass

from tpmsim.model.object_rules import NAMED
from tpmsim.standard import AES, ALG_HMAC, CFB, KEYEDHASH
from tests.common.steps import aes_key, GENERATED, Steps
from tests.common.vocabulary import ALG_NULL, CC, frames, HERE, hmac_key, number, ObjectAttribute
from tests.common.vocabulary import OPEN, RH_OWNER, sealed, SHA1, SHA256, sized, storage_key, STORES
from tests.common.vocabulary import SYMCIPHER

RESTRICTED, SIGN = ObjectAttribute.RESTRICTED, ObjectAttribute.SIGN
FIXED_TPM, FIXED_PARENT = ObjectAttribute.FIXED_TPM, ObjectAttribute.FIXED_PARENT
DUPLICATION, DECRYPT = ObjectAttribute.ENCRYPTED_DUPLICATION, ObjectAttribute.DECRYPT
UNUSED_BITS = [1 << bit for bit in range(32) if not NAMED >> bit & 1]

NOTHING = frames.sensitive_create()
SECRET = frames.sensitive_create(data=b"secret")
GOOD = sized(sealed().text)

tpm = Steps(__name__, __doc__)


@dataclass(frozen=True)
class Target:
    """A command with inPublic, and its handle. All parameters after inPublic are empty. The private
    area of TPM2_Load is empty too, but the device would refuse it only after inPublic.
    """

    code: CC
    handle: int

    def prepared(self, public, first=None):
        """Returns the command with these parameters, which already include their sizes."""
        if self.code == CC.Load:
            first, rest = first or sized(b""), b""
        else:
            first, rest = first or SECRET, sized(b"") + frames.selection()
        return tpm.prepare(self.code, [self.handle], first + public + rest, b"")

    def sensitive(self, words, *texts):
        tpm.says(words, *(self.prepared(GOOD, it) for it in texts))

    def public(self, words, *texts):
        tpm.says(words, *(self.prepared(sized(it)) for it in texts))

    def also_cut(self, what, code, texts, cut):
        self.public(f"{what}; even if no more follows: {code}", *texts, cut)

    def asked(self, words, *publics):
        self.public(words, *(it.text for it in publics))

    def created(self, words, public, *sensitives):
        tpm.says(words, *(self.prepared(sized(public.text), it) for it in sensitives))


parent = tpm.owned("A storage key", storage_key())
CREATING = Target(CC.CreatePrimary, RH_OWNER), Target(CC.Create, parent)
TARGETS = *CREATING, Target(CC.Load, parent)


def shorts(*values):
    """Encodes these numbers with two bytes each."""
    return b"".join(number(it, 2) for it in values)


def head(kind=KEYEDHASH, name_algorithm=SHA256, attributes=HERE | OPEN, auth_policy=b""):
    return shorts(kind, name_algorithm) + number(attributes, 4) + sized(auth_policy)


def read_sensitive(target):
    tpm.chapter(
        f"TPM2_{target.code.name}: reading inSensitive, a sized buffer of userAuth and data."
    )
    whole = sized(b"abc") + sized(b"secret")
    target.sensitive(
        "Too short for what is in it, at every length: empty, within userAuth, within data: "
        "SIZE/p1",
        *(sized(whole[:length]) for length in range(len(whole))),
    )
    target.sensitive("Too long: SIZE/p1", sized(whole + b"\0"), sized(whole + whole))
    long = sized(bytes(33)) + sized(b"secret"), shorts(33) + bytes(5), b"\xff\xff"
    target.sensitive("userAuth of 33 bytes, whole and cut: SIZE/p1", *map(sized, long))
    long = sized(b"") + sized(bytes(129)), sized(b"abc") + shorts(129)
    target.sensitive("data of 129 bytes, whole and cut: SIZE/p1", *map(sized, long))
    case = "A size that reaches beyond the command: INSUFFICIENT/p1"
    target.sensitive(case, shorts(300) + whole, b"\xff\xff" + sized(bytes(33)))
    case = "It is read before inPublic is, of which here the type is wrong: SIZE/p1"
    tpm.says(case, target.prepared(sized(shorts(1)), sized(whole + b"\0")))


def read_head(target):
    case = "type is neither KEYEDHASH nor SYMCIPHER: RSA, ECC, AES, NULL, none"
    types = (0x0001, 0x0023, AES, ALG_NULL, 0, 0xFFFF)
    target.also_cut(case, "TYPE/p2", (shorts(it) + GOOD[4:] for it in types), shorts(1))
    case = "nameAlg is neither SHA-1 nor SHA-256: SHA-384, HMAC, NULL"
    heads = (head(name_algorithm=it) for it in (0x000C, ALG_HMAC, ALG_NULL))
    target.also_cut(case, "HASH/p2", (it + shorts(ALG_NULL) for it in heads), shorts(SYMCIPHER, 0))
    target.public(
        "Each attribute that has no name, and all attributes, also where no more follows: "
        "RESERVED_BITS/p2",
        *(head(attributes=HERE | OPEN | it) + shorts(ALG_NULL) for it in UNUSED_BITS),
        head(attributes=0xFFFF_FFFF)[:8],
    )
    long = head(auth_policy=bytes(33))
    case = "authPolicy of 33 bytes, whole and cut, also with a wrong scheme after it: SIZE/p2"
    target.public(case, long + shorts(ALG_NULL, 0), head()[:8] + shorts(33), long + shorts(0, 0))


def read_parameters(target):
    """Tests the parameters of a KEYEDHASH and of a SYMCIPHER."""
    case = "The scheme of a KEYEDHASH is neither HMAC nor NULL: XOR, AES, none"
    schemes = (head() + shorts(it, 0) for it in (0x000A, AES, 0, SHA256))
    target.also_cut(case, "SCHEME/p2", schemes, head() + shorts(0x0014))
    case, of_hmac = "The hash of scheme HMAC: SHA-384, NULL", head() + shorts(ALG_HMAC)
    target.also_cut(case, "HASH/p2", [of_hmac + shorts(0x000C, 0)], of_hmac + shorts(ALG_NULL))
    cipher = head(SYMCIPHER, SHA256, storage_key().attributes)
    case = "The algorithm of a SYMCIPHER is not AES: NULL, XOR, none"
    ciphers = (cipher + shorts(it, 128, CFB, 0) for it in (ALG_NULL, 0x000A, 0))
    target.also_cut(case, "SYMMETRIC/p2", ciphers, cipher + shorts(0))
    case = "Its key has another size: 192, 256, 0"
    ciphers = (cipher + shorts(AES, it, CFB, 0) for it in (192, 256, 0))
    target.also_cut(case, "VALUE/p2", ciphers, cipher + shorts(AES, 192))
    case = "Its mode is not CFB: CTR, CBC, NULL"
    ciphers = (cipher + shorts(AES, 128, it, 0) for it in (0x40, 0x42, ALG_NULL))
    target.also_cut(case, "MODE/p2", ciphers, cipher + shorts(AES, 128, 0))
    long = (head() + shorts(ALG_NULL, 33) + bytes(size) for size in (33, 32))
    case = "unique of 33 bytes, whole and cut: SIZE/p2"
    target.public(case, *long, cipher + shorts(AES, 128, CFB, 33))


def read_public(target):
    tpm.chapter(f"TPM2_{target.code.name}: reading inPublic, a sized buffer.")
    read_head(target)
    read_parameters(target)
    keyed = hmac_key(auth_policy=b"p", unique=b"u").text
    cipher = storage_key(unique=b"u").text
    target.public(
        "Too short for what is in it, at every length of a KEYEDHASH and of a SYMCIPHER: SIZE/p2",
        *(keyed[:length] for length in range(len(keyed))),
        *(cipher[:length] for length in range(2, len(cipher))),
    )
    target.public("Too long: SIZE/p2", keyed + b"\0", cipher + cipher)
    beyond = shorts(300) + GOOD[2:], b"\xff\xff" + shorts(1)
    case = "A size that reaches beyond the command, whatever is in it: INSUFFICIENT/p2"
    tpm.says(case, *map(target.prepared, beyond))
    behind = target.prepared(sized(shorts(1)))
    said = tpm("It is read before what follows it, here too many bytes: TYPE/p2")
    said.says(behind.but(parameters=behind.parameters + bytes(80)))
    case, behind = "SIZE/p2", target.prepared(sized(hmac_key(auth_policy=b"p").text))
    if target.code == CC.Load:
        case, behind = "SIZE", behind.but(parameters=behind.parameters + b"\0")
    tpm.says(f"All is read before authPolicy is compared with nameAlg: {case}", behind)


def of(make, *attributes):
    return [make(attributes=it) for it in attributes]


WRONG_POLICIES = (
    *(sealed(auth_policy=bytes(it)) for it in (1, 19, 20, 21, 31)),
    *(sealed(SHA1, auth_policy=bytes(it)) for it in (1, 19, 21, 32)),
    storage_key(SHA1, auth_policy=bytes(32)),
)
WRONG_ATTRIBUTES = (
    ("fixedTPM and encryptedDuplication", of(sealed, HERE | OPEN | DUPLICATION)),
    (
        "fixedTPM without fixedParent, and fixedParent without fixedTPM",
        of(sealed, FIXED_TPM | OPEN, FIXED_PARENT | OPEN, FIXED_PARENT | OPEN | DUPLICATION),
    ),
    (
        "restricted with neither sign nor decrypt, and with both",
        of(sealed, HERE | OPEN | RESTRICTED, HERE | OPEN | STORES | SIGN)
        + of(storage_key, HERE | OPEN | RESTRICTED, HERE | OPEN | STORES | SIGN),
    ),
    (
        "A KEYEDHASH with decrypt: alone, restricted, with sign, with scheme HMAC",
        of(sealed, HERE | OPEN | DECRYPT, HERE | OPEN | STORES, HERE | OPEN | SIGN | DECRYPT)
        + of(hmac_key, HERE | OPEN | DECRYPT),
    ),
    ("A SYMCIPHER with neither sign nor decrypt", of(storage_key, HERE | OPEN)),
    ("A restricted SYMCIPHER with sign", of(storage_key, HERE | OPEN | RESTRICTED | SIGN)),
)
NO_SIGN = [sealed(scheme=SHA256), sealed(SHA1, scheme=SHA1)]
NO_SCHEME = hmac_key(attributes=HERE | OPEN | RESTRICTED, scheme=ALG_NULL)
WRONG_SCHEMES = (
    ("A KEYEDHASH with scheme HMAC and without sign", NO_SIGN),
    ("A restricted KEYEDHASH with scheme NULL", [NO_SCHEME]),
)


def ask_of_all(target):
    tpm.chapter(f"TPM2_{target.code.name}: what is asked of inPublic. unique may be anything.")
    target.asked("authPolicy is neither empty nor a digest of nameAlg: SIZE/p2", *WRONG_POLICIES)
    for what, publics in WRONG_ATTRIBUTES:
        target.asked(f"{what}: ATTRIBUTES/p2", *publics)
    for what, publics in WRONG_SCHEMES:
        target.asked(f"{what}: SCHEME/p2", *publics)

    tpm.chapter("Two faults at once.")
    case = "authPolicy, and fixedTPM without fixedParent: SIZE/p2"
    target.asked(case, sealed(attributes=FIXED_TPM | OPEN, auth_policy=b"p"))
    case = "authPolicy, and scheme HMAC without sign: SIZE/p2"
    target.asked(case, sealed(auth_policy=b"p", scheme=SHA256))
    case = "fixedTPM without fixedParent, and scheme HMAC without sign: ATTRIBUTES/p2"
    target.asked(case, sealed(attributes=FIXED_TPM | OPEN, scheme=SHA256))


def below_movable():
    tpm.chapter("Below a parent without fixedTPM nothing has it; fixedParent is allowed.")
    movable = tpm.owned("A storage key without fixedTPM", storage_key(attributes=OPEN | STORES))
    for code in (CC.Create, CC.Load):
        Target(code, movable).asked(
            f"TPM2_{code.name} of something with fixedTPM, also with fixedParent and with "
            "encryptedDuplication: ATTRIBUTES/p2",
            *(sealed(attributes=OPEN | it) for it in (FIXED_TPM, HERE, HERE | DUPLICATION)),
        )
    for what, attributes in (
        ("With neither", OPEN),
        ("With fixedParent", OPEN | FIXED_PARENT),
        ("With encryptedDuplication", OPEN | DUPLICATION),
        ("With both", OPEN | FIXED_PARENT | DUPLICATION),
    ):
        template = sealed(attributes=attributes)
        handle = tpm.below(f"{what}: TPM2_Create", movable, template, data=b"x")
        tpm.flush_objects("The object is flushed", handle)
    tpm.flush_objects("The parent is flushed", movable)


def ask_of_created(target):
    tpm.chapter(f"TPM2_{target.code.name}: what is asked of what is created.")
    created, given, without_origin = target.created, frames.sensitive_create, aes_key(STORES)
    created(
        "userAuth is longer than a digest of nameAlg, here SHA-1, without its trailing zeros: "
        "SIZE/p1",
        sealed(SHA1),
        *(given(it, b"secret") for it in (b"a" * 21, b"a" * 32, bytes(20) + b"a" + bytes(11))),
    )
    case = "sensitiveDataOrigin, with data: ATTRIBUTES/p2"
    created(case, hmac_key(attributes=GENERATED), given(data=b"key"))
    case = "On a SYMCIPHER, of whatever size the data are: ATTRIBUTES/p2"
    created(case, storage_key(), *(given(data=bytes(it)) for it in (1, 15, 16, 17)))
    created("Neither sensitiveDataOrigin nor data: ATTRIBUTES/p2", sealed(), NOTHING)
    created("For an HMAC key: ATTRIBUTES/p2", hmac_key(), NOTHING)
    created("For a SYMCIPHER: ATTRIBUTES/p2", without_origin, NOTHING)
    case = "sensitiveDataOrigin for what is sealed: ATTRIBUTES/p2"
    created(case, sealed(attributes=GENERATED), NOTHING, SECRET)
    case = "The key of a SYMCIPHER is not of 16 bytes: SIZE/p1"
    created(case, without_origin, *(given(data=bytes(it)) for it in (1, 15, 17, 32, 128)))

    tpm.chapter("Two faults at once.")
    long = given(b"a" * 21, b"secret")
    created("authPolicy, and userAuth: SIZE/p2", sealed(SHA1, auth_policy=b"p"), long)
    created("Scheme HMAC without sign, and userAuth: SCHEME/p2", sealed(SHA1, scheme=SHA1), long)
    case = "userAuth, and neither sensitiveDataOrigin nor data: SIZE/p1"
    created(case, sealed(SHA1), given(b"a" * 21))
    case = "sensitiveDataOrigin, and data of 15 bytes for a SYMCIPHER: ATTRIBUTES/p2"
    created(case, storage_key(), given(data=bytes(15)))
    created("Scheme HMAC without sign, and no data: SCHEME/p2", sealed(scheme=SHA256), NOTHING)


def create_what_is_right(target):
    tpm.chapter("What is just right.")
    for what, public, user_auth, data in (
        ("userAuth of 20 bytes, for SHA-1", sealed(SHA1), b"a" * 20, b"x"),
        ("And of 12 zeros after them", sealed(SHA1), b"a" * 20 + bytes(12), b"x"),
        ("32 zeros, which is the empty one", sealed(SHA1), bytes(32), b"x"),
        ("32 bytes, for SHA-256", sealed(), b"a" * 32, b"x"),
        ("authPolicy of 20 bytes, for SHA-1", sealed(SHA1, auth_policy=bytes(20)), b"", b"x"),
        ("32 bytes, for SHA-256", sealed(auth_policy=bytes(32)), b"", b"x"),
        ("A SYMCIPHER of 16 bytes", aes_key(STORES), b"", bytes(16)),
        ("An HMAC key of SHA-1, with scheme NULL", hmac_key(SHA1, scheme=ALG_NULL), b"", b"x"),
    ):
        make = tpm.create if target.code == CC.Create else tpm.create_primary
        made = make(what, target.handle, public, user_auth=user_auth, data=data)
        if target.code == CC.CreatePrimary:
            tpm.flush_objects("The object is flushed", made)


for target in CREATING:
    read_sensitive(target)
for target in TARGETS:
    read_public(target)
for target in TARGETS:
    ask_of_all(target)
below_movable()
for target in CREATING:
    ask_of_created(target)
    create_what_is_right(target)

tpm.chapter("The parent comes first, and the place for the object last.")
child = tpm.create("TPM2_Create of sealed data", parent, sealed(), data=b"secret")
key = tpm.load("TPM2_Load", parent, child)
for code in (CC.Create, CC.Load):
    under_data, case = Target(code, key), f"TPM2_{code.name} under what is no parent"
    under_data.asked(f"{case}, of a wrong authPolicy: TYPE/h1", sealed(auth_policy=b"p"))
    under_data.public(f"TPM2_{code.name}, of what cannot be read: TYPE/p2", shorts(1))
for place in range(6):
    tpm.load("" if place else "Eight objects are there", parent, child)
creating, _, load = TARGETS
case = "TPM2_CreatePrimary of a ninth, with scheme HMAC and without sign: SCHEME/p2"
creating.asked(case, sealed(scheme=SHA256))
case, short = "With a key of 15 bytes for a SYMCIPHER: SIZE/p1", bytes(15)
creating.created(case, aes_key(STORES), frames.sensitive_create(data=short))
creating.asked("With nothing wrong: OBJECT_MEMORY", sealed())
load.asked("TPM2_Load of a ninth, with an empty private area: INTEGRITY/p1", sealed())
load.asked("And fixedTPM without fixedParent: ATTRIBUTES/p2", sealed(attributes=FIXED_TPM | OPEN))
tpm("With nothing wrong: OBJECT_MEMORY").loading(parent, child)
tpm.create("TPM2_Create needs no place", parent, sealed(), data=b"secret")
