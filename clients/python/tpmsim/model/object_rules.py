"""Objects: how they are made, and how a parent protects them (TPM 2.0 Library, Part 1, sections 16,
22 and 25 to 27; Part 2, section 12). A primary object has no parent: its `parent` is None.
"""

from dataclasses import dataclass, replace
from functools import partial

from tpmsim.model.general import Refusal
from tpmsim.model.parameters import buffer, Parameters, structure
from tpmsim.standard import aes, ALG_NULL, digest, DIGEST_BYTES, digest_bytes, Fields, frames, kdfa
from tpmsim.standard import KEYEDHASH, mac, number, SHA256, Short, sized, SYMCIPHER, trimmed
from tpmsim.standard.aes_tables import encrypt_block
from tpmsim.standard.objects import Attribute, NAMED, Public

AES_KEY_BYTES = 16

# The largest sizes of a key or sealed data, of a Name, and of a private area.
DATA_BYTES = 128
NAME_BYTES = 34
PRIVATE_BYTES = 256

# The number of checks of a public area, which precede the checks of a sensitive area.
PUBLIC_CHECKS = 3


@dataclass(frozen=True)
class Sensitive:
    """TPMT_SENSITIVE: `data` is a key, or sealed data."""

    kind: int
    auth_value: bytes
    seed_value: bytes
    data: bytes

    @property
    def text(self) -> bytes:
        buffers = self.auth_value, self.seed_value, self.data
        return number(self.kind, 2) + b"".join(map(sized, buffers))


@dataclass(frozen=True)
class Object:
    public: Public
    sensitive: Sensitive
    hierarchy: int
    qualified_name: bytes

    @property
    def name(self) -> bytes:
        return self.public.name

    @property
    def auth_value(self) -> bytes:
        return self.sensitive.auth_value


def loaded(
    public: Public, sensitive: Sensitive, hierarchy: int, parent_qualified_name: bytes
) -> Object:
    """Returns a loaded object. Its qualified Name depends on the Names of all its ancestors, and
    uses the object's own nameAlg.
    """
    algorithm = public.name_algorithm
    qualified = digest(algorithm, parent_qualified_name + public.name)
    return Object(public, sensitive, hierarchy, number(algorithm, 2) + qualified)


@dataclass(frozen=True)
class Template:
    """The template of TPM2_CreatePrimary and TPM2_Create; `pcrs` selects the PCRs of the creation
    data.
    """

    values: tuple[bytes, bytes]
    public: Public
    outside_info: bytes
    pcrs: list[tuple[int, list[int]]]

    @property
    def user_auth(self) -> bytes:
        return self.values[0]

    @property
    def data(self) -> bytes:
        return self.values[1]


def read_sensitive_create(fields: Parameters) -> tuple[bytes, bytes]:
    return fields.sized(DIGEST_BYTES), fields.sized(DATA_BYTES)


def read_kind(fields: Parameters) -> int:
    return fields.one_of(2, (KEYEDHASH, SYMCIPHER), "TYPE")


def read_parameters(fields: Parameters, kind: int) -> int:
    """Parses the parameters of an object of this kind. Returns the hash algorithm of a KEYEDHASH's
    scheme, or ALG_NULL.
    """
    if kind == SYMCIPHER:
        fields.cipher()
    elif fields.one_of(2, (ALG_NULL, frames.ALG_HMAC), "SCHEME") != ALG_NULL:
        return fields.hash()
    return ALG_NULL


def read_public(fields: Parameters) -> Public:
    kind = read_kind(fields)
    name_algorithm = fields.hash()
    attributes = fields.number(4)
    if attributes & ~NAMED:
        raise fields.refusal("RESERVED_BITS", "bits", named=NAMED, value=attributes)
    auth_policy = fields.sized(DIGEST_BYTES)
    scheme = read_parameters(fields, kind)
    unique = fields.sized(DIGEST_BYTES)
    return Public(kind, name_algorithm, attributes, auth_policy, scheme, unique)


TEMPLATE = (
    *(structure(read_sensitive_create), structure(read_public)),
    *(buffer(NAME_BYTES), Parameters.selection),
)


def wrong_attributes(public: Public, parent: Object | None) -> list[str]:
    """Returns a name for each rule that the attributes of a new object break."""
    is_fixed, is_restricted = public.has(Attribute.FIXED_TPM), public.has(Attribute.RESTRICTED)
    signs, decrypts = public.has(Attribute.SIGN), public.has(Attribute.DECRYPT)
    is_cipher = public.kind != KEYEDHASH
    # fixedTPM claims that no ancestor can be duplicated, so the parent must have fixedTPM too.
    may_be_fixed = parent is None or parent.public.has(Attribute.FIXED_TPM)
    rules = {
        "duplication": is_fixed and public.has(Attribute.ENCRYPTED_DUPLICATION),
        "parent": is_fixed and not may_be_fixed,
        "alone": may_be_fixed and is_fixed != public.has(Attribute.FIXED_PARENT),
        "both": is_restricted and signs and decrypts,
        "none": is_restricted and not signs and not decrypts,
        "decrypts": decrypts and not is_cipher,
        "unused": is_cipher and not signs and not decrypts,
        "signs": is_cipher and is_restricted and signs,
    }
    return [name for name, is_broken in rules.items() if is_broken]


def checks_before(parent: Object | None) -> int:
    """Returns the number of checks before those of a template: 1 if there is a parent to check, and
    otherwise 0.
    """
    return 0 if parent is None else 1


def check_public(public: Public, parent: Object | None) -> None:
    before, size = checks_before(parent), len(public.auth_policy)
    if size not in (0, digest_bytes(public.name_algorithm)):
        wanted = digest_bytes(public.name_algorithm)
        raise Refusal("SIZE/p2", f"A{before + 1}", size=size, wanted=wanted)
    if wrong := wrong_attributes(public, parent):
        raise Refusal("ATTRIBUTES/p2", f"A{before + 2}", wrong=wrong, public=public)
    is_null, signs = public.scheme == ALG_NULL, public.has(Attribute.SIGN)
    is_wrong = public.has(Attribute.RESTRICTED) if is_null else not signs
    if public.kind == KEYEDHASH and is_wrong:
        raise Refusal("SCHEME/p2", f"A{before + 3}", case="NULL" if is_null else "HMAC")


def check_sensitive(template: Template, parent: Object | None) -> None:
    before = checks_before(parent) + PUBLIC_CHECKS
    public, is_given, data_size = template.public, bool(template.data), len(template.data)
    size, most = len(trimmed(template.user_auth)), digest_bytes(public.name_algorithm)
    if size > most:
        raise Refusal("SIZE/p1", f"A{before + 1}", size=size, most=most)
    generates = public.has(Attribute.SENSITIVE_DATA_ORIGIN)
    is_sealed = public.kind == KEYEDHASH and not public.has(Attribute.SIGN)
    if generates == is_given or generates and is_sealed:
        case = "empty" if not generates else "given" if is_given else "sealed"
        check = f"A{before + 2}"
        raise Refusal("ATTRIBUTES/p2", check, case=case, size=data_size, public=public)
    if public.kind == SYMCIPHER and is_given and data_size != AES_KEY_BYTES:
        raise Refusal("SIZE/p1", f"A{before + 3}", size=data_size, wanted=AES_KEY_BYTES)


def key_bytes(template: Template) -> int:
    """Returns the size of the generated key, or 0 if the template contains the data."""
    public = template.public
    if template.data:
        return 0
    if public.kind == SYMCIPHER:
        return AES_KEY_BYTES
    is_null = public.scheme == ALG_NULL
    return digest_bytes(public.name_algorithm if is_null else public.scheme)


def made(template: Template, key: bytes, seed_value: bytes) -> tuple[Public, Sensitive]:
    """Returns the public area and the sensitive area; the field `unique` of the public area binds
    it to the sensitive area.
    """
    public = template.public
    data = template.data or key
    unique = digest(public.name_algorithm, seed_value + data)
    sensitive = Sensitive(public.kind, trimmed(template.user_auth), seed_value, data)
    return replace(public, unique=unique), sensitive


def primary(template: Template, hierarchy: int, seed: bytes) -> Object:
    """Returns the primary object that results from a template and a hierarchy's seed. The same
    template and seed always give the same object.
    """
    algorithm = template.public.name_algorithm
    size = digest_bytes(algorithm)
    texts = template.public.text, b"".join(map(sized, template.values))
    newer, older = (digest(algorithm, it) for it in texts)
    given = kdfa(algorithm, seed, b"PRIMARY", newer, older, size + key_bytes(template))
    public, sensitive = made(template, key=given[size:], seed_value=given[:size])
    return loaded(public, sensitive, hierarchy, number(hierarchy, 4))


def created(template: Template, random: bytes) -> tuple[Public, Sensitive, int]:
    """Returns the areas of an ordinary object, and the number of random bytes drawn for its key and
    seed.
    """
    key = random[: key_bytes(template)]
    size = len(key) + digest_bytes(template.public.name_algorithm)
    return *made(template, key, seed_value=random[len(key) : size]), size


def creation_data(
    template: Template, parent: Object | None, hierarchy: int, values: bytes, locality: int
) -> bytes:
    """Returns TPMS_CREATION_DATA (Part 2, section 15.1), for the current PCR values."""
    if parent is None:
        of_parent = number(ALG_NULL, 2) + 2 * sized(number(hierarchy, 4))
    else:
        of_parent = number(parent.public.name_algorithm, 2)
        of_parent += sized(parent.name) + sized(parent.qualified_name)
    return (
        frames.selection(*template.pcrs)
        + sized(digest(template.public.name_algorithm, values))
        + number(1 << locality, 1)
        + of_parent
        + sized(template.outside_info)
    )


def creation_ticket(hierarchy: int, proof: bytes, name: bytes, creation_hash: bytes) -> bytes:
    """Returns the ticket that proves, only to this device, that it created an object with this Name
    (Part 2, 10.7.3).
    """
    text = number(frames.ST_CREATION, 2) + name + creation_hash
    return frames.ticket(frames.ST_CREATION, hierarchy, mac(SHA256, proof, text))


# Private areas: an HMAC, the initial vector, and the encrypted sensitive area (Part 1, 22.4).


def encrypting_key(parent: Object, name: bytes) -> bytes:
    """Returns the key that encrypts the sensitive area. It differs for each object, since it
    depends on the object's Name.
    """
    algorithm, seed = parent.public.name_algorithm, parent.sensitive.seed_value
    return kdfa(algorithm, seed, b"STORAGE", name, b"", AES_KEY_BYTES)


def integrity(parent: Object, protected: bytes, name: bytes) -> bytes:
    algorithm, seed = parent.public.name_algorithm, parent.sensitive.seed_value
    key = kdfa(algorithm, seed, b"INTEGRITY", b"", b"", digest_bytes(algorithm))
    return mac(algorithm, key, protected + name)


def wrapped(
    parent: Object,
    name: bytes,
    sensitive: Sensitive,
    iv: bytes,
    block_cipher: aes.BlockCipher = encrypt_block,
) -> bytes:
    key = encrypting_key(parent, name)
    text = aes.cfb_encrypt(key, iv, sized(sensitive.text), block_cipher)
    protected = sized(iv) + text
    return sized(integrity(parent, protected, name)) + protected


def read_sensitive(fields: Parameters) -> Sensitive:
    kind, buffers = fields.number(2), (fields.sized(DIGEST_BYTES), fields.sized(DIGEST_BYTES))
    return Sensitive(kind, *buffers, fields.sized(DATA_BYTES))


def unwrapped(
    parent: Object, public: Public, private: bytes, block_cipher: aes.BlockCipher = encrypt_block
) -> Sensitive:
    """Returns the sensitive area in a private area that the parent made for this public area."""
    name, fields = public.name, Fields(private)
    refusal = partial(Refusal, "INTEGRITY/p1", "A5")
    try:
        given = fields.sized()
    except Short:
        raise refusal(case="cut") from None
    protected, wanted = fields.data, integrity(parent, fields.data, name)
    if given != wanted:
        areas = {"protected": protected, "public": public}
        raise refusal(case="other", wanted=wanted, given=given, **areas)
    try:
        sensitive = decrypted(parent, name, fields, block_cipher)
    except (Short, Refusal):
        raise refusal(case="content", protected=protected) from None
    if sensitive.kind != public.kind:
        raise refusal(case="content", protected=protected)
    return sensitive


def decrypted(
    parent: Object, name: bytes, fields: Fields, block_cipher: aes.BlockCipher
) -> Sensitive:
    """Returns the sensitive area in the fields after the integrity value of a private area."""
    iv = fields.sized()
    if len(iv) != aes.BLOCK:
        raise Short
    text = aes.cfb_decrypt(encrypting_key(parent, name), iv, fields.data, block_cipher)
    parameters = Parameters(text)
    sensitive = parameters.structure(read_sensitive)
    parameters.end()
    return sensitive
