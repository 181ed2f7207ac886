"""Makes private_areas.tpm. A private area is an integrity value, the first block of the cipher, and
the encrypted sensitive area. TPM2_Load accepts a private area if the parent made it for the public
area that is loaded with it.
"""

from dataclasses import dataclass

from tpmsim.caller import Made
from tpmsim.model import object_rules
from tpmsim.model.object_rules import Sensitive
from tpmsim.standard import aes, kdfa, KEYEDHASH
from tests.common.steps import aes_key, Steps
from tests.common.vocabulary import digest, digest_bytes, flipped, HASHES, hmac_key, mac, number
from tests.common.vocabulary import Public, sealed, SHA1, SHA256, sized, storage_key, STORES
from tests.common.vocabulary import SYMCIPHER

ZERO_BLOCK = bytes(aes.BLOCK)

tpm = Steps(__name__, __doc__)


def refused(what, parent, public, *privates):
    made = (Made(it, public, b"") for it in privates)
    tpm.says(f"{what}: INTEGRITY/p1", *(tpm.loading(parent, it) for it in made))


def parent_of(algorithm, hash_name):
    return tpm.owned(f"A storage key with nameAlg {hash_name}", storage_key(algorithm))


tpm.chapter("A private area that the device made, and that is changed on its way.")
LENGTHS = (1, "each shorter length"), (6, "shorter lengths")
for (algorithm, hash_name), (step, words) in zip(HASHES, LENGTHS):
    parent = parent_of(algorithm, hash_name)
    made = tpm.create("TPM2_Create of a byte", parent, sealed(SHA1), data=b"x")
    private, public = made.private, made.public
    case = "TPM2_Load, with one bit changed in each byte in turn"
    refused(case, parent, public, *(flipped(private, at) for at in range(len(private))))
    shorter = (private[:length] for length in range(0, len(private), step))
    refused(f"Cut to {words}", parent, public, *shorter)
    refused("With a byte after it", parent, public, private + b"\0", private + private)
    handle = tpm.load("As it is", parent, made)
    tpm.unseal("TPM2_Unseal", handle, b"x")
    tpm.flush_objects("Both objects are flushed", handle, parent)

tpm.chapter(
    "Someone knows the seed of the parent: that of a primary key follows from the hierarchy's. The "
    "private areas that he makes have the right integrity value."
)


def sensitive(data=b"forged", auth=b"", seed=b"s" * 32, kind=KEYEDHASH):
    return sized(number(kind, 2) + sized(auth) + sized(seed) + sized(data))


@dataclass(frozen=True)
class Forger:
    """Makes private areas for a public area, with the means of a forger who knows the parent's
    seed.
    """

    parent: int
    public: Public

    @property
    def known(self):
        return tpm.script.device.objects[self.parent]

    def forge(self, text, iv=b"\x5a" * aes.BLOCK, name=None, algorithm=None):
        """Returns a private area with this encrypted text. The area is computed directly from the
        equations, without object_rules.py.
        """
        seed = self.known.sensitive.seed_value
        algorithm = algorithm or self.known.public.name_algorithm
        name = self.public.name if name is None else name
        key = kdfa(algorithm, seed, b"STORAGE", self.public.name, b"", 16)
        block = iv if len(iv) == aes.BLOCK else ZERO_BLOCK
        protected = sized(iv) + aes.cfb_encrypt(key, block, text)
        key = kdfa(algorithm, seed, b"INTEGRITY", b"", b"", digest_bytes(algorithm))
        return sized(mac(algorithm, key, protected + name)) + protected

    def behind(self, rest):
        """Returns a private area with a right integrity value and arbitrary bytes after it."""
        return sized(object_rules.integrity(self.known, rest, self.public.name)) + rest

    def refused(self, what, *privates):
        refused(what, self.parent, self.public, *privates)

    def bad_text(self, what, *texts):
        self.refused(what, *map(self.forge, texts))

    def made(self, given=b"", **parts):
        """Returns an object whose sensitive area has these parts, and the object's authorization
        value.
        """
        return Made(self.forge(sensitive(**parts)), self.public, given)

    def loaded(self, what, given=b"", flushed="The object is flushed", **parts):
        return tpm.loaded(what, self.parent, self.made(given, **parts), flushed=flushed)


def integrity(forger, algorithm):
    private, name = forger.forge(sensitive()), forger.public.name
    same = Sensitive(KEYEDHASH, b"", b"s" * 32, b"forged")
    assert private == object_rules.wrapped(forger.known, name, same, b"\x5a" * aes.BLOCK)
    with forger.loaded("TPM2_Load of one") as handle:
        tpm.unseal("TPM2_Unseal: unique is not compared with it", handle, b"forged")

    tpm.chapter("The integrity value.")
    forger.refused("Without the Name", forger.forge(sensitive(), name=b""))
    forger.refused("With another Name", forger.forge(sensitive(), name=storage_key().name))
    other = SHA256 if algorithm == SHA1 else SHA1
    forger.refused("By the other hash algorithm", forger.forge(sensitive(), algorithm=other))
    size = digest_bytes(algorithm)
    value, rest = private[2 : 2 + size], private[2 + size :]
    case = "Without it, a part of it, none, and one that is longer"
    forger.refused(case, rest, *(sized(it) + rest for it in (value[:-1], b"", value + b"\0")))

    tpm.chapter("The first block of the cipher.")
    wrong = (forger.forge(sensitive(), iv=bytes(it)) for it in (0, 1, 15, 17, 32))
    forger.refused("Of 0, 1, 15, 17 and 32 bytes", *wrong)
    cut = b"", b"\0", number(16, 2), number(16, 2) + bytes(15), b"\xff\xff" * 20
    forger.refused(
        "Cut, as its size reaches too far: nothing is after the integrity value, half a size, "
        "fewer bytes than it says",
        *map(forger.behind, cut),
    )


def sensitive_area(forger):
    tpm.chapter("The sensitive area.")
    case = "Another type than that of the public area"
    types = (SYMCIPHER, 0, 1, 0x0010, 0xFFFF)
    forger.bad_text(case, *(sensitive(kind=it) for it in types))
    text = sensitive(auth=b"a")
    content = text[2:]
    case = "Too short for what is in it, at each length"
    shorter = (sized(content[:length]) for length in range(0, len(content), 3))
    forger.bad_text(case, *shorter)
    case = "Its size, and fewer bytes; no size; nothing"
    forger.bad_text(case, text[:-1], text[:2], text[:1], b"")
    forger.bad_text("A byte left over in it, and after it", sized(content + b"\0"), text + b"\0")
    case = "An authorization value and a seed of 33 bytes, and data of 129"
    long = {"auth": b"a" * 33}, {"seed": b"s" * 33}, {"data": b"d" * 129}
    forger.bad_text(case, *(sensitive(**it) for it in long))
    key = object_rules.encrypting_key(forger.known, storage_key().name)
    protected = sized(ZERO_BLOCK) + aes.cfb_encrypt(key, ZERO_BLOCK, text)
    forger.refused("Encrypted with the key of another Name", forger.behind(protected))


def values(forger):
    tpm.chapter("What is not made by TPM2_Create, and is loaded none the less.")
    for what, auth, given in (
        ('The value is "a" and two zeros, which count for nothing', b"a\0\0", b"a"),
        ("It is 32 zeros, the empty one", bytes(32), b""),
        ('It is a zero and "a"', b"\0a", b"\0a"),
    ):
        case = f"{what}: TPM2_Load"
        with forger.loaded(case, given, "The object is flushed", auth=auth) as handle:
            tpm.unseal("TPM2_Unseal", handle, b"forged")
            session = tpm.start("A session that is bound to it", bind=handle)
            tpm.unseal("TPM2_Unseal by that", handle, b"forged", session)
            tpm("By another value: BAD_AUTH/s1").unsealing(handle, b"b")
            tpm("The session is flushed").flush(session)
    said = tpm('Two objects of one Name. The value of the first is "a"')
    handle = said.load(forger.parent, forger.made(b"a", auth=b"a"))
    session = tpm.start("A session that is bound to it", bind=handle)
    twin = tpm.load('That of the second is "b"', forger.parent, forger.made(b"b", auth=b"b"))
    assert tpm.names[handle] == tpm.names[twin]
    said = tpm("To this the session is not bound: its value is in the key")
    said.unseal(twin, b"forged", session)
    with tpm.breaking(key=lambda use, handle: use.session.key):
        tpm("Without it: BAD_AUTH/s1").unsealing(twin, session)
    tpm.unseal("To the first it is", handle, b"forged", session)
    tpm("The session is flushed").flush(session)
    tpm.flush_objects("The objects are flushed", handle, twin)


def greatest_and_least(forger):
    short = Forger(forger.parent, sealed(SHA1, unique=b""))
    case = "A value that is longer than a digest of nameAlg"
    with short.loaded(case, b"a" * 32, auth=b"a" * 32) as handle:
        tpm.unseal("TPM2_Unseal", handle, b"forged")
    with forger.loaded("Neither data nor a seed", data=b"", seed=b"") as handle:
        tpm.unseal("TPM2_Unseal of nothing", handle, b"")
    case, greatest = "All of the greatest size", {"auth": b"a" * 32, "data": b"d" * 128}
    with forger.loaded(case, b"a" * 32, **greatest) as handle:
        tpm.unseal("TPM2_Unseal", handle, b"d" * 128)
    empty = Forger(forger.parent, hmac_key(scheme=SHA256, unique=b"any"))
    with empty.loaded("An HMAC key of no bytes", data=b"") as handle:
        _, answer = tpm.accepted("TPM2_HMAC", tpm.hmac(handle, b"text", SHA256))
        assert answer == sized(mac(SHA256, b"", b"text"))


def storage_key_of_chosen_seed(parent):
    forger = Forger(parent, aes_key(STORES))
    said = tpm("A storage key whose seed he chose, and whose key is of one byte")
    handle = said.load(parent, forger.made(kind=SYMCIPHER, data=b"k", seed=b"chosen"))
    made = tpm.create("TPM2_Create under it", handle, sealed(), data=b"secret")
    key = kdfa(SHA256, b"chosen", b"STORAGE", made.public.name, b"", 16)
    plain = aes.cfb_decrypt(key, made.private[36:52], made.private[52:])
    assert plain[-8:] == sized(b"secret")
    assert made.public.unique == digest(SHA256, plain[8:40] + b"secret")
    child = tpm.load("TPM2_Load", handle, made)
    tpm.unseal("TPM2_Unseal: he can read it, too", child, b"secret")
    tpm.flush_objects("All are flushed", child, handle, parent)


for algorithm, hash_name in HASHES:
    parent = parent_of(algorithm, hash_name)
    forger = Forger(parent, sealed(unique=b"u" * 32))
    integrity(forger, algorithm)
    sensitive_area(forger)
    values(forger)
    greatest_and_least(forger)
    storage_key_of_chosen_seed(parent)
