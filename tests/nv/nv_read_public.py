"""Makes nv_read_public.tpm. TPM2_NV_ReadPublic needs no authorization. It returns the public area
with the current attributes, and the Name, which is nameAlg and the digest of the public area.
"""

from tests.common.vocabulary import area, BY_OWNER, BY_VALUE, counter, DECRYPTS, digest
from tests.common.vocabulary import digest_bytes, extended, FIRST, HASHES, LOCKS, number
from tests.common.vocabulary import NvAttribute, RH_NULL, RH_OWNER, SECOND, sized, Teller, Use

tpm = Teller(__name__, __doc__)

tpm.chapter("Each fact of a public area, in both hash algorithms.")
for algorithm, name in HASHES:
    auth_policy = b"p" * digest_bytes(algorithm)
    with_policy = area(FIRST, algorithm=algorithm, auth_policy=auth_policy)
    for what, public in (
        (f"An index of {name} with a policy", with_policy),
        ("One of no bytes", area(0x01FF_FFFF, algorithm=algorithm, size=0)),
        ("A counter", counter(FIRST, algorithm=algorithm)),
        ("An index that is extended", extended(FIRST, algorithm=algorithm)),
    ):
        tpm.define(what, public)
        answer = tpm("TPM2_NV_ReadPublic").index_public(public.index)
        text = number(public.index, 4) + number(algorithm, 2) + number(public.attributes, 4)
        text += sized(public.auth_policy) + number(public.data_size, 2)
        assert answer == sized(text) + sized(number(algorithm, 2) + digest(algorithm, text))
        tpm("The index is undefined").undefining(public.index)

tpm.chapter("Attributes that come and go, and the Name with them.")
tpm.define("An index with WRITE_STCLEAR and READ_STCLEAR", area(FIRST, BY_OWNER | LOCKS))
names = set()
for what, prepared in (
    ("TPM2_NV_Write", tpm.writing(FIRST, b"x", by=RH_OWNER)),
    ("TPM2_NV_Write again", tpm.writing(FIRST, b"y", by=RH_OWNER)),
    ("TPM2_NV_ReadLock", tpm.read_locking(FIRST, by=RH_OWNER)),
    ("TPM2_NV_WriteLock", tpm.write_locking(FIRST, by=RH_OWNER)),
):
    tpm.does(what, prepared)

    tpm.is_now("TPM2_NV_ReadPublic", FIRST)
    names.add(tpm.names[FIRST])
assert len(names) == 3
tpm.power_cycle()
tpm.is_now("After the next start", FIRST, cleared=NvAttribute.WRITELOCKED | NvAttribute.READLOCKED)
assert tpm.names[FIRST] in names

tpm.chapter("With sessions, which authorize nothing.")
tpm.define("Another index", area(SECOND, BY_VALUE), auth=b"a")
plain = tpm.start("A session that is bound to nothing", bind=RH_NULL)
encrypting = tpm.start(
    "A session that is bound to the other index, with AES", bind=SECOND, aes=True
)
tpm.is_now("With both", SECOND, plain, encrypting)
tpm.is_now("The public area encrypted", SECOND, encrypting.encrypting, plain)
tpm("With a password: HANDLE/s1").index_public(SECOND, b"a")
said = tpm("With decrypt, without a parameter: ATTRIBUTES/s1")
said.fails(tpm.index_public(SECOND, plain).but_entry(1, attributes=DECRYPTS))
tpm.fails(
    "A wrong hmac, which is no try of the index's value, but the session's key was made of that: "
    "AUTH_FAIL/s1",
    tpm.index_public(SECOND, encrypting).but_entry(1, hmac=bytes(32)),
)
said = tpm("And of the session without a key: BAD_AUTH/s1")
said.fails(tpm.index_public(SECOND, plain).but_entry(1, hmac=bytes(32)))
tpm.is_now("And it ends with the command", SECOND, Use(plain, 0))

tpm.chapter("Handles.")
right = tpm.index_public(SECOND)
case = "What is no index: the owner, PCR 0, an object, a persistent one and a session: VALUE/h1"
others = RH_OWNER, 0, 0x8000_0000, 0x8100_0000, encrypting.handle
tpm.fails(case, *(right.but(handles=[it]) for it in others))
said = tpm("Indices that are not defined: HANDLE/h1")
said.fails(*(right.but(handles=[it]) for it in (0x0100_0000, 0x0100_0003, 0x01FF_FFFF)))
tpm.fails("A byte after the handle: SIZE", right.but(parameters=b"\0"))
