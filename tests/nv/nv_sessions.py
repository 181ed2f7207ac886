"""Makes nv_sessions.tpm. NV indices and HMAC sessions: the Name of an index, which its first write
changes, is part of the HMACs and of the binding of a session.
"""

from tests.common.vocabulary import area, bits, BY_OWNER, BY_VALUE, CC, counter, DECRYPTS, ENCRYPTS
from tests.common.vocabulary import extended, FIFTH, FIRST, FOURTH, frames, HASHES, LOCKS
from tests.common.vocabulary import NvAttribute, RH_NULL, RH_OWNER, SECOND, SHA256, Teller, THIRD
from tests.common.vocabulary import wrong_in

DATA = b"8 bytes."

tpm = Teller(__name__, __doc__, tries=True)


def flush(*held):
    for each in held:
        tpm("A session is flushed: SUCCESS" if each is held[0] else "SUCCESS").flush(each)


def undefine(*indices):
    for index in indices:
        tpm("An index is undefined" if index == indices[0] else "").undefining(index)


def sent_again():
    tpm.chapter(
        "A buffer that is sent again. The index has the attributes 00040004, eight bytes and the "
        'value "a", and is written once by the password.'
    )
    tpm.define("TPM2_NV_DefineSpace", area(FIRST, BY_VALUE), auth=b"a")
    tpm("TPM2_NV_Write by the password").writing(FIRST, DATA)
    nonce = tpm.nonce()
    start = tpm.prepare(CC.StartAuthSession, *frames.start_auth_session(nonce))

    def start_session(what):
        """Starts a session, each time with the same command and the same random bytes."""
        tpm.chapter(f"{what}.")
        tpm.script.entropy(b"the start's own")
        answer = tpm.received(start, tpm.says("TPM2_StartAuthSession: SUCCESS", start))
        return tpm.started(answer, nonce, RH_NULL, SHA256, frames.SE_HMAC)

    session = start_session("A session that is bound to nothing")
    write = tpm.writing(FIRST, b"again...", session)
    tpm.does("TPM2_NV_Write by it, with continueSession", write)
    tpm.fails("The same buffer again: AUTH_FAIL/s1", write)
    tpm.read("TPM2_NV_Read", FIRST, b"again...", b"a")
    tpm("TPM2_NV_Write of something else").writing(FIRST, b"other...", b"a")
    flush(session)
    tpm.fails("The same buffer without its session: REFERENCE_S0", write)
    session = start_session("The start with the same bytes, and the same random bytes")
    tpm.does("The same buffer is a new one to this session", write)
    tpm.read("TPM2_NV_Read: it was written again", FIRST, b"again...", b"a")
    tpm.fails("And once more: AUTH_FAIL/s1", write)
    flush(session)
    tpm.script.fresh()
    undefine(FIRST)


tpm.chapter("A session that is bound to nothing: the value of the index is the key.")
for algorithm, name in reversed(HASHES):
    session = tpm.start(f"A session of {name}", algorithm=algorithm)
    for index, make, change in (
        (FIRST, area, lambda: tpm.writing(FIRST, DATA, session)),
        (SECOND, counter, lambda: tpm.incrementing(SECOND, session)),
        (THIRD, bits, lambda: tpm.setting(THIRD, 5, session)),
        (FOURTH, extended, lambda: tpm.extending(FOURTH, DATA, session)),
    ):
        public = make(index, BY_VALUE | LOCKS)
        tpm.define("TPM2_NV_DefineSpace by it, with its empty hmac", public, session, auth=b"a")
        tpm.does("The first change", change())
        tpm.does("The second", change())
        prepared = change()
        tpm.fails("A wrong hmac: AUTH_FAIL/s1", wrong_in(prepared))
        tpm.fails("None: AUTH_FAIL/s1", prepared.but_entry(1, hmac=b""))
        tpm("TPM2_NV_Read").reading(index, 8, session)
        tpm("TPM2_NV_WriteLock").write_locking(index, session)
        tpm("TPM2_NV_ReadLock").read_locking(index, session)
        tpm.fails("Another change: NV_LOCKED", change())
        tpm("TPM2_NV_Read: NV_LOCKED").reading(index, 8, session)
        tpm("TPM2_NV_UndefineSpace").undefining(index, session)
    flush(session)

tpm.chapter("An hmac of before the index was written names another index.")
tpm.define("An index", area(FIRST, BY_VALUE), auth=b"a")
session = tpm.start("A session")
before = tpm.writing(FIRST, DATA, session)
tpm("TPM2_NV_Write by the password").writing(FIRST, DATA)
tpm.fails("By the session, as prepared before: AUTH_FAIL/s1", before)
tpm("With the Name of now").writing(FIRST, DATA, session)
tpm.define("Another index with the same value", area(SECOND, BY_VALUE), auth=b"a")
prepared = tpm.writing(FIRST, DATA, session)
said = tpm("An hmac for the first, sent with the handle of the second: AUTH_FAIL/s1")
others = [FIRST, SECOND], [SECOND, FIRST], [SECOND, SECOND]
said.fails(*(prepared.but(handles=it) for it in others))
tpm.fails("With other data: AUTH_FAIL/s1", prepared.but(parameters=frames.nv_write(DATA, 1)))
tpm.does("As it was prepared", prepared)
flush(session)
undefine(FIRST, SECOND)

tpm.chapter(
    "A session that is bound to an index before its first write. The command's hmac is without "
    "the value; as the Name then differs, the response's has it in its key."
)
tpm.define("An index", area(FIRST, BY_VALUE | LOCKS), auth=b"a")
session = tpm.start("A session that is bound to it", bind=FIRST)
tpm("TPM2_NV_Write").writing(FIRST, DATA, session)
tpm("TPM2_NV_Write: the value is in both keys").writing(FIRST, DATA, session)
flush(session)

tpm.chapter("A session that is bound to it as it is written.")
session = tpm.start("A session that is bound to it", bind=FIRST)
tpm("TPM2_NV_Write changes no Name now").writing(FIRST, DATA, session)
tpm.read("TPM2_NV_Read", FIRST, DATA, session)
tpm("TPM2_NV_ReadLock does").read_locking(FIRST, session)
tpm("TPM2_NV_WriteLock").write_locking(FIRST, session)
tpm.power_cycle()
tpm.is_now("After the next start", FIRST, cleared=NvAttribute.WRITELOCKED | NvAttribute.READLOCKED)

tpm.chapter("A session that is bound to one index, and authorizes another.")
tpm.define("Another index", area(SECOND, BY_VALUE | NvAttribute.NO_DA), auth=b"b")
session = tpm.start("A session that is bound to the first", bind=FIRST)
tpm("TPM2_NV_Write of the second").writing(SECOND, DATA, session)
tpm("TPM2_NV_Write of the first").writing(FIRST, DATA, session)


def is_wrong(words, prepared):
    tpm.fails(words, prepared.but_entry(1, hmac=bytes(32)))


case = "A wrong hmac on the second, which has NO_DA, is a try at the first: AUTH_FAIL/s1"
is_wrong(case, tpm.writing(SECOND, DATA, session))
other = tpm.start("A session that is bound to the second", bind=SECOND)
is_wrong(
    "A wrong hmac by it on the second is not a try: BAD_AUTH/s1", tpm.writing(SECOND, DATA, other)
)
is_wrong("On the first it is: AUTH_FAIL/s1", tpm.writing(FIRST, DATA, other))
case = "A wrong hmac by the first session on TPM_RH_OWNER: AUTH_FAIL/s1"
is_wrong(case, tpm.undefining(FIRST, session))
is_wrong("And by the second: BAD_AUTH/s1", tpm.undefining(FIRST, other))
tpm("A wrong password of the second: BAD_AUTH/s1").reading(SECOND, 1, b"x")
tpm("Of the first: AUTH_FAIL/s1").reading(FIRST, 1, b"x")
flush(session, other)
undefine(FIRST, SECOND)

tpm.chapter("Parameters that are encrypted.")
tpm('ownerAuth becomes "owner"').change_auth(RH_OWNER, b"owner", b"")
owner = tpm.start("A session that is bound to TPM_RH_OWNER, with AES", bind=RH_OWNER, aes=True)
for index, make in ((FIRST, area), (SECOND, extended), (THIRD, bits), (FOURTH, counter)):
    what = "TPM2_NV_DefineSpace with auth encrypted" if index == FIRST else ""
    tpm.define(what, make(index, BY_VALUE), owner.decrypting, auth=b"hidden")
tpm("The value is the one that was sent: TPM2_NV_Write").writing(FIRST, b"x")
session = tpm.start("A session that is bound to the first index, with AES", bind=FIRST, aes=True)
plain = tpm.start("A session that is bound to nothing, with AES", aes=True)
for name, use in (("the bound session", session), ("the other", plain)):
    tpm(f"TPM2_NV_Write with its data encrypted by {name}").writing(FIRST, DATA, use.decrypting)
    tpm.read("TPM2_NV_Read with its answer encrypted", FIRST, DATA, use.encrypting)
    tpm("TPM2_NV_Extend").extending(SECOND, DATA, use.decrypting)
    tpm.is_now("TPM2_NV_ReadPublic", SECOND, use.encrypting)
said = tpm("The password authorizes, and a session next to it encrypts")
said.writing(FIRST, b"8 others", b"hidden", session.decrypting)
tpm.read("So in TPM2_NV_Read", FIRST, b"8 others", b"hidden", owner.encrypting)
tpm.read("One session authorizes, another encrypts", FIRST, b"8 others", plain, owner.encrypting)
tpm("No bytes to encrypt").writing(FIRST, b"", session.decrypting, offset=3)
whole = bytes(range(256)) * 4
said = tpm("An index of 1,024 bytes")
said.define(area(FIFTH, BY_VALUE, size=1024), owner.decrypting, auth=b"long")
tpm("TPM2_NV_Write of 1,024 bytes that are encrypted").writing(FIFTH, whole, session.decrypting)
tpm.read("TPM2_NV_Read", FIFTH, whole, session.encrypting)


def bent(attributes, *prepared):
    return [it.but_entry(1, attributes=attributes) for it in prepared]


read = tpm.reading(FIRST, 8, session)
write = tpm.writing(FIRST, DATA, session)
changes = tpm.setting(THIRD, 1, session), tpm.incrementing(FOURTH, session)
others = tpm.write_locking(FIRST, session), tpm.undefining(FIRST, owner)
tpm.fails(
    "decrypt, but the first parameter is no sized buffer or missing: TPM2_NV_Read, "
    "TPM2_NV_SetBits, TPM2_NV_Increment, TPM2_NV_WriteLock and TPM2_NV_UndefineSpace: "
    "ATTRIBUTES/s1",
    *bent(DECRYPTS, read, *changes, *others),
)
others = tpm.extending(SECOND, DATA, session), tpm.defining(area(0x0100_0006), owner)
tpm.fails(
    "encrypt, but nothing is answered: TPM2_NV_Write, TPM2_NV_Extend and TPM2_NV_DefineSpace: "
    "ATTRIBUTES/s1",
    *bent(ENCRYPTS, write, *others),
)
none = tpm.start("A session without AES", bind=FIRST)
said = tpm("It cannot encrypt: SYMMETRIC/s1")
written, read = tpm.writing(FIRST, DATA, none), tpm.reading(FIRST, 8, none)
said.fails(*bent(DECRYPTS, written), *bent(ENCRYPTS, read))
said = tpm("Data that are cut, and decrypted: INSUFFICIENT/p1")
said.prepare(CC.NV_Write, [FIRST, FIRST], b"\0\4abc", session.decrypting)
flush(session, plain, none, owner)
undefine(FIRST, SECOND, THIRD, FOURTH, FIFTH)
tpm("ownerAuth is empty again").change_auth(RH_OWNER, b"", b"owner")

tpm.chapter("TPM2_StartAuthSession and TPM2_PolicySecret of an index.")
tpm.define("An index", area(FIRST, BY_VALUE), auth=b"a")
start = tpm.prepare(CC.StartAuthSession, *frames.start_auth_session(bytes(16), SECOND))
tpm.fails("Bound to what is not there: HANDLE/h2", start)
session = tpm.start("A session that is bound to the index", bind=FIRST)
secret = tpm.policy("A policy session")
tpm("TPM2_PolicySecret of the index by the session").secret(secret, session, of=FIRST)
tpm("TPM2_NV_Write by it").writing(FIRST, DATA, session)
tpm("TPM2_PolicySecret: it has another Name").secret(secret, session, of=FIRST)
tpm("A wrong password: AUTH_FAIL/s1").secret(secret, b"x", of=FIRST)
flush(session, secret)
only = area(SECOND, BY_OWNER | NvAttribute.AUTHWRITE)
tpm.define("An index that its value can only write", only, auth=b"a")
secret = tpm.policy("A policy session")
said = tpm("TPM2_PolicySecret asks for what TPM2_NV_Read does: AUTH_UNAVAILABLE")
said.secret(secret, b"a", of=SECOND)
flush(secret)
undefine(FIRST, SECOND)

sent_again()
