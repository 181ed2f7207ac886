"""Makes order_of_session_refusals.tpm. The order of refusals of commands with sessions: many faults
are repaired one after the other. The response always reports the first remaining fault, in the
order of docs/table/order_of_refusals.md.
"""

from functools import partial

from tests.common.order import OrderTeller
from tests.common.vocabulary import CC, DECRYPTS, ENCRYPT, frames, number, RH_NULL, RH_OWNER
from tests.common.vocabulary import sized, Use, wrong_in

NULLS = [RH_NULL, RH_NULL]

tpm = OrderTeller(__name__, __doc__)
start = partial(tpm.prepare, CC.StartAuthSession)
event = partial(tpm.prepare, CC.PCR_Event, [17])
change = partial(tpm.prepare, CC.HierarchyChangeAuth, [RH_OWNER])
flush = partial(frames.command, CC.FlushContext)


def masked(tail, nonce=15, salt=b"\1", kind=b"\0"):
    return sized(bytes(nonce)) + sized(salt) + kind + tail


first = tpm.start("A session", RH_OWNER, aes=True)
second = tpm.start("Another one", RH_OWNER, aes=True)

tpm.chapter(
    "TPM2_StartAuthSession with two sessions that decrypt and encrypt; its first parameter is cut, "
    "and the hmacs of both are wrong."
)
uses = first.decrypting, second.encrypting
cut = sized(bytes(16))[:-1]
tpm.refuses_before_parameters(CC.StartAuthSession, NULLS, cut, uses)
no_type = sized(bytes(15)) + sized(b"\1") + b"\2" + frames.symmetric(False) + number(4, 2) + b"\0"
hmac = sized(bytes(15)) + sized(b"\1") + b"\0" + frames.symmetric(False) + number(4, 2)
for words, text in (
    ("The first parameter, which cannot be decrypted: INSUFFICIENT/p1", cut),
    ("It is whole, and sessionType is 02: VALUE/p3", no_type),
    ("A byte after the parameters: SIZE", hmac + b"\0"),
    ("A nonce of 15 bytes: SIZE/p1", hmac),
    ("A salt: VALUE/p2", frames.start_auth_session(bytes(16), salt=b"\1")[1]),
):
    tpm.refused(words, start(NULLS, text, *uses))
tpm.accepted("No fault is left", start(NULLS, frames.start_auth_session(bytes(16))[1], *uses))

tpm.chapter("TPM2_PCR_Event into PCR 17 from locality 0, with two sessions and a cut parameter.")
tpm.refused("PCR 24, and no sessions (tag 8001): VALUE/h1", tpm.prepare(CC.PCR_Event, [24], b""))
tpm.refuses_before_parameters(CC.PCR_Event, [17], b"\0", [first, second.decrypting])
case = "encrypt, as the first answer is no sized buffer, in the second entry: ATTRIBUTES/s2"
tpm.refused(case, wrong_in(event(b"\0", first, second.encrypting), 1, 2))
tpm.refused("A wrong password: BAD_AUTH/s1", wrong_in(event(b"\0", b"x", second.decrypting), 2))
tpm.refused("The second hmac: BAD_AUTH/s2", wrong_in(event(b"\0", b"", second.decrypting), 2))
tpm.refused("The third hmac: BAD_AUTH/s3", wrong_in(event(b"\0", b"", first, second.decrypting), 3))
for words, *texts in (
    ("The parameter that is cut: INSUFFICIENT/p1", b"\0", b"\xff\xff"),
    ("One that is too long, and a byte after it: SIZE/p1", sized(bytes(1025)) + b"\0"),
    ("A byte after it: SIZE", sized(bytes(1024)) + b"\0"),
    ("The locality: LOCALITY", sized(bytes(1024))),
):
    tpm.refused(words, *(event(it, first, second.decrypting) for it in texts))
tpm.locality_is(3)
said = tpm("From locality 3 no fault is left")
said.accepted(event(sized(bytes(1024)), first, second.decrypting))
tpm.locality_is(0)

tpm.chapter("TPM2_HierarchyChangeAuth of TPM_RH_OWNER.")
said = tpm("A wrong hmac, and a value that is too long: BAD_AUTH/s1")
said.refused(wrong_in(change(sized(bytes(33)), first), 1))
tpm.refused("That value, and a byte after it: SIZE/p1", change(sized(bytes(33)) + b"\0", first))
tpm.refused("The byte after it: SIZE", change(sized(b"abc") + b"\0", first))
tpm.accepted("No fault is left", change(sized(b"abc"), first))

tpm.chapter("TPM2_FlushContext of the first session.")
case = "With sessions (tag 8002) and nothing after the header: AUTH_CONTEXT"
tpm.raw(case, flush(b"", frames.SESSIONS))
for words, text in (
    ("No handle: INSUFFICIENT/p1", b""),
    ("A byte after a handle that is no session's: SIZE", number(RH_OWNER, 4) + b"\0"),
    ("That handle: VALUE/p1", number(RH_OWNER, 4)),
    ("A session that does not exist: HANDLE/p1", number(0x0200_0009, 4)),
    ("The session: SUCCESS", number(first.handle, 4)),
):
    tpm.raw(words, flush(text))

tpm.chapter(
    "TPM2_StartAuthSession with TPM_ALG_XOR of another hash, by a session that masks the nonce."
)
masking = tpm.start("A session with TPM_ALG_XOR", RH_OWNER, xor=True)
WRONG_HASH = number(frames.XOR, 2) + number(0x000C, 2)
OTHER_HASH = number(frames.XOR, 2) + number(frames.SHA1, 2) + number(frames.SHA256, 2)
both = Use(masking, DECRYPTS | ENCRYPT)
tpm.refused("Its hmac: BAD_AUTH/s1", wrong_in(start(NULLS, cut, both), 1))
for words, text in (
    ("The nonce, which is cut: INSUFFICIENT/p1", cut),
    ("It has 33 bytes once it is whole: SIZE/p1", masked(WRONG_HASH, 33)),
    ("sessionType 02: VALUE/p3", masked(WRONG_HASH, kind=b"\2")),
    ("A hash that does not exist, and no authHash: HASH/p4", masked(WRONG_HASH)),
    ("A byte after the parameters: SIZE", masked(OTHER_HASH + b"\0")),
    ("A nonce of 15 bytes: SIZE/p1", masked(OTHER_HASH)),
    ("A salt: VALUE/p2", masked(OTHER_HASH, 16)),
    ("Another hash than authHash: HASH/p4", masked(OTHER_HASH, 16, b"")),
):
    tpm.refused(words, start(NULLS, text, both))
same = frames.start_auth_session(bytes(16), xor=frames.SHA256)[1]
tpm.accepted("No fault is left", start(NULLS, same, both))
