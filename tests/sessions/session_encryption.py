"""Makes session_encryption.tpm. Parameter encryption with AES-128 in CFB mode: with the attribute
decrypt, the first parameter of the command is encrypted; with the attribute encrypt, the first
parameter of the response.
"""

from functools import partial

from tpmsim.standard import AES
from tests.common.policy_teller import PolicyTeller
from tests.common.session_matrix import bound_and_unbound, refuse_changes, set_owner_and_endorsement
from tests.common.vocabulary import CC, DECRYPT, DECRYPTS, ENCRYPT, frames, RH_ENDORSEMENT, RH_OWNER
from tests.common.vocabulary import sized, Use

tpm = PolicyTeller(__name__, __doc__)
set_by = partial(tpm.prepare, CC.HierarchyChangeAuth, [RH_OWNER])

set_owner_and_endorsement(tpm, 'ownerAuth is "owner"')
for bound, unbound in bound_and_unbound(tpm, AES):
    tpm(
        "The bound one authorizes TPM2_HierarchyChangeAuth of TPM_RH_OWNER and decrypts: the key "
        "of encryption has ownerAuth, which the hmac's key has not"
    ).change_auth(RH_OWNER, b"a new value", bound.decrypting)
    said = tpm("The unbound one does, to 32 bytes")
    said.change_auth(RH_OWNER, b"0123456789abcdef" * 2, unbound.decrypting)
    said = tpm("The new value authorizes as a password, and sets the first value")
    said.accepted(tpm.change_auth(RH_OWNER, b"owner", b"0123456789abcdef" * 2))
    tpm("A value of which only zeros are sent").change_auth(RH_OWNER, bytes(20), bound.decrypting)
    said = tpm("It is empty now: the unbound one has no key and no hmac, and encrypts all the same")
    said.change_auth(RH_OWNER, b"owner", unbound.decrypting)
    said = tpm("TPM2_PCR_Event into PCR 16, by the bound one|with the digests of the data in plain")
    said.event(b"event data", bound.decrypting)
    tpm("TPM2_GetRandom of 20 bytes").random(20, bound.encrypting)
    tpm("The same with the unbound session").random(20, unbound.encrypting)

tpm.chapter("Sizes. Blocks have 16 bytes, and the last may be cut.")
session = tpm.start("A session, bound to TPM_RH_OWNER", RH_OWNER, aes=True)
for count in (0, 1, 15, 16, 17, 31, 32):
    tpm(f"TPM2_GetRandom of {count} bytes").random(count, session.encrypting)
for count in (0, 1, 15, 16, 17, 1024):
    tpm(f"TPM2_PCR_Event of {count} bytes").event(b"e" * count, session.decrypting)
tpm.accepted("TPM2_PCR_Read of PCR 16", tpm.read_pcr(16))

tpm.chapter("A session that decrypts, next to the one that authorizes.")
other = tpm.start("Another session, bound to TPM_RH_ENDORSEMENT", RH_ENDORSEMENT, aes=True)
third = tpm.start("A third one, bound to nothing", aes=True, size=32)
said = tpm("With a password: it authorizes nothing, and no authorization value is in any key of it")
said.change_auth(RH_OWNER, b"owner", b"owner", session.decrypting)
said = tpm("With a password and another session")
said.change_auth(RH_OWNER, b"owner", b"owner", other, session.decrypting)
said = tpm("With a session: its nonce is in the first entry's hmac")
said.change_auth(RH_OWNER, b"owner", session, other.decrypting)
for words, *others in (
    ("If it is left out: BAD_AUTH/s1",),
    ("If it is there twice: BAD_AUTH/s1", other, other),
    ("If the first entry's own replaces it: BAD_AUTH/s1", session),
):
    changing = tpm.change_auth, RH_OWNER, b"owner", session, other.decrypting
    tpm.refused(words, tpm.with_nonces_of(others, *changing))
tpm("As the third entry of three").change_auth(RH_OWNER, b"owner", session, third, other.decrypting)
said = tpm("As the second entry of three, with a nonce of 32 bytes and an empty key")
said.change_auth(RH_OWNER, b"owner", session, third.decrypting, other)
said = tpm("If the first entry decrypts itself no other nonce is in any hmac")
said.change_auth(RH_OWNER, b"owner", session.decrypting, other, third)
changing = tpm.change_auth, RH_OWNER, b"owner", session.decrypting, other
tpm.refused("With its own nonce once more: BAD_AUTH/s1", tpm.with_nonces_of([session], *changing))
right = tpm.event(b"event data", session, other.decrypting, third)
by = session, other.decrypting, third
everywhere = tpm.with_nonces_of([other], tpm.event, b"event data", *by)
entries = [right.entries[0], everywhere.entries[1], right.entries[2]]
tpm.refused("The second entry's hmac has no other nonce: BAD_AUTH/s2", right.but(entries=entries))
tpm.accepted("Nothing was changed by the refusals", right)
tpm("The session decrypts, and then ends").change_auth(
    RH_OWNER, b"owner", session, Use(other, DECRYPT)
)
tpm("The session no longer exists: REFERENCE_S1").change_auth(
    RH_OWNER, b"owner", session, other.decrypting
)

tpm.chapter("Sessions that encrypt when nothing is authorized.")
other = tpm.start("Another session, bound to TPM_RH_ENDORSEMENT", RH_ENDORSEMENT, aes=True)
tpm("TPM2_GetRandom: the second of two").random(32, session, other.encrypting)
tpm("The first of three").random(32, other.encrypting, session, third)
tpm("The third of three, which ends").random(32, session, third, Use(other, ENCRYPT))
foreign = tpm.with_nonces_of([third], tpm.random, 32, session, third.encrypting)
said = tpm("No other nonce is in the first entry's hmac, as it authorizes nothing: BAD_AUTH/s1")
said.refused(foreign)
tpm("Without").random(32, session, third.encrypting)

tpm.chapter(
    "TPM2_StartAuthSession has a sized buffer in both directions. The new session's key is of the "
    "nonces in plain, and its nonce is drawn before the others'."
)
other = tpm.start("Another session, bound to TPM_RH_ENDORSEMENT", RH_ENDORSEMENT, aes=True)
for words, uses in (
    ("One session decrypts and encrypts", [Use(session, DECRYPTS | ENCRYPT)]),
    ("Two sessions", [session.decrypting, other.encrypting]),
    ("The other way round", [session.encrypting, other.decrypting]),
    ("Three sessions", [third, session.decrypting, other.encrypting]),
    ("One of three does both", [session, third, Use(other, DECRYPTS | ENCRYPT)]),
):
    new = tpm.start(words, RH_OWNER, size=20, aes=True, uses=uses)
    tpm("By the new session, which ends").change_auth(RH_OWNER, b"owner", Use(new, DECRYPT))

tpm.chapter("Refused commands with right hmacs.")
cut = b"", b"\0", b"\0\x01", b"\0\x20" + bytes(31), b"\0\x21" + bytes(32), b"\xff\xff"
tpm.refused(
    "decrypt, and the first parameter is cut: no size, half of it, or fewer bytes, also where it "
    "says too many: INSUFFICIENT/p1",
    *(set_by(it, session.decrypting) for it in cut),
)
said = tpm("Without decrypt a size that says too many is a fault of its own: SIZE/p1")
said.refused(set_by(b"\0\x21" + bytes(32), session), set_by(b"\xff\xff", session))
tpm.refused(
    "decrypt, and the first parameter is whole and too long: SIZE/p1",
    set_by(sized(bytes(33)), session.decrypting),
    set_by(sized(b"owner" + bytes(28)), b"owner", session.decrypting),
    tpm.event(bytes(1025), session.decrypting),
)
said = tpm("TPM2_StartAuthSession with 33 bytes: SIZE/p1")
said.prepare(CC.StartAuthSession, *frames.start_auth_session(bytes(33)), session.decrypting)
said = tpm("A byte after the first parameter, which is not encrypted: SIZE")
said.refused(set_by(sized(b"owner") + b"\0", session.decrypting))
right = tpm.change_auth(RH_OWNER, b"owner", session.decrypting)
refuse_changes(tpm, right, b"owner", "encrypted")
tpm.accepted("The right one, with the nonce that no refusal changed", right)
tpm.accepted('ownerAuth is still "owner"', tpm.change_auth(RH_OWNER, b"owner", b"owner"))
