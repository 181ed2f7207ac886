"""Makes xor_sessions.tpm. TPM_ALG_XOR: the first parameter of the command or of the response is
XORed with a mask of the same size, KDFa(authHash, sessionKey || authValue, "XOR", nonceNewer,
nonceOlder, bits).

Each mask is computed only with hashlib and hmac, without sessions.py. Parameters are masked here,
and responses are compared byte for byte.
"""

import hashlib

from tpmsim.standard import COMMAND_BYTES, XOR
from tests.common.hashed_sessions import HASHES, kdfa
from tests.common.script import RANDOM_BYTES, SEED_BYTES
from tests.common.session_matrix import bound_and_unbound, refuse_changes
from tests.common.vocabulary import area, AUTH_VALUE, CC, CONTINUE_SESSION, DECRYPT, DECRYPTS
from tests.common.vocabulary import ENCRYPT, ENCRYPTS, FIRST, frames, hmac_key, number, PASSWORD
from tests.common.vocabulary import policy, RH_ENDORSEMENT, RH_OWNER, SE_TRIAL, sealed, SHA1
from tests.common.vocabulary import SHA256, sized, storage_key, Teller, Use

BOTH = DECRYPTS | ENCRYPT
OWNER_AUTH = b"owner"

# Sizes of a first parameter: none, one byte, the sizes of the digests, one byte more than a digest,
# and the maximum.
SIZES = 0, 1, 20, 21, 32, 33, 1024

tpm = Teller(__name__, __doc__, tries=True)


def mask(use, newer, older, size, auth_value):
    key = use.session.key + auth_value
    return kdfa(HASHES[use.session.algorithm], key, b"XOR", newer, older, size)


def exclusive_or(left, right):
    assert len(left) == len(right)
    return bytes(a ^ b for a, b in zip(left, right))


def first_buffer(text):
    """Returns the content of the sized buffer at the beginning of some parameters."""
    return text[2 : 2 + int.from_bytes(text[:2], "big")]


def is_masked(prepared, plain, place=1, auth_value=b""):
    """Checks that a command's first parameter is `plain`, masked with both nonces."""
    use = prepared.uses[place - 1]
    wanted = mask(use, use.nonce, use.session.nonce_tpm, len(plain), auth_value)
    assert first_buffer(prepared.parameters) == exclusive_or(plain, wanted)


def masking(what, prepared, plain, place=1, auth_value=b""):
    """Sends a command with a masked first parameter. The command must be accepted. Returns its
    response.
    """
    is_masked(prepared, plain, place, auth_value)
    return tpm.accepted(what, prepared)[1]


def masked(what, prepared, plain, place=1, auth_value=b""):
    """Sends a command. The first parameter of the response must be `plain`, masked with the
    device's new nonce and the caller's nonce.
    """
    use = prepared.uses[place - 1]
    tpm.accepted(what, prepared)
    given = first_buffer(tpm.last.response[14:])
    wanted = mask(use, use.session.nonce_tpm, use.nonce, len(given), auth_value)
    assert len(given) == len(plain) and exclusive_or(given, wanted) == plain, what
    assert not plain or given != plain


def drawn(count):
    """Returns the random bytes that the next TPM2_GetRandom returns, which depend on the next seed."""
    seed = hashlib.sha256(b"entropy %d" % (tpm.script.seeds + 1)).digest()[:SEED_BYTES]
    return (seed * RANDOM_BYTES)[:count]


def both_ways(what, attributes, *more, to, back, auth_values):
    """Sends TPM2_HMAC. Entry number `to` masks its data, and entry number `back` its response."""
    prepared = tpm.hmac(key, TEXT, SHA256, Use(session, attributes), *more)
    is_masked(prepared, TEXT, to, auth_values[0])
    masked(what, prepared, KNOWN, back, auth_values[1])


def of_size(size):
    """Returns a TPM2_PCR_Event with an entry whose nonce and HMAC are both empty."""
    entries = [frames.entry(empty.handle, b"", DECRYPTS)]
    return frames.on_handle(CC.PCR_Event, 16, sized(bytes(size)), entries)


tpm.accepted('ownerAuth is "owner"', tpm.change_auth(RH_OWNER, OWNER_AUTH, b""))
tpm.define("An index of 1,024 bytes", area(FIRST, size=1024), OWNER_AUTH, auth=b"index")

for bound, unbound in bound_and_unbound(tpm, XOR, "Bound to nothing, and so with an empty key"):
    for size in SIZES:
        data = bytes(it * 7 % 256 for it in range(size))
        case = f"TPM2_PCR_Event of {size:,} bytes, with the digests of them in plain"
        answer = masking(case, tpm.event(data, bound.decrypting), data)
        digests = number(2, 4) + number(SHA1, 2) + hashlib.sha1(data).digest()
        assert answer == digests + number(SHA256, 2) + hashlib.sha256(data).digest()
        masking("By the unbound one", tpm.event(data, unbound.decrypting), data)
    for size in (0, 1, 20, 21, 32):
        masked(f"TPM2_GetRandom of {size} bytes", tpm.random(size, bound.encrypting), drawn(size))
        masked("By the unbound one", tpm.random(size, unbound.encrypting), drawn(size))
    for size in SIZES:
        data = bytes(size) if size == 33 else bytes(it * 11 % 256 for it in range(size))
        case = f"TPM2_NV_Write of {size:,} bytes by the index itself, whose value is in the key"
        masking(case, tpm.writing(FIRST, data, bound.decrypting), data, auth_value=b"index")
        case = "TPM2_NV_Read of them, by the unbound session"
        masked(case, tpm.reading(FIRST, size, unbound.encrypting), data, auth_value=b"index")
    tpm.read("In plain", FIRST, bytes(it * 11 % 256 for it in range(1024)))
    changing = tpm.change_auth(RH_OWNER, b"another", bound.decrypting)
    case = "TPM2_HierarchyChangeAuth by the bound one: ownerAuth is in the key of the mask, which"
    masking(f"{case} is not in that of the hmac", changing, b"another", auth_value=OWNER_AUTH)
    changing = tpm.change_auth(RH_OWNER, OWNER_AUTH, unbound.decrypting)
    masking("And back, by the unbound one", changing, OWNER_AUTH, auth_value=b"another")

tpm.chapter("Both directions of one command, with one session and with two.")
session = tpm.start("A session, bound to TPM_RH_OWNER", RH_OWNER, xor=True)
other = tpm.start("Another one, bound to TPM_RH_ENDORSEMENT", RH_ENDORSEMENT, xor=True)
parent = tpm.create_primary("A storage key", RH_OWNER, storage_key(), OWNER_AUTH)
said = tpm('An HMAC key, whose value is "key"')
key = said.create(parent, hmac_key(), user_auth=b"key", data=b"Jefe")
key = tpm.load("TPM2_Load", parent, key)
TEXT = b"what do ya want for nothing?"
KNOWN = bytes.fromhex("5bdcc146bf60754e6a042426089575c75a003f089d2739839dec58b964ec3843")
case = "TPM2_HMAC of 28 bytes: the nonces are exchanged between both, and the device's is new"
both_ways(case, BOTH, to=1, back=1, auth_values=(b"key", b"key"))
case = "The second entry unmasks, in which nothing is authorized"
both_ways(case, ENCRYPTS, other.decrypting, to=2, back=1, auth_values=(b"", b"key"))
case = "The other way round"
both_ways(case, DECRYPTS, other.encrypting, to=1, back=2, auth_values=(b"key", b""))
aes = tpm.start("A session with AES", RH_ENDORSEMENT, aes=True)
sha1 = tpm.start("One with SHA-1", RH_ENDORSEMENT, algorithm=SHA1, size=20, xor=True)
prepared = tpm.hmac(key, TEXT, SHA256, session.encrypting, aes.decrypting)
masked("AES in, TPM_ALG_XOR back", prepared, KNOWN, 1, b"key")
prepared = tpm.hmac(key, TEXT, SHA256, session.decrypting, aes.encrypting)
answer = masking("TPM_ALG_XOR in, AES back", prepared, TEXT, auth_value=b"key")
assert answer == sized(KNOWN)
case = "A mask of SHA-1 in a command whose first hmac is of SHA-256"
both_ways(case, CONTINUE_SESSION, Use(sha1, BOTH), to=2, back=2, auth_values=(b"", b""))
tpm.accepted("The key is flushed", tpm.flush(key))

tpm.chapter("What an object answers.")
said = tpm('Sealed data, whose value is "value"')
made = said.create(parent, sealed(), user_auth=b"value", data=b"s" * 128)
handle = tpm.load("TPM2_Load", parent, made)
case = "TPM2_Unseal through the session: the data, with the mask on them"
masked(case, tpm.unsealing(handle, session.encrypting), b"s" * 128, auth_value=b"value")
case = "With the password"
masked(case, tpm.unsealing(handle, b"value", other.encrypting), b"s" * 128, place=2)
template = sealed(auth_policy=policy.after_auth_value(SHA256, bytes(32)))
for name, made_by, demand in (
    ("TPM2_PolicyAuthValue", tpm.auth_value_told, AUTH_VALUE),
    ("TPM2_PolicyPassword", tpm.password_told, PASSWORD),
):
    told = tpm.policy(f"A policy session, for {name}", bind=RH_ENDORSEMENT, xor=True)
    said = tpm("TPM2_Create of data with that policy")
    made = said.create(parent, template, user_auth=b"pin", data=b"behind a policy")
    by_policy = tpm.load("TPM2_Load", parent, made)
    tpm.says(f"{name}: SUCCESS", made_by(told))
    unsealing = tpm.unsealing(by_policy, Use(told, ENCRYPTS, demand=demand))
    case = "TPM2_Unseal: its value is in the key of the mask, whatever the policy demands"
    masked(case, unsealing, b"behind a policy", auth_value=b"pin")
    tpm.accepted("The session is flushed", tpm.flush(by_policy))
    tpm.accepted("And the session", tpm.flush(told))
trial = tpm.start("A trial session", kind=SE_TRIAL, xor=True)
masked("TPM2_GetRandom by it", tpm.random(32, trial.encrypting), drawn(32))
tpm.accepted("The session is flushed", tpm.flush(trial))

tpm.chapter(
    "TPM2_StartAuthSession has a sized buffer in both directions, and a nonce that is masked is "
    "that of the new session's key in plain."
)
new = tpm.start("One session does both", RH_OWNER, size=20, xor=True, uses=[Use(session, BOTH)])
tpm("By the new session").change_auth(RH_OWNER, OWNER_AUTH, Use(new, DECRYPT))

tpm.chapter(
    "The longest first buffer that a command can hold. It is unmasked whole, and is too long then; "
    "so is one of 1,025 bytes."
)
empty = tpm.start("A session that is bound to nothing, with an empty key", xor=True)
LONGEST = COMMAND_BYTES - len(of_size(0))
assert (LONGEST, len(of_size(LONGEST))) == (4067, 4096)
for size in (1025, LONGEST):
    tpm.raw(f"TPM2_PCR_Event of {size:,} bytes: SIZE/p1", of_size(size), fresh=True)
tpm.raw("And of one byte more: COMMAND_SIZE", of_size(LONGEST + 1), fresh=True)
room = COMMAND_BYTES - len(tpm.event(b"", session.decrypting).buffer())
tpm(f"With a nonce and an hmac, of {room:,} bytes: SIZE/p1").event(bytes(room), session.decrypting)
case = "What is cut cannot be unmasked: no size, half of it, and a byte too few: INSUFFICIENT/p1"
cut = b"", b"\0", number(21, 2) + bytes(20), number(LONGEST, 2) + bytes(1024)
tpm.refused(case, *(tpm.prepare(CC.PCR_Event, [16], it, session.decrypting) for it in cut))
masking("Of 1,024 bytes", tpm.event(bytes(1024), session.decrypting), bytes(1024))

tpm.chapter("What is refused, with right hmacs.")
said = tpm("TPM_ALG_XOR of SHA-1 for a session of SHA-256: HASH/p4")
said.refused(tpm.prepare(CC.StartAuthSession, *frames.start_auth_session(bytes(16), xor=SHA1)))
assert tpm.last.response == bytes.fromhex("80010000000a000004c3")
right = tpm.event(b"event data", session.decrypting)
refuse_changes(tpm, right, b"event data", "masked")
said = tpm("A second session that unmasks: ATTRIBUTES/s2")
said.event(b"event data", session.decrypting, other.decrypting)
resets = [tpm.reset(Use(session, it)) for it in (DECRYPTS, ENCRYPTS)]
said = tpm("decrypt and encrypt without such a buffer: ATTRIBUTES/s1")
said.refused(*resets, tpm.event(b"event data", session.encrypting))
masking("No refusal has changed its nonce", right, b"event data")
plain = tpm.start("A session without a cipher", RH_OWNER)
tpm("It masks nothing: SYMMETRIC/s1").event(b"event data", plain.decrypting)

tpm.chapter("The cipher of an object is AES, and no TPM_ALG_XOR.")
template = storage_key().text
assert template.count(frames.symmetric(aes=True)) == 1
for words, cipher in (
    ("SHA-256", frames.symmetric(xor=SHA256)),
    ("SHA-1", frames.symmetric(xor=SHA1)),
    ("a wrong hash", number(frames.XOR, 2) + number(0x000C, 2)),
    ("no hash", number(frames.XOR, 2)),
):
    text = template.replace(frames.symmetric(aes=True), cipher)
    parameters = frames.creation(frames.sensitive_create(), sized(text))
    said = tpm(f"A storage key with TPM_ALG_XOR and {words}: SYMMETRIC/p2")
    said.refused(tpm.prepare(CC.CreatePrimary, [RH_OWNER], parameters, OWNER_AUTH))
