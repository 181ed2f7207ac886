"""Makes policy_cp_hash.tpm. TPM2_PolicyCpHash: the policy authorizes only one command, with
its handles and its parameters. The parameter of TPM2_PolicyCpHash is the cpHash of that
command, with the session's hash algorithm.
"""

import hashlib

from tests.common.policy_teller import PolicyTeller
from tests.common.vocabulary import area, BY_OWNER, BY_POLICY, CC, digest_bytes, FIRST, flipped
from tests.common.vocabulary import HERE, is_trial, name_of, number, ObjectAttribute, policy
from tests.common.vocabulary import RH_ENDORSEMENT, RH_OWNER, sealed, SHA1, SHA256, sized
from tests.common.vocabulary import storage_key, zeros

tpm = PolicyTeller(__name__, __doc__, tries=True)


def says(words, *hashes):
    tpm.says(words, *(tpm.cp_hash_told(session, it) for it in hashes))


def texts(words, *those):
    tpm.texts(words, CC.PolicyCpHash, session, *those)


def writes(data=b"data", offset=0):
    return tpm.writing(FIRST, data, session, offset=offset)


for session in tpm.each_session():
    algorithm, size = session.algorithm, digest_bytes(session.algorithm)
    one, other = bytes([1]) * size, bytes([2]) * size
    case = "A cpHashA with another size than a digest: none, a byte, a byte too few: SIZE/p1"
    says(case, b"", b"\1", bytes(size - 1))
    if algorithm == SHA1:
        says("A byte too many, and one of SHA-256: SIZE/p1", bytes(21), bytes(32))
    else:
        says("A cpHashA of SHA-1: SIZE/p1", bytes(20))
    texts("Over 32 bytes, whole or cut: SIZE/p1", sized(bytes(33)), b"\0\x21", b"\xff\xff")
    case = "Cut: no size, half of it, no bytes and one too few: INSUFFICIENT/p1"
    texts(case, b"", b"\0", number(size, 2), sized(one)[:-1])
    case = "A byte after it, also after one of another size: SIZE"
    texts(case, sized(one) + b"\0", sized(b"") + b"\0")
    tpm.digest_is("The digest is zeros", session, zeros(session))

    says("A cpHash: SUCCESS", one)
    hashed = hashlib.sha1 if algorithm == SHA1 else hashlib.sha256
    once = hashed(bytes(size) + bytes.fromhex("0000016e") + one).digest()
    tpm.digest_is("The digest of the session, of the zeros, 0000016E and the cpHash", session, once)
    says("Another cpHashA, in a trial session too: CPHASH", other, bytes(size))
    says("A cpHashA of another size is refused first: SIZE/p1", b"", bytes(size - 1))
    tpm.digest_is("The digest is unchanged", session, once)
    says("The same assertion once more: SUCCESS", one)
    tpm.digest_is("The digest contains the assertion again", session)

    tpm.chapter("With TPM2_PolicySecret, which records a cpHash too.")
    outcome = "SUCCESS" if is_trial(session) else "CPHASH"
    tpm(f"Another cpHashA by TPM2_PolicySecret: {outcome}").secret(session, cp_hash=other)
    recorded, wrong = (other, one) if is_trial(session) else (one, other)
    says("TPM2_PolicyCpHash of the one that is not recorded: CPHASH", wrong)
    says("TPM2_PolicyCpHash of the recorded cpHash: SUCCESS", recorded)
    tpm.says("The same by TPM2_PolicySecret: SUCCESS", tpm.secret(session, cp_hash=recorded))
    tpm("None by TPM2_PolicySecret, which leaves it").secret(session)
    says("TPM2_PolicyCpHash of the other: CPHASH", wrong)
    tpm.restarts(session)
    tpm("TPM2_PolicySecret with a cpHash").secret(session, cp_hash=one)
    says("TPM2_PolicyCpHash of another: CPHASH", other)
    says("Of the same: SUCCESS", one)
    tpm.restarts(session)
    says("Nothing is recorded: any one: SUCCESS", other)
    tpm.digest_is("From zeros", session)

tpm.chapter("As a first parameter that a session encrypts, by AES and by TPM_ALG_XOR.")
session = tpm.policy("A policy session")
one = bytes([1]) * 32
once = policy.after_cp_hash(SHA256, zeros(session), one)
for name, choices in (("AES", dict(aes=True)), ("TPM_ALG_XOR", dict(xor=True))):
    other = tpm.start(f"A session, bound to TPM_RH_OWNER, with {name}", RH_OWNER, **choices)
    tpm("TPM2_PolicyCpHash").cp_hash_told(session, one, other.decrypting)
    tpm.digest_is("The digest of the session, of the cpHash in plain", session, once)
    tpm.restarts(session)

tpm.chapter(
    "A use. The Name of what is authorized is in cpHash, and has the authPolicy in it: so none "
    "has the cpHash of its own command, and the digest refuses at last. What refuses before it "
    "shows whether the cpHash held: here the locality, which has to be 1."
)
public = area(FIRST, BY_OWNER | BY_POLICY, auth_policy=policy.after_locality(SHA256, bytes(32), 2))
tpm.define("An index whose policy is that of locality 1", public)
tpm("The owner writes the index").writing(FIRST, b"data", by=RH_OWNER)
RIGHT = tpm.cp_hash(writes())
WRONG = (
    ("of other data", tpm.cp_hash(writes(b"date"))),
    ("of another offset", tpm.cp_hash(writes(offset=1))),
    ("of the owner's command", tpm.cp_hash(tpm.writing(FIRST, b"data", by=RH_OWNER))),
    ("of another command", tpm.cp_hash(tpm.extending(FIRST, b"data"))),
    ("of one bit more", flipped(RIGHT)),
)
tpm("TPM2_PolicyLocality of locality 1").locality(session, 2)
tpm.fails("TPM2_NV_Write from locality 0: LOCALITY", writes())
says('The cpHash of TPM2_NV_Write of "data" at 0: SUCCESS', RIGHT)
tpm.fails("TPM2_NV_Write of it: the cpHash holds, the locality does not: LOCALITY", writes())
said = tpm("Of other data, or at another offset, from this locality too: POLICY_FAIL/s1")
said.fails(*(writes(b"date"), writes(offset=1), writes(b""), writes(b"data\0")))
tpm("TPM2_NV_Read: POLICY_FAIL/s1").reading(FIRST, 4, session)
for words, other in WRONG:
    said = tpm("TPM2_PolicyRestart, and TPM2_PolicyLocality: SUCCESS")
    said.says(tpm.restart(session), tpm.locality(session, 2))
    says(f"The cpHash {words}: SUCCESS", other)
    tpm.fails('TPM2_NV_Write of "data" at 0: POLICY_FAIL/s1', writes())
tpm.locality_is(1)
tpm.fails("From locality 1: POLICY_FAIL/s1", writes())
tpm.restarts(session)
tpm("TPM2_PolicyLocality").locality(session, 2)
says("The right cpHash, which is not in the authPolicy: SUCCESS", RIGHT)
tpm.fails("TPM2_NV_Write from locality 1: POLICY_FAIL/s1", writes())
said = tpm("TPM2_PolicyRestart, and TPM2_PolicyLocality alone: SUCCESS")
said.says(tpm.restart(session), tpm.locality(session, 2))
tpm.does("TPM2_NV_Write", writes())
tpm.locality_is(0)

tpm.chapter("Conditions that are checked before the cpHash: the PCRs, and the command code.")
says("Another cpHash: SUCCESS", bytes(32))
tpm("TPM2_PolicyCommandCode of NV_Read").command_code(session, CC.NV_Read)
tpm("TPM2_PolicyPCR of no PCR").pcrs(session, [])
tpm.fails("TPM2_NV_Write: POLICY_CC/s1", writes())
tpm.accepted("TPM2_PCR_Reset of PCR 16", tpm.reset(b""))
tpm.fails("TPM2_NV_Write: PCR_CHANGED", writes())
tpm.restarts(session)

tpm.chapter("An object: sealed data whose policy is TPM2_PolicySecret of TPM_RH_ENDORSEMENT.")
parent = tpm.create_primary("A storage key", RH_OWNER, storage_key())
by_secret = policy.after_secret(SHA256, bytes(32), name_of(RH_ENDORSEMENT), b"")
attributes = HERE | ObjectAttribute.NO_DA
said = tpm("TPM2_Create")
made = said.create(parent, sealed(attributes=attributes, auth_policy=by_secret), data=b"secret")
handle = tpm.load("TPM2_Load", parent, made)
OPENS = tpm.cp_hash(tpm.unsealing(handle, session))
said = tpm("TPM2_PolicySecret with the cpHash of TPM2_Unseal, which is not in the digest")
said.secret(session, cp_hash=OPENS)
tpm.unseal("TPM2_Unseal", handle, b"secret", session)
tpm("TPM2_PolicySecret with another").secret(session, cp_hash=RIGHT)
tpm("TPM2_Unseal: POLICY_FAIL/s1").unsealing(handle, session)
says("TPM2_PolicyCpHash of TPM2_Unseal: CPHASH", OPENS)
tpm.restarts(session)
tpm("TPM2_PolicySecret with it").secret(session, cp_hash=OPENS)
says("TPM2_PolicyCpHash too, which is in the digest: SUCCESS", OPENS)
tpm("TPM2_Unseal: POLICY_FAIL/s1").unsealing(handle, session)

tpm.chapter("In a trial session that is to authorize.")
trial = tpm.trial("A trial session")
tpm("The cpHash of TPM2_Unseal").cp_hash_told(trial, OPENS)
tpm("TPM2_Unseal: ATTRIBUTES/s1").unsealing(handle, trial)
