"""Makes policy_nv_written.tpm. TPM2_PolicyNvWritten: the policy requires the NV index to be
written (1), or not to be written (0). The device checks this when the session authorizes a
command.
"""

import hashlib

from tests.common.policy_teller import PolicyTeller
from tests.common.vocabulary import area, BY_OWNER, BY_POLICY, CC, counter, digest_bytes, FIFTH
from tests.common.vocabulary import FIRST, flipped, FOURTH, frames, HERE, NvAttribute
from tests.common.vocabulary import ObjectAttribute, policy, RH_OWNER, sealed, SECOND, SHA1, SHA256
from tests.common.vocabulary import storage_key, THIRD, Use, wrong_in, zeros

NO, YES = False, True
SIXTH, SEVENTH, EIGHTH = range(0x0100_0006, 0x0100_0009)
UNWRITTEN, WRITTEN = (policy.after_nv_written(SHA256, bytes(32), it) for it in (NO, YES))

tpm = PolicyTeller(__name__, __doc__, tries=True)


def says(words, *values):
    tpm.says(words, *(tpm.written_told(session, it) for it in values))


def texts(words, *those):
    tpm.texts(words, CC.PolicyNvWritten, session, *those)


def define(what, index, auth_policy, by=BY_OWNER | BY_POLICY, make=area, **more):
    tpm.define(what, make(index, by, auth_policy=auth_policy, **more))


for session in tpm.each_session():
    texts("No parameter: INSUFFICIENT/p1", b"")
    case = "Values other than 0 and 1, also with a byte after them: VALUE/p1"
    texts(case, b"\2", b"\x80", b"\xff", b"\2\0")
    texts("A byte after it: SIZE", b"\0\0", b"\1\0")
    tpm.digest_is("The digest is zeros", session, zeros(session))
    for value, other in ((NO, YES), (YES, NO)):
        hashed = hashlib.sha1 if session.algorithm == SHA1 else hashlib.sha256
        once = hashed(zeros(session) + bytes.fromhex("0000018f") + bytes([value])).digest()
        says(f"{value:d}: SUCCESS", value)
        tpm.digest_is(
            "The digest of the session, of the zeros, 0000018F and the byte", session, once
        )
        says(f"{other:d}, in a trial session too: VALUE/p1", other)
        tpm.digest_is("The digest is unchanged", session, once)
        says(f"{value:d} once more: SUCCESS", value)
        tpm.digest_is("The digest contains the assertion again", session)
        says(f"{other:d}: VALUE/p1", other)
        tpm.restarts(session)
        tpm.digest_is("The digest is zeros", session, zeros(session))

for algorithm, hash_name, index in ((SHA256, "SHA-256", FIRST), (SHA1, "SHA-1", SECOND)):
    tpm.chapter(f"An index that is written once, of {hash_name}.")
    once = policy.after_nv_written(algorithm, bytes(digest_bytes(algorithm)), NO)
    define("The policy of the index is TPM2_PolicyNvWritten of 0", index, once, algorithm=algorithm)
    session = tpm.policy("A policy session", algorithm=algorithm)
    tpm("TPM2_NV_Write without it: POLICY_FAIL/s1").writing(index, b"1", session)
    says("1, which is another policy: SUCCESS", YES)
    tpm("TPM2_NV_Write: POLICY_FAIL/s1").writing(index, b"1", session)
    tpm.restarts(session)
    says("0: SUCCESS", NO)
    tpm("TPM2_NV_Write, the first one").writing(index, b"first", session)
    tpm.digest_is("The assertion counted once: the digest is zeros", session, zeros(session))
    says("0 once more, which the session does not know better: SUCCESS", NO)
    said = tpm("TPM2_NV_Write, the second one, of anything: POLICY_FAIL/s1")
    said.fails(*(tpm.writing(index, it, session) for it in (b"other", b"first", b"")))
    tpm("TPM2_NV_Read by it: POLICY_FAIL/s1").reading(index, 5, session)
    tpm.restarts(session)
    says("1 is what holds now, and is not its policy: SUCCESS", YES)
    tpm("TPM2_NV_Write: POLICY_FAIL/s1").writing(index, b"other", session)
    tpm.read("The data are those of the first write", index, b"first", by=RH_OWNER)
    tpm("The owner may write all the same").writing(index, b"again", by=RH_OWNER)
    tpm("The session ends").flush(session)

tpm.chapter("An index that is read by its policy as soon as it is written.")
define("An index", THIRD, WRITTEN)
session = tpm.policy("A policy session")
says("1: SUCCESS", YES)
tpm("TPM2_NV_Read before it is: POLICY_FAIL/s1").reading(THIRD, 4, session)
tpm("TPM2_NV_Write: POLICY_FAIL/s1").writing(THIRD, b"data", session)
tpm("The owner writes it").writing(THIRD, b"data", by=RH_OWNER)
tpm.read("TPM2_NV_Read by the same assertion", THIRD, b"data", session)
says("1: SUCCESS", YES)
tpm("TPM2_NV_Write too").writing(THIRD, b"more", session)

tpm.chapter(
    "An index that a startup clears is not written any more, and may be written once again."
)
by_clear = NvAttribute.CLEAR_STCLEAR | BY_OWNER | BY_POLICY
define("An index with CLEAR_STCLEAR", FOURTH, UNWRITTEN, by_clear)
for words in ("TPM2_NV_Write", "After a startup it is a first one again"):
    session = tpm.policy("A policy session")
    says("0: SUCCESS", NO)
    tpm(words).writing(FOURTH, b"data", session)
    says("0: SUCCESS", NO)
    tpm("Another TPM2_NV_Write: POLICY_FAIL/s1").writing(FOURTH, b"x", session)
    tpm.power_cycle()
    tpm.read_index_public("TPM2_NV_ReadPublic: not written", FOURTH)

tpm.chapter("Defined again, an index is not written.")
define("A counter", FIFTH, UNWRITTEN, make=counter)
session = tpm.policy("A policy session")
for _ in range(2):
    says("0: SUCCESS", NO)
    tpm("TPM2_NV_Increment").incrementing(FIFTH, session)
    says("0: SUCCESS", NO)
    tpm("Once more: POLICY_FAIL/s1").incrementing(FIFTH, session)
    tpm.restarts(session)
    tpm("The index is undefined").undefining(FIFTH)
    define("The index is defined again", FIFTH, UNWRITTEN, make=counter)

tpm.chapter(
    "An object is neither written nor unwritten: with the same policy it refuses both values."
)
parent = tpm.create_primary("A storage key", RH_OWNER, storage_key())
for value, digest in ((NO, UNWRITTEN), (YES, WRITTEN)):
    template = sealed(attributes=HERE | ObjectAttribute.NO_DA, auth_policy=digest)
    made = tpm.create(f"Sealed data, with that of {value:d}", parent, template, data=b"data")
    handle = tpm.load("TPM2_Load", parent, made)
    says(f"{value:d}: SUCCESS", value)
    tpm("TPM2_Unseal: POLICY_FAIL/s1").unsealing(handle, session)
    tpm.digest_is("The digest is its authPolicy", session, digest)
    tpm.restarts(session)
    trial = tpm.trial("A trial session")
    tpm(f"{value:d}").written_told(trial, value)
    tpm("TPM2_Unseal by it: ATTRIBUTES/s1").unsealing(handle, trial)
    tpm("The session is flushed").flush(trial)
    tpm.accepted("The object is flushed", tpm.flush(handle))

tpm.chapter(
    "Its place in the order. A policy of the command code and of an index that is not "
    "written, and of locality 1; the index is written already."
)
digest = policy.after_command_code(SHA256, bytes(32), CC.NV_Write)
digest = policy.after_nv_written(SHA256, digest, NO)
digest = policy.after_locality(SHA256, digest, 2)
define("The index", SIXTH, digest)
said = tpm("The assertions: SUCCESS")
said.says(
    tpm.command_code(session, CC.NV_Write), tpm.written_told(session, NO), tpm.locality(session, 2)
)
tpm.fails("Not written: the locality refuses: LOCALITY", tpm.writing(SIXTH, b"data", session))
tpm("The owner writes it").writing(SIXTH, b"data", by=RH_OWNER)
tpm("Written: it refuses before the locality: POLICY_FAIL/s1").writing(SIXTH, b"data", session)
tpm.fails("The command code refuses before it: POLICY_CC/s1", tpm.reading(SIXTH, 4, session))
tpm("TPM2_PolicyPCR of no PCR").pcrs(session, [])
tpm.accepted("TPM2_PCR_Reset of PCR 16", tpm.reset(b""))
tpm("PCR_CHANGED comes before that code: PCR_CHANGED").reading(SIXTH, 4, session)
tpm.restarts(session)

tpm.chapter(
    "With a cpHash. Which of both is checked first cannot be seen, as both answer POLICY_FAIL; "
    "the locality after them shows whether both hold."
)
writes = tpm.writing(SIXTH, b"data", session)
right = tpm.cp_hash(writes)
for words, cp_hash, value, outcome in (
    ("both hold", right, YES, "LOCALITY"),
    ("it does not", right, NO, "POLICY_FAIL/s1"),
    ("the cpHash does not", flipped(right), YES, "POLICY_FAIL/s1"),
    ("neither does", flipped(right), NO, "POLICY_FAIL/s1"),
):
    tpm.says(
        f"A cpHash, TPM2_PolicyNvWritten and locality 1, and {words}: SUCCESS",
        tpm.cp_hash_told(session, cp_hash),
        tpm.written_told(session, value),
        tpm.locality(session, 2),
    )
    tpm.fails(f"TPM2_NV_Write: {outcome}", writes)
    tpm.restarts(session)

tpm.chapter("The role ADMIN asks for the command code before.")
define("An index", SEVENTH, UNWRITTEN)
says("0, and no command code: SUCCESS", NO)
tpm("TPM2_NV_ChangeAuth: POLICY_FAIL/s1").changing_auth(SEVENTH, b"new", session)
tpm("TPM2_NV_Write, in the role USER").writing(SEVENTH, b"data", session)

tpm.chapter("With an hmac, and by a session that ends.")
define("An index", EIGHTH, UNWRITTEN)
bound = tpm.policy("A policy session, bound to TPM_RH_OWNER", bind=RH_OWNER, xor=True)
tpm("0").written_told(bound, NO)
prepared = tpm.writing(EIGHTH, b"data", Use(bound, frames.DECRYPT))
tpm.fails("With a wrong hmac, which is compared last: BAD_AUTH/s1", wrong_in(prepared))
tpm.does("TPM2_NV_Write of a buffer that it masks", prepared)
tpm.read("The data in plain", EIGHTH, b"data", by=RH_OWNER)
tpm("The session no longer exists: REFERENCE_H0").get_digest(bound)
