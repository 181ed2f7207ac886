"""Makes sealed_to_pcrs.tpm. Sealed data with an authPolicy of TPM2_PolicyPCR over PCR 10: a trial
session computes the digest, and a policy session authorizes TPM2_Unseal while PCR 10 has the same
value.
"""

from tpmsim.standard import digests
from tests.common.vocabulary import CC, digest, HERE, ObjectAttribute, policy, RH_NULL, RH_OWNER
from tests.common.vocabulary import sealed, selection, SHA256, storage_key, Teller, zeros

CHOSEN = [(SHA256, [10])]
SECRET = b"the secret"

tpm = Teller(__name__, __doc__)


def measured():
    tpm.accepted('PCR 10 is extended by an event, "program"', tpm.event(b"program", b"", pcr=10))


def extend(pcr):
    return tpm.prepare(CC.PCR_Extend, [pcr], digests((SHA256, b"\1" * 32)), b"")


def policy_session(what="A policy session"):
    session = tpm.policy(what)
    tpm("TPM2_PolicyPCR").pcrs(session, CHOSEN)
    return session


measured()
trial = tpm.trial("A trial session")
tpm("TPM2_PolicyPCR").pcrs(trial, CHOSEN)
value = digest(SHA256, bytes(32) + digest(SHA256, b"program"))
AUTH_POLICY = policy.after_pcr(SHA256, bytes(32), selection(*CHOSEN), digest(SHA256, value))
tpm.digest_is("TPM2_PolicyGetDigest: it will be the authPolicy", trial, AUTH_POLICY)
tpm("The trial session is flushed").flush(trial)
parent = tpm.create_primary("A storage key", RH_OWNER, storage_key())
said = tpm("TPM2_Create of sealed data with this authPolicy, and without userWithAuth")
template = sealed(attributes=HERE | ObjectAttribute.NO_DA, auth_policy=AUTH_POLICY)
made = said.create(parent, template, data=SECRET, pcrs=CHOSEN)
handle = tpm.load("TPM2_Load", parent, made)

tpm.chapter("PCR 10 is unchanged.")
tpm("By a password: AUTH_UNAVAILABLE").unsealing(handle)
plain = tpm.start("An HMAC session")
tpm("TPM2_Unseal in the HMAC session: AUTH_UNAVAILABLE").unsealing(handle, plain)
session = tpm.policy("A policy session")
tpm("Before TPM2_PolicyPCR: POLICY_FAIL/s1").unsealing(handle, session)
tpm("TPM2_PolicyPCR").pcrs(session, CHOSEN)
tpm.unseal("TPM2_Unseal", handle, SECRET, session)
tpm.digest_is("The assertion counts only once: the digest is zeros", session, zeros(session))
tpm("TPM2_Unseal again: POLICY_FAIL/s1").unsealing(handle, session)
tpm("TPM2_PolicyPCR again").pcrs(session, CHOSEN)
tpm.unseal("TPM2_Unseal", handle, SECRET, session)

tpm.chapter("PCR 10 is extended between the assertion and its use.")
tpm("TPM2_PolicyPCR").pcrs(session, CHOSEN)
tpm.says("TPM2_PCR_Extend of PCR 10: SUCCESS", extend(10))
tpm("TPM2_Unseal: PCR_CHANGED").unsealing(handle, session)
tpm("TPM2_Unseal again: PCR_CHANGED").unsealing(handle, session)
tpm.digest_is("The policy digest is unchanged", session, AUTH_POLICY)
tpm("TPM2_PolicyPCR in this session: PCR_CHANGED").pcrs(session, CHOSEN)
tpm.restarts(session)
tpm("TPM2_PolicyPCR, which makes another digest").pcrs(session, CHOSEN)
tpm("TPM2_Unseal: POLICY_FAIL/s1").unsealing(handle, session)
other = policy_session("A new session")
tpm("TPM2_Unseal: POLICY_FAIL/s1").unsealing(handle, other)
tpm.restarts(other)
said = tpm("TPM2_PolicyPCR with the digest of the value of then: VALUE/p1")
said.pcrs(other, CHOSEN, digest(SHA256, value))
tpm("TPM2_Unseal: POLICY_FAIL/s1").unsealing(handle, other)

tpm.chapter("The next start with the same measurement.")
tpm.power_cycle()
tpm.forget(handle, parent)
measured()
parent = tpm.create_primary("The same storage key", RH_OWNER, storage_key())
handle = tpm.load("TPM2_Load", parent, made)
session = policy_session()
tpm.unseal("TPM2_Unseal", handle, SECRET, session)

tpm.chapter("Any change of a PCR counts, also of one that is not chosen; the value is the same.")
for what, prepared in (
    ("TPM2_PCR_Extend of PCR 23", extend(23)),
    ("TPM2_PCR_Reset of PCR 16", tpm.reset(b"")),
    ("TPM2_PCR_Event into PCR 0", tpm.event(b"", b"", pcr=0)),
):
    tpm("TPM2_PolicyPCR").pcrs(session, CHOSEN)
    tpm.accepted(what, prepared)
    tpm("TPM2_Unseal: PCR_CHANGED").unsealing(handle, session)
    tpm.restarts(session)
    tpm("TPM2_PolicyPCR").pcrs(session, CHOSEN)
    tpm.unseal("TPM2_Unseal", handle, SECRET, session)

tpm.chapter("Commands that change no PCR do not invalidate the policy.")
tpm("TPM2_PolicyPCR").pcrs(session, CHOSEN)
tpm.accepted("TPM2_PCR_Extend on TPM_RH_NULL", extend(RH_NULL))
tpm("TPM2_PCR_Extend of PCR 10 by no digest").prepare(CC.PCR_Extend, [10], digests(), b"")
tpm.says("Of PCR 17, which is refused here: LOCALITY", extend(17))
tpm.accepted("TPM2_PCR_Read", tpm.read_pcr(10))
tpm("TPM2_GetRandom with the session").random(2, session)
tpm.unseal("TPM2_Unseal", handle, SECRET, session)

tpm.chapter("Somebody extends PCR 10 in the moment between: the session of another caller.")
tpm("TPM2_PolicyPCR").pcrs(session, CHOSEN)
own = tpm.start("A session of the other", bind=RH_OWNER)
tpm("TPM2_PCR_Extend by it").prepare(CC.PCR_Extend, [10], digests((SHA256, bytes(32))), own)
tpm("TPM2_Unseal: PCR_CHANGED").unsealing(handle, session)
