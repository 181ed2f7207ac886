"""Makes long_policy.tpm. A policy of many assertions. A trial session gets the same digest as a
policy session, although no assertion needs to hold yet.
"""

from tests.common.policy_teller import PolicyTeller
from tests.common.vocabulary import CC, digest, HASHES, RH_OWNER, SHA1, SHA256, zeros

BANKS = [(SHA1, [0, 7]), (SHA256, [0, 1, 2, 3, 4, 5, 6, 7, 8])]
REFERENCE = b"first of January"

tpm = PolicyTeller(__name__, __doc__)


def both(what, tell):
    """Makes the same assertion in the trial session and in the policy session."""
    tpm.says(f"{what}: SUCCESS", tell(trial), tell(session))


for pcr in (0, 4, 7, 8):
    tpm.accepted(f"TPM2_PCR_Event into PCR {pcr}", tpm.event(b"boot %d" % pcr, b"", pcr=pcr))
tpm.accepted('ownerAuth is "owner"', tpm.change_auth(RH_OWNER, b"owner", b""))

for algorithm, name in HASHES:
    tpm.chapter(f"{name}.")
    trial = tpm.trial("A trial session", algorithm=algorithm)
    session = tpm.policy("A policy session", algorithm=algorithm)
    said = tpm("TPM2_PolicyPCR in the trial session, with the digest that the values will have")
    said.pcrs(trial, BANKS, tpm.history.pcrs.digest(algorithm, BANKS))
    tpm("In the policy session, without").pcrs(session, BANKS)
    both("For the localities 0 and 1", lambda it: tpm.locality(it, 3))
    branches = [digest(algorithm, b"branch %d" % it) for it in range(7)] + [tpm.digest_of(session)]
    both("TPM2_PolicyOR of eight branches", lambda it: tpm.branches(it, *branches))
    for it in (trial, session):
        said = tpm("TPM2_PolicySecret of TPM_RH_OWNER, with a policyRef")
        said.accepted(tpm.secret(it, b"owner", of=RH_OWNER, policy_ref=REFERENCE))
    both("For Unseal", lambda it: tpm.command_code(it, CC.Unseal))
    both("With a password", tpm.password_told)
    both("The same with TPM2_PolicyAuthValue", tpm.auth_value_told)
    tpm.digest_is("The trial session's digest", trial)
    tpm.digest_is("The policy session's is the same", session, tpm.digest_of(trial))

    tpm.chapter("A trial session makes it with nothing being so, and a policy session does not.")
    both("Both from the start", tpm.restart)
    future = digest(algorithm, b"values that the PCRs do not have")
    tpm("PCRs of a future").pcrs(trial, BANKS, future)
    tpm("In the policy session: VALUE/p1").pcrs(session, BANKS, future)
    tpm("Branches without its digest").branches(trial, *branches)
    tpm("In the policy session: VALUE/p1").branches(session, *branches)
    tpm.digest_is("The trial session's digest", trial)
    tpm.digest_is("The policy session's is zeros yet", session, zeros(session))
    for it in (trial, session):
        tpm("The session is flushed").flush(it)
