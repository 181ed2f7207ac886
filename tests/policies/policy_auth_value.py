"""Makes policy_auth_value.tpm. TPM2_PolicyAuthValue and TPM2_PolicyPassword: a user of the policy
must use the entity's authorization value, in the key of an HMAC or as a password. Both result in
the same digest.
"""

from tests.common.policy_teller import PolicyTeller
from tests.common.vocabulary import CC, policy, zeros

tpm = PolicyTeller(__name__, __doc__)

for session in tpm.each_session():
    once = policy.after_auth_value(session.algorithm, zeros(session))
    twice = policy.after_auth_value(session.algorithm, once)
    tpm("TPM2_PolicyAuthValue").auth_value_told(session)
    tpm.digest_is("The digest of the session is the hash of zeros and 0000016B", session, once)
    tpm("TPM2_PolicyPassword after it").password_told(session)
    tpm.digest_is("The hash of that and 0000016B once more", session, twice)
    tpm.restarts(session)
    tpm("TPM2_PolicyPassword").password_told(session)
    tpm.digest_is("The digest is the same as that of TPM2_PolicyAuthValue", session, once)
    tpm("TPM2_PolicyAuthValue after it").auth_value_told(session)
    tpm.digest_is("Also in this order", session, twice)
    said = tpm("There are no parameters: a byte after the handle: SIZE")
    said.says(*(tpm.told(it, session, b"\0") for it in (CC.PolicyAuthValue, CC.PolicyPassword)))
    tpm.digest_is("The digest is unchanged", session, twice)

    said = tpm("TPM2_PolicyAuthValue with the session itself as an entry")
    said.auth_value_told(session, session)
    tpm("TPM2_PolicyPassword with it").password_told(session, session)
    tpm.digest_is("The digest is that of four assertions after zeros", session)
