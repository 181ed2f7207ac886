"""Makes policy_get_digest.tpm. TPM2_PolicyGetDigest returns the current digest of a policy session
or a trial session. It has no parameters, and changes nothing.
"""

from tests.common.policy_teller import PolicyTeller
from tests.common.vocabulary import CC, policy, zeros

tpm = PolicyTeller(__name__, __doc__)

for session in tpm.each_session(size=20):
    tpm.digest_is("The digest begins with zeros", session, zeros(session))
    tpm.digest_is("The digest is unchanged when it is read again", session, zeros(session))
    said = tpm("There are no parameters: a byte after the handle, and two: SIZE")
    said.refused(*(tpm.told(CC.PolicyGetDigest, session, it) for it in (b"\0", b"\0\0")))
    tpm.makes("TPM2_PolicyAuthValue", session, tpm.auth_value_told(session), "The digest of that")
    tpm.makes("TPM2_PolicyAuthValue once more", session, tpm.auth_value_told(session))
    said = tpm("With the session itself as an entry, which authorizes nothing")
    said.get_digest(session, session)
    tpm("With it once more|and a new nonce").get_digest(session, session)
    tpm.digest_is("Without the session as an entry", session)

tpm.chapter("Two sessions have a digest each.")
first, second = tpm.policy("The first"), tpm.policy("The second")
tpm("TPM2_PolicyLocality of locality 3 in the first").locality(first, 8)
tpm.digest_is("The first one's digest", first, policy.after_locality(first.algorithm, bytes(32), 8))
tpm.digest_is("The second one's", second, zeros(second))
tpm("TPM2_PolicyAuthValue in the second").auth_value_told(second)
tpm.digest_is("The first one's again", first)
