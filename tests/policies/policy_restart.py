"""Makes policy_restart.tpm. After TPM2_PolicyRestart the session has no assertions; everything
else in it is unchanged.
"""

from tests.common.policy_teller import PolicyTeller
from tests.common.vocabulary import CC, digest_bytes, is_trial, RH_OWNER, SHA1, SHA256, Use, zeros

tpm = PolicyTeller(__name__, __doc__)
PCR_0 = [(SHA256, [0])]


def forgets(what, told):
    """Makes an assertion, and restarts the session. This must remove the assertion."""
    tpm.says(f"{what}: SUCCESS", told)
    tpm.restarts(session)
    tpm.digest_is("The digest is zeros", session, zeros(session))


for session in tpm.each_session():
    tpm("On a new session it changes nothing").restart(session)
    tpm.digest_is("The digest is zeros", session, zeros(session))
    said = tpm("There are no parameters: a byte after the handle: SIZE")
    said.told(CC.PolicyRestart, session, b"\0")

    tpm("TPM2_PolicyCommandCode of Unseal").command_code(session, 0x15E)
    tpm("TPM2_PolicyCommandCode of NV_Read: VALUE/p1").command_code(session, 0x14E)
    forgets("TPM2_PolicyCommandCode of Unseal again", tpm.command_code(session, 0x15E))
    tpm.makes(
        "TPM2_PolicyCommandCode of NV_Read", session, tpm.command_code(session, 0x14E), "From zeros"
    )

    tpm("TPM2_PolicyLocality of locality 0").locality(session, 1)
    tpm("TPM2_PolicyLocality of locality 4: RANGE/p1").locality(session, 16)
    forgets("TPM2_PolicyLocality of locality 0 again", tpm.locality(session, 1))
    tpm.makes("TPM2_PolicyLocality of locality 4", session, tpm.locality(session, 16), "From zeros")
    tpm("TPM2_PolicyLocality of locality 0: RANGE/p1").locality(session, 1)

    size = digest_bytes(session.algorithm)
    one, other = bytes([1]) * size, bytes([2]) * size
    tpm.accepted("TPM2_PolicySecret with a cpHash", tpm.secret(session, cp_hash=one))
    if not is_trial(session):
        tpm.refused("With another: CPHASH", tpm.secret(session, cp_hash=other))
    forgets("TPM2_PolicyPassword", tpm.password_told(session))
    tpm.accepted("TPM2_PolicySecret with the other", tpm.secret(session, cp_hash=other))
    if not is_trial(session):
        tpm.refused("With the first: CPHASH", tpm.secret(session, cp_hash=one))

    tpm("TPM2_PolicyPCR of PCR 0").pcrs(session, PCR_0)
    tpm.accepted("TPM2_PCR_Event into PCR 16", tpm.event(b"abc", b""))
    if not is_trial(session):
        tpm("TPM2_PolicyPCR of PCR 0: PCR_CHANGED").pcrs(session, PCR_0)
    forgets("TPM2_PolicyAuthValue", tpm.auth_value_told(session))
    tpm("TPM2_PolicyPCR of PCR 0").pcrs(session, PCR_0)

tpm.chapter("The nonce, the key, the hash and the encryption stay.")
for algorithm in (SHA1, SHA256):
    said = tpm("A session bound to TPM_RH_OWNER")
    session = said.policy(bind=RH_OWNER, algorithm=algorithm, aes=True)
    tpm.restarts(session)
    said = tpm("TPM2_PolicySecret with its nonceTPM")
    said.accepted(tpm.secret(session, nonce_tpm=session.nonce_tpm))
    tpm("TPM2_PolicyRestart by its own hmac").restart(session, session)
    tpm.digest_is("The digest is zeros", session, zeros(session))
    tpm("TPM2_GetRandom, which it encrypts").random(8, session.encrypting)

tpm.chapter("Only the session that is named is restarted.")
other = tpm.policy("Another session")
tpm("TPM2_PolicyAuthValue in it").auth_value_told(other)
tpm("TPM2_PolicyRestart of the one before").restart(session)
tpm.digest_is("The digest of the other session is unchanged", other)
said = tpm("TPM2_PolicyRestart without continueSession|it is restarted, and ends")
said.restart(other, Use(other, 0))
tpm("The session no longer exists: REFERENCE_H0").get_digest(other)
