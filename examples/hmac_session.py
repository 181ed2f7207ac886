"""Makes hmac_session.tpm. An HMAC session changes the owner's authorization value, so that no
value is sent in plain text, and nobody can send a command again or alter it in transit.
"""

from tpmsim.caller import Use
from tpmsim.standard import CONTINUE_SESSION, DECRYPT, ENCRYPT, RH_OWNER
from tests.common.teller import Example

tpm = Example(__name__, __doc__)

tpm.startup()
tpm(
    'On a new device ownerAuth is empty. Where nobody listens, the owner sets it to "cradle" '
    "(TPM2_HierarchyChangeAuth with the empty password)"
).accepted(tpm.change_auth(RH_OWNER, b"cradle", b""))

tpm.chapter(
    "The caller starts a session that is bound to TPM_RH_OWNER, with SHA-256 and AES-128 in mode "
    "CFB, and sends a nonce of 16 bytes. The response has the session's handle, 02000000, and the "
    'device\'s nonce. Both sides now compute the session key from the two nonces and from "cradle", '
    "which is not sent."
)
session = tpm.start("TPM2_StartAuthSession", RH_OWNER, aes=True)

tpm.chapter(
    'Now the caller changes ownerAuth to "a longer value". The entry has the caller\'s next nonce, '
    "the attributes continueSession and decrypt, and an HMAC with the session key. The new value "
    "is encrypted, but its size, 000e, is not. The response has the device's next nonce. Its HMAC "
    "proves that the device knows the new value, which is part of the HMAC's key."
)
change = tpm.change_auth(RH_OWNER, b"a longer value", Use(session, CONTINUE_SESSION | DECRYPT))
tpm.accepted("TPM2_HierarchyChangeAuth", change)
said = tpm(
    "Somebody who listened sends the same buffer again, with the outdated nonce: BAD_AUTH/s1"
)
said.refused(change)
said = tpm("The same person tries to set another value with the old password: BAD_AUTH/s1")
said.refused(tpm.change_auth(RH_OWNER, b"theirs", b"cradle"))

tpm.chapter(
    "No refusal changed the session. The caller gets 24 random bytes that only the two sides can "
    "read: an entry that authorizes nothing has the attribute encrypt."
)
tpm.accepted("TPM2_GetRandom", tpm.random(24, Use(session, CONTINUE_SESSION | ENCRYPT)))

tpm.chapter(
    "In this session the caller resets PCR 16 and changes ownerAuth once more. The session was "
    'bound with an earlier value, so "a longer value" is part of the key of the second command\'s '
    "HMAC."
)
tpm.accepted("TPM2_PCR_Reset", tpm.reset(session))
tpm("TPM2_HierarchyChangeAuth").accepted(
    tpm.change_auth(RH_OWNER, b"the last value", Use(session, CONTINUE_SESSION | DECRYPT))
)

said = tpm("TPM2_FlushContext of the session, which is no longer needed")
said.accepted(tpm.flush(session))
tpm.refused("The session no longer exists: REFERENCE_S0", tpm.reset(session))
