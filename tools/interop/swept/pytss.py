"""Seals a secret with tpm2-pytss, and unseals it in a session that encrypts. Then writes and reads
an index in the same session. Ends with status 1 for an exception, as Python does.
"""

import os

from tpm2_pytss import ESAPI, ESYS_TR, TPM2_ALG, TPM2_SE, TPM2B_PUBLIC
from tpm2_pytss import TPM2B_SENSITIVE_CREATE, TPMA_SESSION, TPMS_SENSITIVE_CREATE, TPMT_SYM_DEF
from tpm2_pytss import TPMU_SYM_KEY_BITS, TPMU_SYM_MODE

KEY, INDEX, PIN = 0x8100_0001, 0x0100_0001, b"PIN"


def started(esapi):
    """Starts a session that encrypts with AES."""
    bits, mode = TPMU_SYM_KEY_BITS(aes=128), TPMU_SYM_MODE(aes=TPM2_ALG.CFB)
    cipher = TPMT_SYM_DEF(algorithm=TPM2_ALG.AES, keyBits=bits, mode=mode)
    none = ESYS_TR.NONE
    session = esapi.start_auth_session(none, none, TPM2_SE.HMAC, cipher, TPM2_ALG.SHA256)
    flags = TPMA_SESSION.CONTINUESESSION | TPMA_SESSION.DECRYPT | TPMA_SESSION.ENCRYPT
    esapi.trsess_set_attributes(session, flags)
    return session


def unsealed(esapi, session):
    """Seals a secret below the storage key, and returns it unsealed."""
    parent = esapi.tr_from_tpmpublic(KEY)
    secret = TPM2B_SENSITIVE_CREATE(TPMS_SENSITIVE_CREATE(userAuth=PIN, data=b"secret"))
    template = TPM2B_PUBLIC.parse(
        alg="keyedhash", objectAttributes="userwithauth|fixedtpm|fixedparent"
    )
    private, public, *_ = esapi.create(parent, secret, template)
    loaded = esapi.load(parent, private, public)
    try:
        esapi.tr_set_auth(loaded, PIN)
        return bytes(esapi.unseal(loaded, session1=session))
    finally:
        esapi.flush_context(loaded)


def written(esapi, session):
    """Writes an index, and returns what it then contains."""
    index = esapi.tr_from_tpmpublic(INDEX)
    esapi.tr_set_auth(index, PIN)
    esapi.nv_write(index, b"another 16 bytes", session1=session)
    return bytes(esapi.nv_read(index, 16, session1=session))


with ESAPI(os.environ["TCTI"]) as esapi:
    session = started(esapi)
    try:
        print(unsealed(esapi, session), written(esapi, session))
    finally:
        esapi.flush_context(session)
