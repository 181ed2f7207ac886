"""The code under test: a vault that stores a secret in a TPM, protected by a PIN."""

from tpmsim.caller import area, BY_VALUE, Caller

INDEX = 0x0100_0001


def store(tpm: Caller, secret: bytes, pin: bytes) -> None:
    tpm.define(area(INDEX, BY_VALUE, size=len(secret)), auth=pin)
    tpm.send(tpm.writing(INDEX, secret, pin))


def fetch(tpm: Caller, size: int, pin: bytes) -> bytes:
    secret: bytes = tpm.send(tpm.reading(INDEX, size, pin))["data"]
    return secret
