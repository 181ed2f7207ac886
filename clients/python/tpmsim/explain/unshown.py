"""Encryption with an authorization value that the caller did not have to know. The TPM compares
nothing, so anyone who has the ciphertext can test guesses of the value without the device, and no
guess counts as a failed try (docs/table/lockout.md).
"""

from tpmsim.standard import DECRYPT, ENCRYPT

OFFLINE = "Whoever knows the text can test guesses of the value offline, without a failed try"


def encrypts(attributes: int) -> str:
    """Returns what a session with these attributes does to a parameter; empty if it does nothing."""
    if attributes & ENCRYPT:
        return "encrypts an answer to"
    return "decrypts a parameter of" if attributes & DECRYPT else ""


def of_binding(place: int, attributes: int, bound: str) -> str:
    """Returns the sentence about the authorization value of a session's bind entity."""
    does = f"{encrypts(attributes)} a command that does not require its authValue"
    return f"The session of entry {place} is bound to {bound}, and {does}. {OFFLINE}."


def of_used(place: int, attributes: int, used: str) -> str:
    """Returns the sentence about the authorization value of the entity that an entry authorizes."""
    does = f"{encrypts(attributes)} this command by that value"
    asks = f"authorizes {used} by a policy that does not require its authValue"
    return f"Entry {place} {asks}, and {does}. {OFFLINE}."
