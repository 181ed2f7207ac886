"""All response codes of the standard (Part 2, section 6.6.3), with what they mean in general. The
numbers leave out where a fault is (section 6.6.2).
"""

from dataclasses import dataclass

# A line for each code: the number, the name and the meaning.
TEXT = """
01E BAD_TAG the tag of the command is neither 8001 nor 8002
081 ASYMMETRIC the asymmetric algorithm is not supported, or does not fit
082 ATTRIBUTES an attribute does not fit its object, session or index
083 HASH the hash algorithm is not supported, or does not fit
084 VALUE a value is outside of what is allowed there
085 HIERARCHY the hierarchy is disabled, or does not fit
087 KEY_SIZE the size of the key is not supported
088 MGF the mask generation function is not supported
089 MODE the mode of operation is not supported
08A TYPE the type of the value does not fit its use
08B HANDLE the handle does not fit, or names nothing that exists
08C KDF the key derivation function is not supported, or does not fit
08D RANGE the value is out of range
08E AUTH_FAIL an authorization failed, and counts as a failed try of the lockout
08F NONCE a nonce has a wrong size or value
090 PP the command requires physical presence
092 SCHEME the scheme is not supported, or does not fit
095 SIZE a structure has the wrong size
096 SYMMETRIC the symmetric algorithm or key size is not supported
097 TAG the tag of a structure is wrong
098 SELECTOR a selector of a union is wrong
09A INSUFFICIENT the command ends before a value is complete
09B SIGNATURE the signature is wrong
09C KEY the key does not fit its use
09D POLICY_FAIL a policy is not met
09F INTEGRITY an integrity value is wrong
0A0 TICKET the ticket is wrong
0A1 RESERVED_BITS reserved bits are not zero
0A2 BAD_AUTH an authorization failed, and does not count for the lockout
0A3 EXPIRED the policy has expired
0A4 POLICY_CC the policy is for another command
0A5 BINDING the public and the sensitive area do not belong together
0A6 CURVE the curve is not supported
0A7 ECC_POINT the point is not on the curve
100 INITIALIZE TPM2_Startup is missing, or came twice
101 FAILURE the TPM has failed, and only a reset helps
103 SEQUENCE a sequence is used improperly
10B PRIVATE not used in a TPM
119 HMAC not used in a TPM
120 DISABLED the command is disabled
121 EXCLUSIVE the audit session is not exclusive
124 AUTH_TYPE the handle's kind of authorization does not fit the command
125 AUTH_MISSING the command lacks an authorization
126 POLICY a comparison of a policy failed
127 PCR a check of a PCR failed
128 PCR_CHANGED the PCRs have changed since a policy read them
12D UPGRADE the TPM is in field upgrade mode
12E TOO_MANY_CONTEXTS the counter of saved contexts is at its maximum
12F AUTH_UNAVAILABLE the entity does not allow this kind of authorization
130 REBOOT the TPM must be reset before it continues
131 UNBALANCED the hash and the symmetric algorithm do not go together
142 COMMAND_SIZE the size in the header is not the size of the command
143 COMMAND_CODE the command is not supported
144 AUTHSIZE the size of the authorization area is wrong
145 AUTH_CONTEXT the command allows no authorization
146 NV_RANGE an offset or a size is beyond the end of the index
147 NV_SIZE the size of an index is too large
148 NV_LOCKED the index is locked
149 NV_AUTHORIZATION the authorization does not allow this access to the index
14A NV_UNINITIALIZED the index was never written, or state to be resumed is missing
14B NV_SPACE non-volatile memory is full
14C NV_DEFINED the index or the persistent handle exists already
150 BAD_CONTEXT the saved context is invalid
151 CPHASH another cpHash is set already, or its size is wrong
152 PARENT the handle is no parent
153 NEEDS_TEST a self-test must come first
154 NO_RESULT the cause of an earlier failure is unknown
155 SENSITIVE the sensitive area is wrong
901 CONTEXT_GAP a saved session is too old for another one to be saved
902 OBJECT_MEMORY all slots for objects are taken; flush one
903 SESSION_MEMORY all slots for sessions are taken; flush one
904 MEMORY memory is full
905 SESSION_HANDLES all session handles are taken; flush a saved session
906 OBJECT_HANDLES all object handles are taken
907 LOCALITY the command came from a wrong locality
908 YIELDED the TPM has suspended the command; send it again
909 CANCELED the command was cancelled
90A TESTING the TPM tests itself; send the command again
910 REFERENCE_H0 the first handle names nothing that is loaded
911 REFERENCE_H1 the second handle names nothing that is loaded
912 REFERENCE_H2 the third handle names nothing that is loaded
913 REFERENCE_H3 the fourth handle names nothing that is loaded
914 REFERENCE_H4 the fifth handle names nothing that is loaded
915 REFERENCE_H5 the sixth handle names nothing that is loaded
916 REFERENCE_H6 the seventh handle names nothing that is loaded
918 REFERENCE_S0 the session of the first entry is not loaded
919 REFERENCE_S1 the session of the second entry is not loaded
91A REFERENCE_S2 the session of the third entry is not loaded
91B REFERENCE_S3 the session of the fourth entry is not loaded
91C REFERENCE_S4 the session of the fifth entry is not loaded
91D REFERENCE_S5 the session of the sixth entry is not loaded
91E REFERENCE_S6 the session of the seventh entry is not loaded
920 NV_RATE non-volatile memory is written too often; send the command later
921 LOCKOUT too many authorizations have failed
922 RETRY the TPM could not start the command; send it again
923 NV_UNAVAILABLE non-volatile memory cannot be written now
"""


@dataclass(frozen=True)
class Meaning:
    """A response code without the number of a place: its name, and what it means."""

    number: int
    name: str
    words: str


MEANINGS = {
    it.number: it
    for it in (
        Meaning(int(number, 16), name, words)
        for number, name, words in (it.split(" ", 2) for it in TEXT.strip().splitlines())
    )
}
BY_NAME = {it.name: it for it in MEANINGS.values()}

# The bit of the codes that have the number of a handle, a parameter or a session.
HAS_PLACE, IS_PARAMETER = 0x80, 0x40
PLACE_SHIFT, PLACE_MASK, SESSION = 8, 15, 8
# The layer of libtss2 that made a code, in bits 16 to 23.
LAYER_SHIFT = 16
LAYERS = {
    0: "the TPM",
    6: "FAPI",
    7: "ESYS",
    8: "SYS",
    9: "MU",
    10: "the TCTI",
    11: "the resource manager, for the TPM",
    12: "the resource manager",
    13: "the policy library",
}
OF_TPM = 0, 11


def base_of(code: int) -> int:
    """Returns a code of the TPM without the number of a place."""
    return code & 0xBF if code & HAS_PLACE else code & 0xFFF


def place_of(code: int) -> str:
    """Returns the place in a code, such as `parameter 2`; empty if it has none."""
    number = code >> PLACE_SHIFT & PLACE_MASK
    if not code & HAS_PLACE:
        return ""
    if code & IS_PARAMETER:
        return f"parameter {number}" if number else "a parameter"
    if not number:
        return ""
    return f"session {number - SESSION}" if number > SESSION else f"handle {number}"
