"""Parts of the TPM 2.0 Library that both the TPM and its caller need: numbers, structures, lines
and computations.
"""

from tpmsim.standard.commands import ALL_NUMBERED, CC, Fact, Handle, HandleKind, Kind, NAMED
from tpmsim.standard.commands import NUMBERED, Parameter, Profile
from tpmsim.standard.frames import AES, ALG_HMAC, ALG_NULL, area, CFB, command, COMMAND_BYTES
from tpmsim.standard.frames import CONTINUE_SESSION, DECRYPT, digests, ENCRYPT, Entry, entry
from tpmsim.standard.frames import HEADER_BYTES, HMAC_SESSION, KEYEDHASH, MOST_ENTRIES, number, NV
from tpmsim.standard.frames import on_handle, on_handles, PERSISTENT, policy_secret, POLICY_SESSION
from tpmsim.standard.frames import RH_ENDORSEMENT, RH_LOCKOUT, RH_NULL, RH_OWNER, RH_PLATFORM, RS_PW
from tpmsim.standard.frames import SE_HMAC, SE_POLICY, SE_TRIAL, selection, SESSIONS, SHA1, SHA256
from tpmsim.standard.frames import sized, start_auth_session, SYMCIPHER, TRANSIENT, XOR
from tpmsim.standard.handle_kinds import first_byte, HIERARCHIES, is_index, is_pcr, is_policy
from tpmsim.standard.handle_kinds import is_session, PCRS
from tpmsim.standard.reading import Fields, Short
from tpmsim.standard.sessions import command_hash, digest, DIGEST_BYTES, digest_bytes, HASH_WORDS
from tpmsim.standard.sessions import HASHES, kdfa, mac, name_of, trimmed

# fmt: off
__all__ = [
    "AES", "ALG_HMAC", "ALG_NULL", "ALL_NUMBERED", "area", "CC", "CFB", "command",
    "COMMAND_BYTES", "command_hash", "CONTINUE_SESSION", "DECRYPT", "digest",
    "digest_bytes", "DIGEST_BYTES", "digests", "ENCRYPT", "Entry", "entry", "Fact",
    "Fields", "first_byte", "Handle", "HandleKind", "HASH_WORDS", "HASHES", "HEADER_BYTES",
    "HIERARCHIES", "HMAC_SESSION", "is_index", "is_pcr", "is_policy", "is_session", "kdfa",
    "KEYEDHASH", "Kind", "mac", "MOST_ENTRIES", "name_of", "NAMED", "number", "NUMBERED",
    "NV", "on_handle", "on_handles", "Parameter", "PCRS", "PERSISTENT", "policy_secret",
    "POLICY_SESSION", "Profile", "RH_ENDORSEMENT", "RH_LOCKOUT", "RH_NULL", "RH_OWNER",
    "RH_PLATFORM", "RS_PW", "SE_HMAC", "SE_POLICY", "SE_TRIAL", "selection", "SESSIONS",
    "SHA1", "SHA256", "Short", "sized", "start_auth_session", "SYMCIPHER", "TRANSIENT",
    "trimmed", "XOR"
]
# fmt: on
