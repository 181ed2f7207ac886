"""Names that are used by most programs that write scripts."""

from tpmsim.caller import area, bits, BY_OWNER, BY_PLATFORM, BY_POLICY, BY_VALUE, CLEAR, counter
from tpmsim.caller import extended, flipped, HERE, hmac_key, OPEN, sealed, STATE, storage_key
from tpmsim.caller import STORES, Use, wrong
from tpmsim.standard import ALG_NULL, CC, command, command_hash, CONTINUE_SESSION, DECRYPT, digest
from tpmsim.standard import digest_bytes, ENCRYPT, entry, Entry, frames, mac, name_of, number, nv
from tpmsim.standard import on_handle, policy, RH_ENDORSEMENT, RH_LOCKOUT, RH_NULL, RH_OWNER
from tpmsim.standard import RH_PLATFORM, RS_PW, SE_HMAC, SE_POLICY, SE_TRIAL, selection, SHA1
from tpmsim.standard import SHA256, sized, SYMCIPHER
from tpmsim.standard.nv import Attribute as NvAttribute
from tpmsim.standard.objects import Attribute as ObjectAttribute, Public
from tpmsim.standard.policy import AUTH_VALUE, PASSWORD
from tests.common.script_caller import FIRST, FOURTH, HASHES, is_trial, SECOND, THIRD, zeros
from tests.common.teller import others_in, Teller, wrong_in

# Attributes in entries for sessions: a session that continues and decrypts, one that continues and
# encrypts, and one that ends.
DECRYPTS, ENCRYPTS, ENDS = CONTINUE_SESSION | DECRYPT, CONTINUE_SESSION | ENCRYPT, 0

LOCKS = NvAttribute.WRITE_STCLEAR | NvAttribute.READ_STCLEAR
FIFTH = 0x0100_0005
NAMES = {SHA1: "SHA-1", SHA256: "SHA-256"}

# fmt: off
__all__ = [
    "ALG_NULL", "area", "AUTH_VALUE", "bits", "BY_OWNER", "BY_PLATFORM", "BY_POLICY", "BY_VALUE",
    "CC", "CLEAR", "command", "command_hash", "CONTINUE_SESSION", "counter", "DECRYPT", "DECRYPTS",
    "digest", "digest_bytes", "ENCRYPT", "ENCRYPTS", "ENDS", "Entry", "entry", "extended", "FIFTH",
    "FIRST", "flipped", "FOURTH", "frames", "HASHES", "HERE", "hmac_key", "is_trial", "LOCKS",
    "mac", "name_of", "NAMES", "number", "nv", "NvAttribute", "ObjectAttribute", "on_handle",
    "OPEN", "others_in", "PASSWORD", "policy", "Public", "RH_ENDORSEMENT", "RH_LOCKOUT", "RH_NULL",
    "RH_OWNER", "RH_PLATFORM", "RS_PW", "SE_HMAC", "SE_POLICY", "SE_TRIAL", "sealed", "SECOND",
    "selection", "SHA1", "SHA256", "sized", "STATE", "storage_key", "STORES", "SYMCIPHER", "Teller",
    "THIRD", "Use", "wrong", "wrong_in", "zeros"
]
# fmt: on
