"""The computations of a TPM's caller, and a caller that sends commands to a device."""

from tpmsim.caller.caller import Caller
from tpmsim.caller.entries import flipped, Made, Means, Prepared, Refused, Response, Session, Use
from tpmsim.caller.entries import wrong
from tpmsim.caller.knowledge import CLEAR, Knowledge, NONCE_BYTES, STATE, WrongResponse
from tpmsim.caller.templates import area, bits, BY_OWNER, BY_PLATFORM, BY_POLICY, BY_VALUE, counter
from tpmsim.caller.templates import extended, FIRST, HERE, hmac_key, OPEN, sealed, storage_key
from tpmsim.caller.templates import STORES
from tpmsim.policies.policy_file import digest_of

# fmt: off
__all__ = [
    "area", "bits", "BY_OWNER", "BY_PLATFORM", "BY_POLICY", "BY_VALUE", "Caller", "CLEAR",
    "counter", "digest_of", "extended", "FIRST", "flipped", "HERE", "hmac_key", "Knowledge",
    "Made", "Means", "NONCE_BYTES", "OPEN", "Prepared", "Refused", "Response", "sealed",
    "Session", "STATE", "storage_key", "STORES", "Use", "wrong", "WrongResponse"
]
# fmt: on
