"""The digest of a policy after each assertion (TPM 2.0 Library, Part 3, section 23)."""

from tpmsim.standard.commands import CC
from tpmsim.standard.frames import number
from tpmsim.standard.sessions import digest, digest_bytes

# One bit for each locality from 0 to 4.
ALL_LOCALITIES = 0x1F

# What a policy may demand in the entry of its session, in addition to the policy's conditions.
PASSWORD, AUTH_VALUE = "password", "authorization value"

# The smallest and the largest number of digests in TPM2_PolicyOR.
LEAST_BRANCHES, MOST_BRANCHES = 2, 8


def after_pcr(algorithm: int, old: bytes, selection: bytes, values_digest: bytes) -> bytes:
    """Returns the digest after PolicyPCR. `selection` is the encoded selection, as sent."""
    return digest(algorithm, old + number(CC.PolicyPCR, 4) + selection + values_digest)


def after_or(algorithm: int, branches: list[bytes]) -> bytes:
    """Returns the digest after PolicyOR. The previous digest must be one of the branches; the
    result does not depend on which one.
    """
    zeros = bytes(digest_bytes(algorithm))
    return digest(algorithm, zeros + number(CC.PolicyOR, 4) + b"".join(branches))


def after_auth_value(algorithm: int, old: bytes) -> bytes:
    """Returns the digest after PolicyAuthValue, which is the same after PolicyPassword."""
    return digest(algorithm, old + number(CC.PolicyAuthValue, 4))


def after_command_code(algorithm: int, old: bytes, code: int) -> bytes:
    """Returns the digest after PolicyCommandCode. `code` is the number of the command."""
    return digest(algorithm, old + number(CC.PolicyCommandCode, 4) + number(code, 4))


def after_cp_hash(algorithm: int, old: bytes, cp_hash: bytes) -> bytes:
    """Returns the digest after PolicyCpHash. `cp_hash` is the expected cpHash."""
    return digest(algorithm, old + number(CC.PolicyCpHash, 4) + cp_hash)


def after_nv_written(algorithm: int, old: bytes, is_written: bool) -> bytes:
    """Returns the digest after PolicyNvWritten. `is_written` says whether the index must be
    written.
    """
    return digest(algorithm, old + number(CC.PolicyNvWritten, 4) + number(is_written, 1))


def after_locality(algorithm: int, old: bytes, localities: int) -> bytes:
    """Returns the digest after PolicyLocality. Bit n of `localities` stands for locality n."""
    return digest(algorithm, old + number(CC.PolicyLocality, 4) + number(localities, 1))


def after_secret(algorithm: int, old: bytes, name: bytes, policy_ref: bytes) -> bytes:
    """Returns the digest after PolicySecret. `name` is the Name of authHandle. There are two
    hashes, even if policyRef is empty.
    """
    named = digest(algorithm, old + number(CC.PolicySecret, 4) + name)
    return digest(algorithm, named + policy_ref)


def after_nv(algorithm: int, old: bytes, arguments: bytes, name: bytes) -> bytes:
    """Returns the digest after PolicyNV. `arguments` are the operand, the offset and the operation;
    `name` is the index's Name.
    """
    compared = digest(algorithm, arguments)
    return digest(algorithm, old + number(CC.PolicyNV, 4) + compared + name)
