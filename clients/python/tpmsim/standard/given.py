"""Parameters as a caller passes them: as Python values, or as words. All parameters are encoded
here. A value that does not fit raises BadValue, a ValueError that names the field.
"""

from typing import Any

from tpmsim.faults import BadValue
from tpmsim.standard import frames
from tpmsim.standard.command_names import NAMES
from tpmsim.standard.commands import CC, Kind, Parameter
from tpmsim.standard.lines import handle_of, WORDS, Wrong
from tpmsim.standard.values import VALUES

# The comparisons of TPM2_PolicyNV, in the order of their numbers (Part 2, section 6.8).
OPERATIONS = "eq neq sgt ugt slt ult sge uge sle ule bs bc".split()
STARTS = {"CLEAR": 0, "STATE": 1}

# The words of parameters that are numbers, by the parameter's name.
NUMBER_WORDS: dict[str, dict[str, int]] = {
    "startupType": STARTS,
    "shutdownType": STARTS,
    "sessionType": {"hmac": frames.SE_HMAC, "policy": frames.SE_POLICY, "trial": frames.SE_TRIAL},
    "operation": {it: at for at, it in enumerate(OPERATIONS)},
    "capability": {
        "algorithms": 0,
        "handles": 1,
        "commands": 2,
        "pp-commands": 3,
        "audit-commands": 4,
        "pcrs": 5,
        "properties": 6,
        "pcr-properties": 7,
        "ecc-curves": 8,
    },
    "code": {name: code for code, name in NAMES.items()},
}

# The kinds of parameters whose words are those of docs/SCRIPTS.md. The words of a buffer would be
# hex, which is easily mistaken for text.
IN_LINES = (
    *(Kind.SELECTION, Kind.DIGESTS, Kind.CIPHER, Kind.HASH, Kind.HIERARCHY),
    Kind.ALGORITHMS,
)

# What a parameter accepts, by its kind.
WANTED = {
    Kind.U8: "an integer from 0 to 255",
    Kind.U16: "an integer from 0 to 65535",
    Kind.U32: "an integer from 0 to 4294967295",
    Kind.BITS8: "an integer of 8 bits",
    Kind.BITS64: "an integer of 64 bits",
    Kind.CODE: "an integer of 32 bits",
    Kind.HANDLE: "a handle",
    Kind.BUFFER: "at most 65535 bytes, or a structure",
    Kind.BUFFERS: "a list of bytes",
    Kind.SELECTION: "pairs of a hash and PCRs, or words like 'sha256:0,7'",
    Kind.DIGESTS: "pairs of a hash and a digest, or words like 'sha256:00..'",
    Kind.CIPHER: "a Cipher, 'null', 'aes', 'xor-sha1' or 'xor-sha256'",
    Kind.HASH: "an algorithm's number, 'sha1', 'sha256' or 'null'",
    Kind.HIERARCHY: "a handle",
    Kind.ALGORITHMS: "a list of algorithms' numbers, or words like '0x4+0xb'",
    Kind.BYTES: "bytes, or a structure",
}

# The exceptions that encoding a wrong value raises, for all kinds.
MISFITS = (AttributeError, KeyError, OverflowError, TypeError, ValueError, Wrong)


def meant(parameter: Parameter, value: Any) -> Any:
    """Returns the value that a word means; returns any other value unchanged."""
    if not isinstance(value, str):
        return value
    if parameter.name in NUMBER_WORDS:
        return NUMBER_WORDS[parameter.name][value]
    if parameter.kind == Kind.HANDLE:
        return handle_of(value.encode())
    if parameter.kind in IN_LINES:
        return WORDS[parameter.kind].parsed(value.encode())
    raise Wrong


def write(parameter: Parameter, value: Any) -> bytes:
    """Returns the encoding of a parameter; raises BadValue for a wrong value."""
    try:
        return VALUES[parameter.kind].write(meant(parameter, value))
    except BadValue:
        raise
    except MISFITS:
        wanted = WANTED.get(parameter.kind, "nothing")
        if parameter.name in NUMBER_WORDS:
            wanted += ", or its name"
        raise BadValue(parameter.name, value, wanted) from None


def write_in_order(code: CC, *values: Any) -> bytes:
    """Returns the encoded parameters of a command, given one value for each, in the order of Part
    3.
    """
    pairs = zip(code.parameters, values, strict=True)
    return b"".join(write(it, value) for it, value in pairs)


def in_order(code: CC, values: dict[str, Any]) -> list[Any]:
    """Returns the values of a command's parameters in the order of Part 3, given by their names;
    raises TypeError for a missing or unknown parameter.
    """
    names = [it.name for it in code.parameters]
    if set(values) != set(names):
        raise TypeError(f"{code.name} takes {', '.join(names) or 'no parameters'}")
    return [values[it] for it in names]


def handle(name: str, value: int | str) -> int:
    """Returns a handle. It may be passed as `OWNER`, `NULL`, `LOCKOUT`, `ENDORSEMENT`, `PLATFORM`
    or eight digits in hex.
    """
    try:
        found = handle_of(value.encode()) if isinstance(value, str) else value
        frames.number(found, 4)
        return found
    except MISFITS:
        raise BadValue(name, value, "a handle") from None


HASHES = {"sha1": frames.SHA1, "sha256": frames.SHA256, "null": frames.ALG_NULL}
CIPHERS = {"aes": frames.AES, "xor": frames.XOR, "null": frames.ALG_NULL}


def algorithm(value: int | str) -> int:
    """Returns a hash algorithm, which may be passed as `sha1`, `sha256` or `null`."""
    return number_of("algorithm", HASHES, value)


def cipher(value: int | str) -> int:
    """Returns the cipher of a session, which may be passed as `aes`, `xor` or `null`."""
    return number_of("cipher", CIPHERS, value)


def number_of(name: str, words: dict[str, int], value: int | str) -> int:
    """Returns a number, which may be passed as one of the words."""
    if isinstance(value, int):
        return value
    if value not in words:
        raise BadValue(name, value, f"a number or one of {', '.join(words)}")
    return words[value]
