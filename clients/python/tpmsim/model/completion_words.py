"""Says which parameter the completing layer refuses, its value, and what is allowed."""

from typing import Any

from tpmsim.model.general import Refusal
from tpmsim.standard import frames

# The names of the parameters that the layer reads, by command code.
PARAMETERS = {
    0x13E: ("buffer", "hierarchy"),
    0x142: ("toTest",),
    0x15B: ("auth", "hashAlg"),
    0x15C: ("buffer",),
    0x17C: (),
    0x17D: ("data", "hashAlg", "hierarchy"),
    0x185: ("buffer",),
    0x186: ("auth", "hashAlg"),
    0x18A: ("parameters",),
}

# Algorithms of the standard (Part 2, section 6.3).
ALGORITHMS = {
    **{0x01: "RSA", 0x04: "SHA-1", 0x05: "HMAC", 0x06: "AES", 0x08: "KEYEDHASH", 0x0A: "XOR"},
    **{0x0B: "SHA-256", 0x0C: "SHA-384", 0x0D: "SHA-512", 0x10: "NULL", 0x12: "SM3-256"},
    **{0x13: "SM4", 0x14: "RSASSA", 0x16: "RSAPSS", 0x18: "ECDSA", 0x23: "ECC"},
    **{0x25: "SYMCIPHER", 0x26: "CAMELLIA", 0x27: "SHA3-256", 0x40: "CTR", 0x41: "OFB"},
    **{0x42: "CBC", 0x43: "CFB", 0x44: "ECB"},
}
HIERARCHIES = {
    frames.RH_OWNER: "OWNER",
    frames.RH_NULL: "NULL",
    frames.RH_ENDORSEMENT: "ENDORSEMENT",
    frames.RH_PLATFORM: "PLATFORM",
}


def refusal_words(code: int, refusal: Refusal) -> str:
    """Returns why the layer refuses the parameters of a command."""
    place = refusal.name.partition("/p")[2]
    names = PARAMETERS.get(code, ())
    name = names[int(place) - 1] if place and int(place) <= len(names) else ""
    said = value_words(refusal.operands)
    return f"the parameters are refused: {f'{name}: ' if name else ''}{said}"


def value_words(operands: dict[str, Any]) -> str:
    """Returns a parameter's value, and what tpmsim has instead."""
    match operands.get("expected"):
        case "choice":
            digits = operands["digits"]
            allowed = " or ".join(number_words(it, digits) for it in operands["allowed"])
            return f"{number_words(operands['value'], digits)}; tpmsim has {allowed}"
        case "size" | "count" as kind:
            given = operands["size" if kind == "size" else "count"]
            return f"{given:,} {'bytes' if kind == 'size' else 'algorithms'}; tpmsim takes {operands['most']:,}"
        case "bytes":
            return f"{operands['left']} of {operands['count']} bytes are left"
        case "end":
            return f"{operands['left']} bytes follow the parameters"
    return "the value is not allowed"


def number_words(number: int, digits: int) -> str:
    """Returns the name of an algorithm or a hierarchy, or a number in hex."""
    names = ALGORITHMS if digits == 4 else HIERARCHIES
    return names.get(number, f"{number:0{digits}x}")
