"""Numbers, handles, codes and bytes as text."""

import enum
from typing import Iterable, Sequence

from tpmsim.standard import ALL_NUMBERED, CC, frames, handle_kinds, HMAC_SESSION, lines, NV, nv
from tpmsim.standard import PERSISTENT, POLICY_SESSION, TRANSIENT
from tpmsim.standard.command_names import command_name

ALGORITHMS = {
    frames.SHA1: "SHA-1",
    frames.SHA256: "SHA-256",
    frames.AES: "AES",
    frames.XOR: "XOR",
    frames.ALG_HMAC: "HMAC",
    frames.ALG_NULL: "NULL",
    frames.CFB: "CFB",
    frames.KEYEDHASH: "KEYEDHASH",
    frames.SYMCIPHER: "SYMCIPHER",
}

SESSIONS = {
    frames.SE_HMAC: "HMAC session",
    frames.SE_POLICY: "policy session",
    frames.SE_TRIAL: "trial session",
}

ATTRIBUTES = {
    frames.CONTINUE_SESSION: "continueSession",
    frames.AUDIT_EXCLUSIVE: "auditExclusive",
    frames.AUDIT_RESET: "auditReset",
    frames.DECRYPT: "decrypt",
    frames.ENCRYPT: "encrypt",
    frames.AUDIT: "audit",
}

OPERATIONS = (
    *("EQ", "NEQ", "SIGNED_GT", "UNSIGNED_GT", "SIGNED_LT", "UNSIGNED_LT", "SIGNED_GE"),
    *("UNSIGNED_GE", "SIGNED_LE", "UNSIGNED_LE", "BITSET", "BITCLEAR"),
)

OF_FIRST_BYTE = {
    NV: "an NV index",
    HMAC_SESSION: "an HMAC session",
    POLICY_SESSION: "a policy or trial session",
    TRANSIENT: "a transient object",
    PERSISTENT: "a persistent object",
}


def algorithm_words(number: int) -> str:
    return ALGORITHMS.get(number, f"{number:04x}")


def handle_words(handle: int) -> str:
    """Returns a handle as it is written in a line. But a PCR is named by its number, and the handle
    of a password by its meaning.
    """
    if handle_kinds.is_pcr(handle):
        return f"PCR {handle}"
    return "the password" if handle == frames.RS_PW else lines.handle_word(handle)


def kind_words(handle: int) -> str:
    if handle_kinds.is_pcr(handle):
        return "a PCR"
    if handle == frames.RS_PW:
        return "the handle of a password"
    if handle in lines.HANDLE_NAMES.values():
        return handle_words(handle)
    return OF_FIRST_BYTE.get(handle >> 24) or f"of no kind that is served{decimal_words(handle)}"


def decimal_words(handle: int) -> str:
    """Returns what to write if the handle is a served one whose hex digits were read in decimal."""
    meant = int(str(handle), 16)
    if meant >> 24 not in OF_FIRST_BYTE:
        return ""
    return f" (it is {handle} in decimal; in words, write 0x{meant:08x})"


def command_words(code: int) -> str:
    return command_name(code) or f"{code:08x}"


def not_served(code: int) -> str:
    name, number = command_name(code), f"{code:08x}"
    if code in ALL_NUMBERED:
        return f"TPM2_{name} ({number}): only a device of the complete profile has this command."
    if name:
        return f"TPM2_{name} ({number}): tpmsim has no such command."
    turned = int.from_bytes(code.to_bytes(4, "big")[::-1], "big")
    other = command_name(turned)
    hint = f" With its bytes in the other order it is TPM2_{other} ({turned:08x})." if other else ""
    return f"No command has the number {number}.{hint}"


def signed_words(number: int) -> str:
    """Returns a number of four bytes that is signed, as the user gave it."""
    return str(number - 2**32 if number >= 2**31 else number)


def printable(data: bytes) -> bool:
    return len(data) > 2 and all(0x20 <= it < 0x7F for it in data)


def bytes_words(data: bytes) -> str:
    """Returns bytes in hex, followed by their text if they are printable."""
    if not data:
        return "empty"
    return f'{data.hex()} "{data.decode("ascii")}"' if printable(data) else data.hex()


def plural(count: int, word: str) -> str:
    return f"{count:,} {word}" if count == 1 else f"{count:,} {word}s"


def size_words(count: int) -> str:
    return plural(count, "byte")


def listed(words: Iterable[str]) -> str:
    """Returns words as a list, such as "a, b and c"."""
    *before, last = list(words) or [""]
    return f"{', '.join(before)} and {last}" if before else last


def bit_words(value: int, names: dict[int, str]) -> str:
    """Returns the names of the set bits, and in hex the bits without a name."""
    found = [name for bit, name in names.items() if value & bit]
    others = value & ~sum(names)
    if others:
        found.append(f"{others:#x}")
    return ", ".join(found) or "none"


def flag_words(value: int, of: type[enum.IntEnum]) -> str:
    return bit_words(value, {int(it): str(it.name) for it in of})


def attribute_words(attributes: int) -> str:
    return f"{attributes:02x} ({bit_words(attributes, ATTRIBUTES)})"


def localities_words(bits: int) -> str:
    return ", ".join(str(it) for it in range(8) if bits >> it & 1) or "none"


def index_type_words(kind: int) -> str:
    types = {int(it): it.name.lower() for it in nv.Type}
    return types.get(kind, f"type {kind}")


# The commands that write an index, by its type.
WRITERS = {
    int(nv.Type.ORDINARY): CC.NV_Write,
    int(nv.Type.COUNTER): CC.NV_Increment,
    int(nv.Type.BITS): CC.NV_SetBits,
    int(nv.Type.EXTEND): CC.NV_Extend,
}


def writer_words(kind: int) -> str:
    """Returns which command writes an index of this type; empty for an unknown type."""
    return f"; {WRITERS[kind].name} writes it" if kind in WRITERS else ""


def written_words(is_written: bool | None) -> str:
    """Returns whether an entity is a written index; None means that it is no index."""
    return "no NV index" if is_written is None else "written" if is_written else "not written"


def one_of_words(allowed: Sequence[int], digits: int) -> str:
    """Returns the allowed values of a number with this many digits. One of four is an algorithm."""
    if len(allowed) > 4:
        return f"{allowed[0]:0{digits}x} to {allowed[-1]:0{digits}x}"
    spelled = [(f"{it:0{digits}x}", algorithm_words(it)) for it in allowed]
    is_named = digits == 4
    return " or ".join(f"{it} ({name})" if is_named and name != it else it for it, name in spelled)


def seconds_words(milliseconds: int) -> str:
    """Returns milliseconds in seconds, or in hours if there are many."""
    seconds = milliseconds / 1000
    return f"{seconds:,g} s" if seconds < 36_000 else f"{seconds / 3600:,.1f} h"
