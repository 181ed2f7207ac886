"""Frames of TPM 2.0 commands and responses, as bytes (TPM 2.0 Library, Part 1, section 18)."""

import functools
import struct
from dataclasses import dataclass
from typing import Iterable, Iterator

from tpmsim.faults import BadValue
from tpmsim.standard.reading import Fields

# PCRs by bank: for each bank its hash algorithm and the numbers of the PCRs.
Banks = Iterable[tuple[int, Iterable[int]]]

NO_SESSIONS, SESSIONS, BAD_TAG_ANSWER = 0x8001, 0x8002, 0x00C4

RH_OWNER, RH_NULL, RS_PW = 0x4000_0001, 0x4000_0007, 0x4000_0009
RH_LOCKOUT, RH_ENDORSEMENT, RH_PLATFORM = 0x4000_000A, 0x4000_000B, 0x4000_000C

# The first byte of a handle that is not permanent, by the type of its entity.
NV, HMAC_SESSION, POLICY_SESSION, TRANSIENT, PERSISTENT = 0x01, 0x02, 0x03, 0x80, 0x81

SHA1, AES, XOR, SHA256, ALG_NULL, CFB = 0x0004, 0x0006, 0x000A, 0x000B, 0x0010, 0x0043
AES_KEY_BITS = 128

# The types of objects, and the scheme of a KEYEDHASH for HMACs (Part 2, section 6.3).
KEYEDHASH, SYMCIPHER, ALG_HMAC = 0x0008, 0x0025, 0x0005

# The types of sessions, and attributes of their entries (Part 2, section 8.4).
SE_HMAC, SE_POLICY, SE_TRIAL = 0x00, 0x01, 0x03
CONTINUE_SESSION, AUDIT_EXCLUSIVE, AUDIT_RESET = 0x01, 0x02, 0x04
RESERVED, DECRYPT, ENCRYPT, AUDIT = 0x18, 0x20, 0x40, 0x80

# The response codes of docs/table (Part 2, section 6.6.3), without handle, parameter or session
# numbers. MEMORY is missing, since no script can cause it.
CODES = {
    name: int(code, 16)
    for name, code in (
        it.split(":")
        for it in """
        BAD_TAG:01E ATTRIBUTES:082 HASH:083 VALUE:084 HIERARCHY:085 MODE:089 TYPE:08A HANDLE:08B
        RANGE:08D AUTH_FAIL:08E NONCE:08F SCHEME:092 SIZE:095 SYMMETRIC:096 INSUFFICIENT:09A KEY:09C
        POLICY_FAIL:09D INTEGRITY:09F RESERVED_BITS:0A1 BAD_AUTH:0A2 POLICY_CC:0A4 INITIALIZE:100
        FAILURE:101 DISABLED:120 AUTH_MISSING:125 POLICY:126 PCR_CHANGED:128 AUTH_UNAVAILABLE:12F
        COMMAND_SIZE:142 COMMAND_CODE:143 AUTHSIZE:144 AUTH_CONTEXT:145 NV_RANGE:146 NV_LOCKED:148
        NV_AUTHORIZATION:149 NV_UNINITIALIZED:14A NV_SPACE:14B NV_DEFINED:14C CPHASH:151
        OBJECT_MEMORY:902 SESSION_MEMORY:903 LOCALITY:907 REFERENCE_H0:910 REFERENCE_H1:911
        REFERENCE_H2:912 REFERENCE_S0:918 REFERENCE_S1:919 REFERENCE_S2:91A LOCKOUT:921
        """.split()
    )
}

# The number that is added to a response code if its place is a handle, a parameter or a session. In
# addition, 0x100 times the place's index is added (section 6.6.2).
PLACES = {"h": 0, "p": 0x040, "s": 0x800}


def number(value: int, size: int) -> bytes:
    """Returns a number in big-endian order, `size` bytes long."""
    return value.to_bytes(size, "big")


def sized(data: bytes) -> bytes:
    """Returns a buffer, preceded by its size in two bytes."""
    return number(len(data), 2) + data


def field(name: str, value: int, size: int) -> bytes:
    """Returns the encoding of a structure's number; raises BadValue if it does not fit."""
    try:
        return number(value, size)
    except (AttributeError, OverflowError):
        most = 2 ** (8 * size) - 1
        raise BadValue(name, value, f"an integer from 0 to {most}") from None


def sized_field(name: str, data: bytes) -> bytes:
    """Returns the encoding of a structure's buffer; raises BadValue for anything but bytes."""
    try:
        return sized(data)
    except (OverflowError, TypeError):
        raise BadValue(name, data, "at most 65535 bytes") from None


# The header of a command and of a response: a tag, the total size, and a code.
HEADER = struct.Struct(">HII")

# The size of a header, the largest size of a command, and the largest number of its entries.
HEADER_BYTES, COMMAND_BYTES, MOST_ENTRIES = HEADER.size, 4096, 3


@dataclass
class Entry:
    """An entry of an authorization area. `demand` is what the session's policy demands in it."""

    handle: int
    nonce: bytes
    attributes: int
    hmac: bytes
    demand: str | None = None


def command(code: int, body: bytes, tag: int = NO_SESSIONS, size: int | None = None) -> bytes:
    """Returns a command. Its commandSize is correct, unless `size` is passed."""
    return HEADER.pack(tag, HEADER_BYTES + len(body) if size is None else size, code) + body


def entry(
    session: int = RS_PW, nonce: bytes = b"", attributes: int = CONTINUE_SESSION, hmac: bytes = b""
) -> bytes:
    """Returns an entry of an authorization area, by default the empty password."""
    return number(session, 4) + sized(nonce) + number(attributes, 1) + sized(hmac)


def read_entry(fields: Fields) -> Entry:
    """Reads the next entry of an authorization area; raises Short if it is cut off."""
    return Entry(fields.number(4), fields.sized(), fields.number(1), fields.sized())


def entries_of(area: bytes) -> Iterator[Entry]:
    """Yields the entries of an area without its size; raises Short if the last entry is cut off."""
    fields = Fields(area)
    while fields.data:
        yield read_entry(fields)


def area(*entries: bytes, size: int | None = None) -> bytes:
    """Returns an authorization area. Its authorizationSize is correct, unless `size` is passed."""
    text = b"".join(entries)
    return number(len(text) if size is None else size, 4) + text


def buffer_of(code: int, handles: Iterable[int], entries: list[Entry], parameters: bytes) -> bytes:
    """Returns a command with handles and entries. Without entries, its tag says that it has no
    sessions.
    """
    text = b"".join(number(it, 4) for it in handles)
    if not entries:
        return command(code, text + parameters)
    those = [entry(it.handle, it.nonce, it.attributes, it.hmac) for it in entries]
    return command(code, text + area(*those) + parameters, SESSIONS)


def on_handles(
    code: int, handles: Iterable[int], parameters: bytes = b"", entries: list[bytes] | None = None
) -> bytes:
    """Returns a command with handles and with these entries, by default the empty password for the
    first handle.
    """
    text = b"".join(number(it, 4) for it in handles)
    text += area(*([entry()] if entries is None else entries))
    return command(code, text + parameters, SESSIONS)


def on_handle(
    code: int, handle: int, parameters: bytes = b"", entries: list[bytes] | None = None
) -> bytes:
    """Returns a command with one handle; see `on_handles`."""
    return on_handles(code, [handle], parameters, entries)


def symmetric(aes: bool = False, xor: int | None = None) -> bytes:
    """Returns a session's symmetric definition: AES-128 in CFB mode, XOR with a hash algorithm, or
    none.
    """
    if xor is not None:
        return number(XOR, 2) + number(xor, 2)
    if not aes:
        return number(ALG_NULL, 2)
    return number(AES, 2) + number(AES_KEY_BITS, 2) + number(CFB, 2)


def start_auth_session(
    nonce: bytes,
    bind: int = RH_NULL,
    algorithm: int = SHA256,
    aes: bool = False,
    tpm_key: int = RH_NULL,
    salt: bytes = b"",
    kind: int = SE_HMAC,
    xor: int | None = None,
) -> tuple[list[int], bytes]:
    """Returns the handles of TPM2_StartAuthSession and its parameters."""
    parameters = sized(nonce) + sized(salt) + number(kind, 1)
    return [tpm_key, bind], parameters + symmetric(aes, xor) + number(algorithm, 2)


def selection(*banks: tuple[int, Iterable[int]]) -> bytes:
    """Returns a PCR selection: for each bank its hash algorithm and the numbers of its PCRs."""
    text = number(len(banks), 4)
    for algorithm, pcrs in banks:
        bits = sum(1 << pcr for pcr in set(pcrs))
        text += number(algorithm, 2) + b"\x03" + bits.to_bytes(3, "little")
    return text


def digests(*values: tuple[int, bytes]) -> bytes:
    """Returns a list of digests, each with its hash algorithm."""
    return number(len(values), 4) + b"".join(number(alg, 2) + digest for alg, digest in values)


def sized_list(*values: bytes, count: int | None = None) -> bytes:
    """Returns a list of sized buffers. Its count is correct, unless `count` is passed."""
    return number(len(values) if count is None else count, 4) + b"".join(map(sized, values))


def policy_secret(
    nonce_tpm: bytes = b"", cp_hash: bytes = b"", policy_ref: bytes = b"", expiration: int = 0
) -> bytes:
    """Returns the parameters of TPM2_PolicySecret."""
    return sized(nonce_tpm) + sized(cp_hash) + sized(policy_ref) + number(expiration, 4)


def attack_parameters(max_tries: int, recovery_time: int, lockout_recovery: int) -> bytes:
    """Returns the parameters of TPM2_DictionaryAttackParameters."""
    return b"".join(number(it, 4) for it in (max_tries, recovery_time, lockout_recovery))


def policy_nv(operand: bytes = b"", offset: int = 0, operation: int = 0) -> bytes:
    """Returns the parameters of TPM2_PolicyNV."""
    return sized(operand) + number(offset, 2) + number(operation, 2)


def nv_public_area(
    index: int, name_algorithm: int, attributes: int, auth_policy: bytes, data_size: int
) -> bytes:
    """Returns a TPMS_NV_PUBLIC."""
    head = field("index", index, 4) + field("name_algorithm", name_algorithm, 2)
    head += field("attributes", attributes, 4)
    return head + sized_field("auth_policy", auth_policy) + field("data_size", data_size, 2)


def nv_define_space(public: bytes, auth: bytes = b"") -> bytes:
    """Returns the parameters of TPM2_NV_DefineSpace, given the encoding of a public area."""
    return sized(auth) + sized(public)


def nv_write(data: bytes, offset: int = 0) -> bytes:
    """Returns the parameters of TPM2_NV_Write."""
    return sized(data) + number(offset, 2)


def nv_read(size: int, offset: int = 0) -> bytes:
    """Returns the parameters of TPM2_NV_Read."""
    return number(size, 2) + number(offset, 2)


def sensitive_create(user_auth: bytes = b"", data: bytes = b"") -> bytes:
    """Returns a TPM2B_SENSITIVE_CREATE: an authorization value, and a key or the data to seal."""
    return sized(sized(user_auth) + sized(data))


def scheme(algorithm: int) -> bytes:
    """Returns the HMAC scheme of a KEYEDHASH: a hash algorithm, or NULL if the caller of TPM2_HMAC
    chooses one.
    """
    if algorithm == ALG_NULL:
        return number(ALG_NULL, 2)
    return number(ALG_HMAC, 2) + number(algorithm, 2)


def public_area(
    kind: int,
    name_algorithm: int,
    attributes: int,
    auth_policy: bytes,
    details: bytes,
    unique: bytes,
) -> bytes:
    """Returns a TPMT_PUBLIC; `details` are the scheme of a KEYEDHASH or the cipher of a
    SYMCIPHER.
    """
    head = field("kind", kind, 2) + field("name_algorithm", name_algorithm, 2)
    head += field("attributes", attributes, 4)
    return head + sized_field("auth_policy", auth_policy) + details + sized_field("unique", unique)


def creation(sensitive: bytes, public: bytes, outside_info: bytes = b"", pcrs: Banks = ()) -> bytes:
    """Returns the parameters of TPM2_CreatePrimary and TPM2_Create. `sensitive` and `public`
    include their sizes.
    """
    return sensitive + public + sized(outside_info) + selection(*pcrs)


# What a ticket confirms: the creation of an object, an assertion, or that a digest may be signed
# (Part 2, section 6.9).
ST_CREATION, ST_AUTH_SECRET, ST_HASHCHECK = 0x8021, 0x8023, 0x8024


def ticket(tag: int, hierarchy: int, digest: bytes) -> bytes:
    """Returns a ticket."""
    return number(tag, 2) + number(hierarchy, 4) + sized(digest)


# The ticket of an assertion that does not expire, with TPM_RH_NULL and an empty digest.
NULL_TICKET = ticket(ST_AUTH_SECRET, RH_NULL, b"")


def refusal(code: int) -> bytes:
    """Returns the response to a refused command, which has only a header."""
    tag = BAD_TAG_ANSWER if code == CODES["BAD_TAG"] else NO_SESSIONS
    return HEADER.pack(tag, HEADER_BYTES, code)


def success(answer: bytes, entries: list[bytes] | None = None, handle: bytes = b"") -> bytes:
    """Returns a successful response: a handle, if any, the parameters, and, with sessions, their
    entries.
    """
    if entries is None:
        tag, body = NO_SESSIONS, handle + answer
    else:
        tag, body = SESSIONS, handle + number(len(answer), 4) + answer + b"".join(entries)
    return HEADER.pack(tag, HEADER_BYTES + len(body), 0) + body


def entry_answer(
    nonce: bytes = b"", attributes: int = CONTINUE_SESSION, hmac: bytes = b""
) -> bytes:
    """Returns an entry of a response, by default the one for a password."""
    return sized(nonce) + number(attributes, 1) + sized(hmac)


def spelled_code(code: int) -> tuple[str, str]:
    """Returns the name of a response code and its place, such as HASH and p1; each is empty if
    unknown.
    """
    place = ""
    if code & 0x080 and code >> 8:
        kind = "p" if code & PLACES["p"] else "s" if code & PLACES["s"] else "h"
        place = f"{kind}{(code - PLACES[kind]) >> 8 & 0xF}"
        code = code & 0x0BF
    names = {value: name for name, value in CODES.items()}
    return names.get(code, ""), place


@functools.cache
def code_of(name: str) -> int:
    """Returns the number of a response code such as HASH/p1: the number of HASH plus the number of
    the place p1.
    """
    code, slash, place = name.partition("/")
    added = PLACES[place[0]] + 0x100 * int(place[1:]) if slash else 0
    return CODES[code] + added
