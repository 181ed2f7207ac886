"""Tests hash, HMAC and event sequences, which the completing layer serves:

    tools/python.sh sequences.py [LIBRARY]

LIBRARY is the shared library. The Python device executes the same commands. Both must return the
same responses, and have the same state at the end. Without LIBRARY the test uses only the Python
device. Digests and HMACs are compared with those of hashlib and hmac.
"""

import functools
import hashlib
import hmac
from collections.abc import Callable, Iterable, Sequence

from tpmsim.caller import HERE, hmac_key, OPEN, sealed, storage_key
from tpmsim.model.state import CLEAR, STATE
from tpmsim.standard import ALG_NULL, area, CC, command, entry, Fields, number, on_handle
from tpmsim.standard import on_handles, RH_LOCKOUT, RH_NULL, RH_OWNER, SESSIONS, SHA1, SHA256, sized
from tpmsim.standard.handle_kinds import PRIMARY_HIERARCHIES
from tpmsim.standard.objects import Attribute
from tests.common.hashed_sessions import HASHES
from tests.common.layer import Client, play, run
from tests.common.layer_commands import COMPLETE, complete, CONTEXT_SAVE, EVENT_COMPLETE
from tests.common.layer_commands import event_complete, FIRST, flush, HMAC_START, hmac_start, PCR
from tests.common.layer_commands import SECOND, START, start, THIRD, UPDATE, update

HASH, LATE_PCR, GENERATED = 0x17D, 17, bytes.fromhex("ff544347")
LONG = bytes(range(256)) * 4

# An HMAC key that is protected against guessing.
GUARDED = hmac_key(attributes=HERE | Attribute.USER_WITH_AUTH)

# Data in parts, the last of which goes to the command that ends the sequence.
DATA = (
    *((b"",), (b"abc",), (b"abc", b""), (b"abc", b"def", b"ghi"), (LONG, LONG, LONG)),
    *((LONG, LONG, b"seven b"), (bytes(63), b"1"), (bytes(64), b""), (bytes(65),)),
    tuple(bytes([it]) for it in range(130)),
)


def same(handle: int) -> int:
    return handle


def all_in(
    client: Client,
    buffer: bytes,
    parts: Sequence[bytes],
    password: bytes = b"",
    moved: Callable[[int], int] = same,
) -> int:
    """Starts a sequence with a command, and adds all parts but the last one. `moved` may give the
    sequence another handle after each of these commands. Returns its handle.
    """
    handle = moved(client.started(buffer))
    for part in parts[:-1]:
        client.done(update(handle, part, password))
        handle = moved(handle)
    return handle


def result(client: Client, handle: int, data: bytes, password: bytes = b"") -> bytes:
    """Ends a sequence with the last data, and returns its digest or HMAC."""
    return Fields(client.done(complete(handle, data, password=password))[4:]).sized()


def completed(
    client: Client, buffer: bytes, parts: Sequence[bytes], hierarchy: int = RH_NULL
) -> tuple[bytes, str]:
    """Returns the digest of a sequence of these parts, and its ticket in hex."""
    fields = Fields(client.done(complete(all_in(client, buffer, parts), parts[-1], hierarchy)))
    fields.number(4)
    found = fields.sized()
    ticket = fields.take(6) + sized(fields.sized())
    assert fields.data == bytes.fromhex("0000010000"), "the answer to a password"
    return found, ticket.hex()


def count(right: Iterable[bool], what: str) -> str:
    """Says how many results equal those of hashlib and hmac."""
    return f"{sum(right)} {what} are right"


def digest_of(name: str, parts: Sequence[bytes]) -> bytes:
    return hashlib.new(name, b"".join(parts)).digest()


def pcrs(client: Client) -> dict[str, bytes]:
    """Returns the values of the PCR that events extend, in both banks."""
    return {it: client.pcr(it, PCR) for it in HASHES.values()}


def is_event(
    client: Client, pcr: int, before: dict[str, bytes], data: bytes, fields: Fields
) -> list[bool]:
    """Compares the digests in a response, and the PCR in both banks, with those of hashlib. Only
    an event of this PCR extends it; `before` are its values before the event.
    """
    right = []
    for algorithm, name in HASHES.items():
        digest = digest_of(name, [data])
        after = digest_of(name, [before[name], digest])
        right.append((fields.number(2), fields.take(len(digest))) == (algorithm, digest))
        right.append(client.pcr(name, PCR) == (after if pcr == PCR else before[name]))
    return right


def hashes(client: Client) -> None:
    """Hashes data in several parts. A slot becomes free at the end of each sequence."""
    for algorithm, name in HASHES.items():
        wanted = [(digest_of(name, it), "8024400000070000") for it in DATA]
        found = [completed(client, start(algorithm), it) for it in DATA]
        print(f"{name}:", count(map(tuple.__eq__, wanted, found), "digests"))


def restored_hashes(client: Client) -> None:
    """Runs `hashes` on devices that are restored from their state texts after each command."""
    client.device.reopens = True
    hashes(client)


def tickets(client: Client) -> None:
    """The ticket is an HMAC of the digest with the hierarchy's proof, the same that TPM2_Hash
    returns.
    """
    handle = client.started(start())
    for hierarchy in (*PRIMARY_HIERARCHIES, RH_LOCKOUT):
        if hierarchy == RH_LOCKOUT:
            print(f"of {hierarchy:08x}:", client.code(complete(handle, b"abc", hierarchy)))
            continue
        found, ticket = completed(client, start(), (b"a", b"bc"), hierarchy)
        proof = client.device.model.proofs[hierarchy]
        right = hmac.digest(proof, b"\x80\x24" + found, "sha256") if hierarchy != RH_NULL else b""
        own = number(0x8024, 2) + number(hierarchy, 4) + sized(right)
        asked = sized(b"abc") + number(SHA256, 2) + number(hierarchy, 4)
        same = client.done(command(HASH, asked)) == sized(found) + own
        print(f"of {hierarchy:08x}: {ticket == own.hex()}, like TPM2_Hash's {same}")


def generated(client: Client) -> None:
    """Data that begin with TPM_GENERATED_VALUE get a NULL ticket, however they are divided."""
    for data in (
        GENERATED,
        GENERATED + b"more",
        GENERATED[:3],
        GENERATED[:3] + b"H",
        b"\0" + GENERATED,
    ):
        hierarchies = set()
        for at in range(len(data) + 1):
            for parts in ((data[:at], data[at:]), (data[:at], b"", data[at:], b"")):
                _, ticket = completed(client, start(), parts, RH_OWNER)
                hierarchies.add(ticket[4:12])
        print(f"{data.hex()}: {', '.join(hierarchies)}")


def events(client: Client) -> None:
    """An event sequence hashes with both algorithms, and extends a PCR in both banks."""
    parts = LONG, b"event"
    for pcr in (PCR, RH_NULL):
        before, handle = pcrs(client), all_in(client, start(ALG_NULL), parts)
        fields = Fields(client.done(event_complete(pcr, handle, parts[-1])))
        size, digests = fields.number(4), fields.number(4)
        right = is_event(client, pcr, before, b"".join(parts), fields)
        print(f"{pcr:08x}: {size} bytes, {digests} digests, right {right}, and {fields.data.hex()}")
    handle = client.started(start(ALG_NULL))
    print("PCR 17 at locality 0:", client.code(event_complete(LATE_PCR, handle)))
    print("PCR 24:", client.code(event_complete(24, handle)))
    print(
        "a password for the PCR:", client.code(event_complete(PCR, handle, passwords=(b"x", b"")))
    )
    print("an event sequence in SequenceComplete:", client.code(complete(handle)))
    other = client.started(start())
    print("a hash sequence in EventSequenceComplete:", client.code(event_complete(PCR, other)))
    print("still there:", client.handles())
    client.device.locality = 3
    print("PCR 17 at locality 3:", client.code(event_complete(LATE_PCR, handle)))


def hmacs(client: Client) -> None:
    """Computes HMACs with a key whose scheme has a hash, and with one whose scheme is NULL."""
    fixed, free = client.key(b"k" * 70), client.key(template=hmac_key(scheme=ALG_NULL))
    client.tpm.call("EvictControl", RH_OWNER, free, uses=[b""], persistentHandle=0x81000001)
    for words, key, data, asked, name in (
        ("scheme SHA-256, asked NULL", fixed, b"k" * 70, ALG_NULL, "sha256"),
        ("scheme SHA-256, asked SHA-256", fixed, b"k" * 70, SHA256, "sha256"),
        ("scheme NULL, asked SHA-1", free, b"key", SHA1, "sha1"),
        ("scheme NULL, asked SHA-256", free, b"key", SHA256, "sha256"),
        ("a persistent key", 0x81000001, b"key", SHA1, "sha1"),
    ):
        wanted = [(hmac.digest(data, b"".join(it), name), "8024400000070000") for it in DATA]
        found = [completed(client, hmac_start(key, asked), it, RH_OWNER) for it in DATA]
        print(f"{words}:", count(map(tuple.__eq__, wanted, found), "HMACs"))
    print("scheme SHA-256, asked SHA-1:", client.code(hmac_start(fixed, SHA1)))
    print("scheme NULL, asked NULL:", client.code(hmac_start(free)))


def restored_hmacs(client: Client) -> None:
    """The key is no longer needed when the sequence has started."""
    client.device.reopens = True
    key = client.key()
    handle = client.started(hmac_start(key))
    client.flush(key)
    client.done(update(handle, LONG))
    found = result(client, handle, b"end")
    print("restored after each command:", found == hmac.digest(b"key", LONG + b"end", "sha256"))
    handle = client.started(start(ALG_NULL))
    client.done(update(handle, LONG))
    found = client.done(event_complete(PCR, handle, b"end"))[10:30]
    print("an event sequence:", found == hashlib.sha1(LONG + b"end").digest())


def keys_that_cannot(client: Client) -> None:
    """The device itself decides whether a key may be used, and counts failed tries."""
    protected = client.key(value=b"pin", template=GUARDED)
    print("a wrong password:", client.code(hmac_start(protected, password=b"wrong")))
    print("failed tries:", client.tries())
    print("the right one:", client.code(hmac_start(protected, password=b"pin")))
    open_key = client.key(value=b"pin")
    print("a wrong password of a key with noDA:", client.code(hmac_start(open_key)))
    print("failed tries:", client.tries())
    restricted = client.key(template=hmac_key(attributes=HERE | OPEN | Attribute.RESTRICTED))
    print("a restricted key:", client.code(hmac_start(restricted)))
    print("sealed data:", client.code(hmac_start(client.key(b"data", template=sealed()))))
    storage = client.tpm.create_primary(storage_key())
    print("a storage key:", client.code(hmac_start(storage, SHA256)))
    print("no object:", client.code(hmac_start(0x80000007)))
    print("a sequence:", client.code(hmac_start(FIRST)))
    parameters = sized(b"") + number(ALG_NULL, 2)
    buffer = with_session(client, HMAC_START, protected, parameters)
    print("an HMAC session without an HMAC:", client.code(buffer))


def with_session(client: Client, code: int, handle: int, parameters: bytes) -> bytes:
    """Returns a command whose entry has an HMAC session, and an empty HMAC."""
    session = client.tpm.session().handle
    return on_handle(code, handle, parameters, [entry(session, bytes(16))])


def passwords(client: Client) -> None:
    """A sequence object has a password, which is not protected against guessing."""
    handle = client.started(start(ALG_NULL, b"pin"))

    def with_entries(*entries: bytes) -> bytes:
        return on_handle(UPDATE, handle, sized(b""), list(entries))

    for words, buffer in (
        ("no password", update(handle, b"")),
        ("a wrong password", update(handle, b"", b"wrong")),
        ("the right one", update(handle, b"", b"pin")),
        ("with zeros after it", update(handle, b"", b"pin" + bytes(29))),
        ("of 33 bytes", update(handle, b"", b"pin" + bytes(30))),
        ("a wrong one at the end", complete(handle, password=b"wrong")),
        ("a wrong one for an event", event_complete(PCR, handle, passwords=(b"", b"wrong"))),
        ("one password for two handles", event_complete(PCR, handle, passwords=(b"",))),
        ("three", event_complete(PCR, handle, passwords=(b"", b"pin", b""))),
        ("no sessions", command(UPDATE, number(handle, 4) + sized(b""))),
        ("an HMAC session without an HMAC", with_session(client, UPDATE, handle, sized(b""))),
        ("a second entry", with_entries(entry(hmac=b"pin"), entry())),
        ("a reserved bit", with_entries(entry(attributes=9, hmac=b"pin"))),
        ("audit", with_entries(entry(attributes=0x81, hmac=b"pin"))),
        ("decrypt", with_entries(entry(attributes=0x21, hmac=b"pin"))),
        ("an empty area", command(UPDATE, number(handle, 4) + area() + sized(b""), SESSIONS)),
        ("HashSequenceStart with a password", command(START, area(entry()) + bytes(3), SESSIONS)),
    ):
        print(f"{words}: {client.code(buffer)}")
    print("failed tries:", client.tries())


def slots(client: Client) -> None:
    """There are at most three sequences. Their handles follow those of the device's objects."""
    key = client.key()
    print(
        "handles:",
        *(f"{client.started(it):08x}" for it in (start(), start(ALG_NULL), hmac_start(key))),
    )
    print("a fourth:", client.codes(start(), hmac_start(key)))
    print("with a wrong password:", client.code(hmac_start(key, password=b"x")))
    print("listed:", client.handles())
    print("listed from the second on:", client.handles(SECOND, 1))
    print("flushed:", client.codes(flush(SECOND), flush(SECOND), flush(THIRD + 1)))
    print("listed:", client.handles())
    print("used after it:", client.code(update(SECOND, b"")))
    print("the free slot:", f"{client.started(start()):08x}")
    for words, code in (("ContextSave", CONTEXT_SAVE), ("ReadPublic", CC.ReadPublic)):
        print(f"{words} of a sequence:", client.code(command(code, number(FIRST, 4))))
    client.device.completes = False
    print("without the layer:", client.codes(update(FIRST, b""), flush(FIRST)))
    client.device.completes = True
    print("with it:", client.codes(update(FIRST, b""), flush(FIRST)))


def commands(client: Client) -> None:
    asked = client.tpm.call("GetCapability", capability=2, property=0x13E, propertyCount=200)
    found = asked.capabilityData.commands
    own = (COMPLETE, HMAC_START, UPDATE, EVENT_COMPLETE, START)
    print("attributes:", *(f"{it:08x}" for it in found if it & 0xFFFF in own))
    print("commands:", {it: client.property(it) for it in (0x129, 0x12A)})


def powered(client: Client) -> None:
    """Sequences end at a power cycle, even if the device resumes."""
    for words, kind in (("a TPM Reset", CLEAR), ("a TPM Resume", STATE)):
        gone = update(client.started(start()), b"")
        before = client.restart(kind, kind, lambda: client.code(gone))
        print(f"{words}: before TPM2_Startup {before}, after it {client.code(gone)}")
        gone = update(client.started(start()), b"")
        client.restart(kind, kind)
        print(f"{words}, only TPM2_Startup: {client.code(gone)}")


def malformed(client: Client) -> None:
    handle = client.started(start(ALG_NULL))
    password, data = area(entry()), sized(b"data")
    for words, buffer in (
        ("an authorization value of 33 bytes", start(auth=bytes(33))),
        ("SHA-384", start(0x0C)),
        ("a byte after the hash", command(START, sized(b"") + number(SHA256, 2) + b"\0")),
        ("no hash", command(START, sized(b""))),
        ("1,025 bytes", update(handle, bytes(1025))),
        ("a byte after the data", on_handle(UPDATE, handle, data + b"\0")),
        ("cut data", on_handle(UPDATE, handle, data[:-1])),
        ("no hierarchy", on_handle(COMPLETE, handle, data)),
        (
            "a byte after the hierarchy",
            on_handle(COMPLETE, handle, data + number(RH_NULL, 4) + b"\0"),
        ),
        (
            "a byte after an event",
            on_handles(EVENT_COMPLETE, [PCR, handle], data + b"\0", [entry()] * 2),
        ),
        ("half a handle", command(UPDATE, b"\x80\0", SESSIONS)),
        ("the owner's handle", command(UPDATE, number(RH_OWNER, 4) + password + data, SESSIONS)),
        ("no sequence", update(SECOND, b"")),
        ("an object's handle", update(0x80000000, b"")),
        ("the owner's as second", event_complete(PCR, RH_OWNER)),
        ("no sequence as second", event_complete(PCR, THIRD)),
        ("one handle", command(EVENT_COMPLETE, number(PCR, 4), SESSIONS)),
        ("none of this changed it", event_complete(PCR, handle)),
    ):
        print(f"{words}: {client.code(buffer)}")


TESTS = (
    *(hashes, restored_hashes, tickets, generated, events, hmacs, restored_hmacs, keys_that_cannot),
    *(passwords, slots, commands, powered, malformed),
)


main = functools.partial(play, TESTS)

if __name__ == "__main__":
    run(main)
