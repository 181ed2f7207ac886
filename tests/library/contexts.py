"""Tests contexts of objects and sessions that the completing layer saves and loads:

    tools/python.sh contexts.py [LIBRARY]

LIBRARY is the shared library. The Python device executes the same commands. Both must return the
same responses, and have the same state at the end. Without LIBRARY the test uses only the Python
device.
"""

import collections
import functools
from collections.abc import Callable, Iterable

from tpmsim.caller import HERE, hmac_key, OPEN, Refused, Session, storage_key, Use
from tpmsim.model.machine import SESSIONS
from tpmsim.model.object_commands import OBJECTS
from tpmsim.model.state import CLEAR, STATE
from tpmsim.standard import CC, command, mac, number, RH_LOCKOUT, RH_OWNER, RH_PLATFORM, SE_POLICY
from tpmsim.standard import SHA256
from tpmsim.standard.handle_kinds import PRIMARY_HIERARCHIES
from tpmsim.standard.objects import Attribute
from tests.common.layer import Client, play, run
from tests.common.layer_commands import flush, save

CHILDREN, FIRST_OBJECT, FIRST_SESSION = 12, 0x8000_0000, 0x0200_0000
HR_TRANSIENT_AVAIL = 0x207
SAVED_HANDLE_AT, HIERARCHY_AT = slice(8, 12), slice(12, 16)

# Ways to change a byte: flip its lowest bit; flip its highest bit; add one.
WAYS: tuple[Callable[[int], int], ...] = (
    lambda byte: byte ^ 1,
    lambda byte: byte ^ 0x80,
    lambda byte: byte + 1 & 0xFF,
)

# Ways to power-cycle, each with the types of TPM2_Shutdown and TPM2_Startup.
RESTARTS = (
    ("a TPM Resume", STATE, STATE),
    ("a TPM Restart", STATE, CLEAR),
    ("a TPM Reset", CLEAR, CLEAR),
)


def key(
    client: Client, text: bytes = b"key", attributes: int = HERE | OPEN, hierarchy: int = RH_OWNER
) -> int:
    """Returns an HMAC key. Its authorization value is also the text of the key."""
    template = hmac_key(attributes=attributes)
    return client.tpm.create_primary(template, hierarchy=hierarchy, data=text, user_auth=text)


def hmac_is_right(client: Client, handle: int, text: bytes) -> bool:
    found = client.tpm.call("HMAC", handle, uses=[text], buffer=b"data", hashAlg=SHA256)
    return found.outHMAC == mac(SHA256, text, b"data")


def numbers(contexts: Iterable[bytes]) -> list[int]:
    """Returns the sequence numbers of contexts."""
    return [int.from_bytes(it[:8], "big") for it in contexts]


def done_or_refused(act: Callable[[], object]) -> str:
    """Returns the response code of a call."""
    try:
        act()
    except Refused as refusal:
        return f"{refusal.number:03x}"
    return "000"


def refused(act: Callable[[], object]) -> str:
    """Returns the response code with which a call is refused."""
    try:
        act()
    except Refused as refusal:
        return f"{refusal.number:03x}"
    raise AssertionError("the call is accepted")


def children(client: Client) -> None:
    """Tests keys under one parent. Each key is loaded, saved and flushed, and later loaded again
    for each use, as a resource manager does. Never more than two objects are loaded.
    """
    parent, kept = client.tpm.create_primary(storage_key()), []
    for at in range(CHILDREN):
        text = b"key %d" % at
        made = client.tpm.create(parent, hmac_key(), data=text, user_auth=text)
        handle = client.tpm.load(parent, made)
        kept.append((text, client.saved(handle)))
        client.flush(handle)
    assert numbers(context for _, context in kept) == list(range(1, CHILDREN + 1))
    right = 0
    for text, context in (*kept, *reversed(kept)):
        handle = client.loaded(context)
        assert handle == FIRST_OBJECT + 1
        right += hmac_is_right(client, handle, text)
        client.flush(handle)
    print(f"{CHILDREN} children by their contexts, twice: {right} HMACs are right")


def copies(client: Client) -> None:
    """A context can be loaded several times, until no slot is free. A full device does not change."""
    context, handles = client.saved(key(client)), []
    while len(client.device.model.objects) < OBJECTS:
        handles.append(client.loaded(context))
    print("loaded as", ", ".join(f"{it:08x}" for it in handles))
    before = client.state()
    print("a full device:", client.load_code(context))
    print("a ninth key:", refused(lambda: key(client, b"ninth")))
    assert client.state() == before
    client.flush(handles[3])
    print(f"after a flush of {handles[3]:08x}: {client.loaded(context):08x}")
    client.flush(FIRST_OBJECT, handles[2], handles[4])
    lowest_first = [FIRST_OBJECT, handles[2], handles[4]]
    assert [client.loaded(context) for _ in lowest_first] == lowest_first


def flushed(client: Client) -> None:
    handle = key(client)
    context = client.saved(handle)
    client.flush(handle)
    for words, buffer in (
        ("flushed twice", flush(handle)),
        ("read after a flush", command(CC.ReadPublic, number(handle, 4))),
        ("saved after a flush", save(handle)),
    ):
        print(f"{words}: {client.code(buffer)}")
    client.device.completes = False
    print("loaded without the layer:", client.load_code(context))
    assert client.code(save(handle)) == "143"
    client.device.completes = True
    print("loaded with it:", client.load_code(context))


def counted(words: str, codes: Iterable[str]) -> None:
    counts = collections.Counter(codes)
    print(f"{words}: {', '.join(f'{count} {code}' for code, count in sorted(counts.items()))}")


def load_bent(client: Client, context: bytes, words: str, saved_handles: Iterable[int]) -> None:
    """Loads each proper prefix of a context, longer texts, and contexts in which a byte, the
    hierarchy or savedHandle is changed.
    """
    code, sizes = client.load_code, range(len(context))
    before = client.state()
    counted("its proper prefixes", (code(context[:it]) for it in sizes))
    counted(words, (code(context + bytes(it)) for it in (1, 40, 900)))
    turned = (
        code(context[:at] + bytes([way(context[at])]) + context[at + 1 :])
        for at in sizes
        for way in WAYS
    )
    counted("a byte turned, in three ways", turned)
    assert client.state() == before
    for hierarchy in (*PRIMARY_HIERARCHIES, RH_LOCKOUT):
        other = with_field(context, HIERARCHY_AT, hierarchy)
        print(f"of hierarchy {hierarchy:08x}: {code(other)}")
    for saved in saved_handles:
        other = with_field(context, SAVED_HANDLE_AT, saved)
        print(f"with savedHandle {saved:08x}: {code(other)}")


def bent(client: Client) -> None:
    handle = key(client)
    context = client.saved(handle)
    client.flush(handle)
    handles = *range(0x8000_0000, 0x8000_0004), 0x8100_0000, 0x0200_0000, 0x0300_0000
    load_bent(client, context, "with bytes behind it", handles)


def with_field(context: bytes, at: slice, value: int) -> bytes:
    return context[: at.start] + number(value, 4) + context[at.stop :]


def cleared(client: Client) -> None:
    context, platform = client.saved(key(client)), key(client, hierarchy=RH_PLATFORM)
    print("before TPM2_Clear:", client.load_code(context))
    client.tpm.call("Clear", RH_PLATFORM, uses=[b""])
    print("after it:", client.load_code(context))
    again = client.saved(platform)
    print("one of the platform, saved after it:", client.load_code(again))


def never_again(client: Client) -> None:
    """Contexts of each hierarchy that were saved before TPM2_Clear and a TPM Reset are not loaded,
    although resetCount then has the value that it had when they were saved.
    """
    client.restart(CLEAR, CLEAR)
    client.tpm.call("Clear", RH_PLATFORM, uses=[b""])
    client.restart(CLEAR, CLEAR)
    resets = client.device.model.reset_count
    kept = [client.saved(key(client, hierarchy=it)) for it in PRIMARY_HIERARCHIES]
    codes = ", ".join(map(client.load_code, kept))
    print(f"of each hierarchy: {codes}")
    client.flush(*range(FIRST_OBJECT, FIRST_OBJECT + 2 * len(kept)))
    client.tpm.call("Clear", RH_PLATFORM, uses=[b""])
    print(f"after TPM2_Clear: {', '.join(map(client.load_code, kept))}")
    client.restart(CLEAR, CLEAR)
    assert client.device.model.reset_count == resets
    print(f"after a TPM Reset, with the same resetCount: {', '.join(map(client.load_code, kept))}")


def cycled(client: Client) -> None:
    """Loads contexts after power cycles: of an object without stClear, of one with stClear, and of
    a session.
    """
    st_clear = key(client, b"two", HERE | OPEN | Attribute.ST_CLEAR)
    kept = [client.saved(it) for it in (key(client), st_clear)]
    assert list(map(client.load_code, kept)) == ["000", "000"]
    for words, shutdown, startup in RESTARTS:
        session = client.saved(client.tpm.session().handle)
        before = client.restart(shutdown, startup, lambda: client.load_code(kept[0]))
        codes = ", ".join(map(client.load_code, (*kept, session)))
        print(f"after {words}: {codes}; before TPM2_Startup {before}")


def sessions(client: Client) -> None:
    """Saved sessions still occupy their slots."""
    kept = [client.saved(client.tpm.session().handle) for _ in range(SESSIONS)]
    assert {len(it) for it in kept} == {38}
    code = refused(client.tpm.session)
    print(f"a session after {len(kept)} saved ones: {code}")
    counted("their contexts, loaded", map(client.load_code, kept))
    counted("loaded twice", map(client.load_code, kept))
    again = client.saved(FIRST_SESSION)
    print("an earlier context of a saved session:", client.load_code(kept[0]))
    print("its latest context:", client.load_code(again))
    context = client.saved(key(client))
    print("an object's context next to sixteen sessions:", client.load_code(context))
    client.flush(FIRST_SESSION)
    assert client.tpm.session().handle == FIRST_SESSION
    assert client.load_code(again) == "1cb"
    for handle in range(FIRST_SESSION, FIRST_SESSION + SESSIONS):
        assert client.loaded(client.saved(handle)) == handle


def hidden(client: Client) -> None:
    """A saved session cannot be used until its context is loaded. It can be flushed."""
    handle, session = key(client), client.tpm.session()
    policy = client.tpm.session(kind=SE_POLICY)

    def use(first: Session, *others: Session) -> str:
        uses = [Use(first), *map(Use, others)]
        return done_or_refused(
            lambda: client.tpm.call("HMAC", handle, uses=uses, buffer=b"data", hashAlg=SHA256)
        )

    def read() -> str:
        return done_or_refused(lambda: client.tpm.call("PolicyGetDigest", policy.handle))

    print("a session and a policy session:", use(session), read())
    other = client.tpm.session()
    kept = [client.saved(it.handle) for it in (session, policy)]
    print("saved, in an entry and as a handle:", use(session), read())
    print("saved, in the second entry:", use(other, session))
    print("loaded again:", *map(client.load_code, kept), use(session), read())
    client.saved(session.handle)
    print("saved and flushed:", client.code(flush(session.handle)), use(session))


def listed(client: Client) -> None:
    """The lists and counts of objects match the loaded objects, whether they are saved or not."""

    def are_there(*handles: int) -> bool:
        free = client.property(HR_TRANSIENT_AVAIL)
        return (client.handles(), free) == (
            " ".join(f"{it:08x}" for it in handles),
            OBJECTS - len(handles),
        )

    handle = key(client)
    assert are_there(handle)
    client.saved(handle)
    assert are_there(handle)
    client.flush(handle)
    assert are_there()


TESTS = children, copies, flushed, bent, cleared, never_again, cycled, sessions, hidden, listed

main = functools.partial(play, TESTS, titled=False)

if __name__ == "__main__":
    run(main)
