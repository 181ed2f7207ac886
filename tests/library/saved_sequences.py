"""Tests contexts of hash, HMAC and event sequences, which the completing layer saves and loads:

    tools/python.sh saved_sequences.py [LIBRARY]

LIBRARY is the shared library. The Python device executes the same commands. Both must return the
same responses, and have the same state at the end. Without LIBRARY the test uses only the Python
device. Digests and HMACs are compared with those of hashlib and hmac.
"""

import hmac
import itertools

from tpmsim.model import contexts
from tpmsim.model.object_commands import OBJECTS
from tpmsim.model.sequences import SEQUENCES
from tpmsim.model.state_text import state_text
from tpmsim.standard import ALG_NULL, Fields, on_handle, on_handles, RH_NULL, RH_OWNER, RH_PLATFORM
from tpmsim.standard import SHA1
from tests.common.hashed_sessions import HASHES
from tests.common.layer import Client, play, run
from tests.common.layer_commands import complete, CONTEXT_LOAD, CONTEXT_SAVE, event_complete, FIRST
from tests.common.layer_commands import flush, hmac_start, load, PCR, save, SECOND, start, THIRD
from tests.common.layer_commands import update
from tests.library.contexts import load_bent, numbers, RESTARTS
from tests.library.sequences import all_in, count, DATA, digest_of, GENERATED, is_event, LONG, pcrs
from tests.library.sequences import result

PIN, MANAGED, TURNS = b"pin", 5, 4


def hashes(client: Client) -> None:
    """Hashes data in several parts. The digest must be that of all data together."""
    for algorithm, name in HASHES.items():
        right = []
        for parts in DATA:
            handle = all_in(client, start(algorithm, PIN), parts, PIN, client.moved)
            right.append(result(client, handle, parts[-1], PIN) == digest_of(name, parts))
        print(f"{name}:", count(right, "digests"))


def hmacs(client: Client) -> None:
    """Computes HMACs of data in several parts. The key is flushed when the sequence has started."""
    right = []
    for parts in DATA:
        key = client.key(b"k" * 70)
        handle = client.moved(client.started(hmac_start(key, auth=PIN)))
        client.flush(key)
        for part in parts[:-1]:
            client.done(update(handle, part, PIN))
            handle = client.moved(handle)
        found = result(client, handle, parts[-1], PIN)
        right.append(found == hmac.digest(b"k" * 70, b"".join(parts), "sha256"))
    print(count(right, "HMACs"))


def events(client: Client) -> None:
    """Sends events in several parts. An event must extend its PCR in both banks, unless it is for
    TPM_RH_NULL.
    """
    right = []
    for pcr, parts in (*((PCR, it) for it in DATA), (RH_NULL, DATA[3])):
        before = pcrs(client)
        handle = all_in(client, start(ALG_NULL, PIN), parts, PIN, client.moved)
        fields = Fields(client.done(event_complete(pcr, handle, parts[-1], (b"", PIN)))[8:])
        found = is_event(client, pcr, before, b"".join(parts), fields)
        assert all(found)
        right += found[1::2] if pcr == PCR else []
    print(count(right, "PCRs"))


def restored(client: Client) -> None:
    """Runs `hashes`, `hmacs` and `events` on devices that are restored from their state texts after
    each command.
    """
    client.device.reopens = True
    for test in (hashes, hmacs, events):
        test(client)


def beginnings(client: Client) -> None:
    """A sequence that was saved and loaded still knows how its data begin."""
    for data in (GENERATED, GENERATED[:3] + b"H"):
        hierarchies = set()
        for at in range(len(data) + 1):
            handle = all_in(client, start(auth=PIN), (data[:at], b""), PIN, client.moved)
            found = client.done(complete(handle, data[at:], RH_OWNER, PIN))
            hierarchies.add(found[40:44].hex())
        print(f"{data.hex()}: {', '.join(hierarchies)}")


def stays(client: Client) -> None:
    """A sequence that is saved stays in its slot. Its context has the next sequence number, and
    contains the slot.
    """
    handle, key, session = client.started(start()), client.key(), client.tpm.session().handle
    kept = list(map(client.saved, (handle, key, handle, session, handle)))
    layer = client.device.completion
    assert contexts.opened(client.device.model, layer.start, kept[0]) == layer.sequences[0]
    print("sequence numbers:", *numbers(kept))
    print("sizes:", *map(len, kept))
    print("heads:", *(it[8:16].hex() for it in kept[:2]))
    print("used after it:", client.code(update(handle, b"data")))
    print("listed:", client.handles())
    print("password:", client.code(update(client.loaded(kept[0]), b"", b"x")))
    guarded = client.moved(client.started(start(SHA1, PIN)))
    assert layer.sequences[2].auth == PIN.ljust(32, b"\0")
    assert client.code(update(guarded, b"")) == "9a2"


def device_unchanged(client: Client) -> None:
    """Neither saving nor loading a sequence changes the device, and no object is placed. The layer
    only counts the context.
    """
    handle, layer, model = client.started(start()), client.device.completion, client.device.model
    client.done(update(handle, b"data"))
    before, counted, held = state_text(model), layer.count, list(layer.sequences)
    told: list[object] = []
    model.tell = told.append
    context = client.saved(handle)
    assert (layer.count, layer.sequences) == (counted + 1, held)
    client.loaded(context)
    assert (state_text(model), told) == (before, [])
    assert result(client, handle, b"end") == digest_of("sha256", [b"dataend"])


def copies(client: Client) -> None:
    """A context can be loaded several times, until no slot is free. Each copy continues separately."""
    handle = client.started(start())
    client.done(update(handle, b"one"))
    context = client.saved(handle)
    client.done(update(handle, b"two"))
    handles = [client.loaded(context) for _ in range(SEQUENCES - 1)]
    print("loaded as", *(f"{it:08x}" for it in handles))
    before = client.state()
    print("all slots are taken:", client.codes(load(context), start()))
    assert client.state() == before
    client.done(update(handles[0], b"three"))
    for it, data in ((handle, b"onetwo"), (handles[0], b"onethree"), (handles[1], b"one")):
        print(f"{it:08x}: {result(client, it, b'') == digest_of('sha256', [data])}")
    print("the lowest free slot:", f"{client.loaded(context):08x}")


def objects(client: Client) -> None:
    """Objects and sequences have separate slots."""
    kept = [client.saved(client.key()) for _ in range(OBJECTS)]
    context = client.saved(client.started(start(ALG_NULL)))
    print("an event next to eight objects:", client.codes(*[load(context)] * 3))
    print("an object next to it:", client.load_code(kept[0]))
    client.flush(0x80000003)
    print("after a flush of an object:", f"{client.loaded(kept[0]):08x}")


def without(client: Client) -> None:
    """Tests handles that do not name a sequence, commands with a password, and commands without the
    layer.
    """
    handle = client.started(start())
    context = client.saved(handle)
    others = SECOND, THIRD, THIRD + 1, 0x80000000, 0x80FFFFFF
    print("no sequence:", client.codes(*map(save, others)))
    client.flush(handle)
    print("a flushed one:", client.codes(save(handle), flush(handle)))
    print("loaded again:", f"{client.loaded(context):08x}")
    client.done(complete(handle))
    print("a completed one:", client.code(save(handle)))
    print("with a password:", client.code(on_handle(CONTEXT_SAVE, client.started(start()), b"")))
    print("loaded with one:", client.code(on_handles(CONTEXT_LOAD, [], context)))
    client.device.completes = False
    print("without the layer:", client.codes(save(FIRST), load(context)))
    client.device.completes = True
    print("with it:", client.codes(save(FIRST), load(context)))


def bent(client: Client) -> None:
    """None of the changed contexts changes the sequences."""
    handle = client.started(start(ALG_NULL))
    context = client.saved(handle)
    client.flush(handle)
    handles = *range(0x80000000, 0x80000004), FIRST, 0x02000000
    load_bent(client, context, "with bytes after it", handles)
    print("listed:", client.handles())


def cleared(client: Client) -> None:
    handle = client.started(start())
    context = client.saved(handle)
    client.tpm.call("Clear", RH_PLATFORM, uses=[b""])
    print("after TPM2_Clear:", client.load_code(context))
    print("the sequence itself:", client.code(update(handle, b"data")))
    context = client.saved(handle)
    print("saved after it:", client.load_code(context))
    client.tpm.call("Clear", RH_PLATFORM, uses=[b""])
    print("after a second one, without a TPM Reset between:", client.load_code(context))


def cycled(client: Client) -> None:
    """A power cycle ends the sequences, but only a TPM Reset ends their contexts."""
    handle = client.started(start(SHA1))
    client.done(update(handle, b"data"))
    context = client.saved(handle)
    for words, shutdown, startup in RESTARTS:
        early = client.restart(shutdown, startup, lambda: client.codes(save(FIRST), load(context)))
        assert client.code(save(FIRST)) == "910"
        gone, loaded = client.code(update(FIRST, b"")), client.load_code(context)
        print(f"after {words}: {gone} {loaded}; before TPM2_Startup {early}")
        if loaded == "000":
            found = result(client, FIRST, b"end")
            print("its digest:", found == digest_of("sha1", [b"dataend"]))


def managed(client: Client) -> None:
    """Uses more sequences than there are slots. Each sequence is loaded for each of its commands,
    and then saved and flushed, as the kernel's resource manager does.
    """
    key, kept, data = client.key(), [], [b""] * MANAGED
    for at in range(MANAGED):
        handle = client.started(hmac_start(key) if at % 2 else start())
        kept.append(client.saved(handle))
        client.flush(handle)
    for turn, at in itertools.product(range(TURNS), range(MANAGED)):
        handle, part = client.loaded(kept[at]), LONG[turn + at :]
        assert handle == FIRST, "one slot is enough"
        client.done(update(handle, part))
        data[at], kept[at] = data[at] + part, client.saved(handle)
        client.flush(handle)
    right = []
    for at, context in enumerate(kept):
        found, whole = result(client, client.loaded(context), b"end"), data[at] + b"end"
        wanted = hmac.digest(b"key", whole, "sha256") if at % 2 else digest_of("sha256", [whole])
        right.append(found == wanted)
    print(f"{MANAGED} sequences:", count(right, "results"))
    print("listed:", client.handles())


TESTS = (
    *(hashes, hmacs, events, restored, beginnings, stays, copies, objects),
    *(without, bent, cleared, cycled, managed),
)


def main() -> None:
    play(TESTS)
    play([device_unchanged], titled=False)  # it prints nothing


if __name__ == "__main__":
    run(main)
