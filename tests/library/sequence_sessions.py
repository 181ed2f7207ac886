"""Tests HMAC sessions that authorize commands on sequences, which the completing layer serves:

    tools/python.sh sequence_sessions.py [LIBRARY]

LIBRARY is the shared library. The Python device executes the same commands. Both must return the
same responses, and have the same state at the end. Without LIBRARY the test uses only the Python
device. The HMACs of all sessions are computed with hashlib and hmac alone.
"""

import copy
import functools
import hmac
import itertools
from typing import Any

from tpmsim.caller import HERE, hmac_key, OPEN
from tpmsim.model.state import CLEAR, STATE
from tpmsim.standard import ALG_NULL, CC, command, entry, Fields, number, on_handle, on_handles
from tpmsim.standard import RH_LOCKOUT, RH_NULL, RH_OWNER, SHA1, SHA256, sized
from tpmsim.standard.frames import SE_POLICY, start_auth_session
from tpmsim.standard.objects import Attribute
from tests.common.hashed_sessions import Guarded, HashedSession, HASHES, name_of
from tests.common.layer import Client, play, run
from tests.common.layer_commands import COMPLETE, EVENT_COMPLETE, FIRST, HMAC_START, PCR, START
from tests.common.layer_commands import start, THIRD, UPDATE, update
from tests.library.sequences import count, DATA, digest_of, GUARDED, is_event, LATE_PCR, LONG, pcrs

PIN, SECRET, KEY = b"pin", b"secret", b"key"
FREE = hmac_key(attributes=HERE | OPEN)
WRONG: dict[str, Any] = {"own": bytes(32)}  # zeros as the HMAC


class Sessions(Client):
    """A started device, and a caller with HMAC sessions."""

    def session(
        self, algorithm: int = SHA256, bind: int = RH_NULL, value: bytes = b""
    ) -> HashedSession:
        return HashedSession(self.send, algorithm, bind, value)

    def name(self, handle: int) -> bytes:
        """Returns the Name of an object, computed from its public area."""
        return name_of(Fields(self.done(command(CC.ReadPublic, number(handle, 4)))).sized())

    def hmac_start(self, session: HashedSession, key: int, *those: Any, **given: Any) -> bytes:
        return session.hmac_start(key, self.name(key), *those, **given)

    def hmac(self, session: HashedSession, key: int, *those: Any, **given: Any) -> Guarded:
        """Starts an HMAC by a session."""
        return session.started(key, self.name(key), *those, **given)

    def hash(self, session: HashedSession, algorithm: int = SHA256, auth: bytes = b"") -> Guarded:
        """Starts a hash or event sequence, which the session authorizes."""
        return Guarded(session, self.started(start(algorithm, auth)), auth)

    def unchanged(self, buffer: bytes) -> str:
        """Returns the response code of a command, and what the command changed."""
        model, before = self.device.model, self.state()
        tries = copy.copy(model.lockout)
        code = self.code(buffer)
        if self.state() == before:
            return f"{code}, unchanged"
        model.lockout, now = tries, model.lockout
        changed = "a failed try" if self.state() == before else "changed"
        model.lockout = now
        return f"{code}, {changed}"

    def protect(self, tries: int) -> None:
        """Sets maxTries."""
        self.tpm.send(self.tpm.attack_parameters(tries, 1000, 1000, b""))


def hmac_of(data: bytes) -> bytes:
    return hmac.digest(KEY, data, "sha256")


def in_parts(sequence: Guarded, parts: tuple[bytes, ...], **given: Any) -> bytes:
    """Returns the result of a sequence with data in parts."""
    for part in parts[:-1]:
        sequence.updated(part)
    return sequence.completed(parts[-1], **given)


def hmacs(client: Sessions) -> None:
    """A session computes an HMAC from the start to the end: an unbound session, one that is bound
    to the key, and one that is bound to something else.
    """
    client.tpm.call("HierarchyChangeAuth", RH_OWNER, uses=[b""], newAuth=b"owner")
    for template, words in ((GUARDED, "a protected key"), (FREE, "a key with noDA")):
        key = client.key(KEY, SECRET, template)
        for name, bind, value, in_key in (
            ("unbound", RH_NULL, b"", SECRET),
            ("bound to the key", key, SECRET, b""),
            ("bound to the owner", RH_OWNER, b"owner", SECRET),
        ):
            for algorithm, hash_name in HASHES.items():
                session, right = client.session(algorithm, bind, value), []
                for parts in DATA[:-1]:
                    found = in_parts(client.hmac(session, key, in_key, PIN), parts)
                    right.append(found == hmac_of(b"".join(parts)))
                print(f"{words}, {name}, {hash_name}:", count(right, "HMACs"))
                client.flush(session.handle)
        client.flush(key)


def restored(client: Sessions) -> None:
    """Runs `hmacs` on devices that are restored from their state texts after each command."""
    client.device.reopens = True
    hmacs(client)


def empty_values(client: Sessions) -> None:
    """If the key of the HMAC is empty, both an empty HMAC and the right one are accepted."""
    key = client.key(KEY, b"", FREE)
    for words, own in (("an empty HMAC", b""), ("the HMAC by an empty key", None)):
        session = client.session()
        sequence = client.hmac(session, key, b"", own=own)
        sequence.updated(LONG, own=own)
        found = sequence.completed(b"end", own=own)
        print(f"{words}: {found == hmac_of(LONG + b'end')}")
    session = client.session()
    sequence = client.hmac(session, key, b"", PIN, own=b"")
    print("an empty HMAC, and a value:", client.code(sequence.update(b"", own=b"")))
    bound = client.session(bind=key)
    print("an empty HMAC, bound:", client.code(client.hmac_start(bound, key, own=b"")))
    sequence.session = bound
    print("an empty HMAC, bound, a sequence:", client.code(sequence.update(b"", own=b"")))
    zeros = client.key(KEY, SECRET + bytes(3), FREE)
    sequence = client.hmac(client.session(), zeros, SECRET, PIN + bytes(5))
    sequence.value = PIN
    sequence.updated(b"data")
    print("values with zeros:", sequence.completed(b"") == hmac_of(b"data"))


def hashes(client: Sessions) -> None:
    """A session authorizes a hash sequence, which a command without sessions starts."""
    for algorithm, name in HASHES.items():
        for auth in (b"", PIN):
            session, right = client.session(algorithm), []
            for parts in DATA[:-1]:
                sequence = client.hash(session, algorithm, auth)
                found = in_parts(sequence, parts, hierarchy=RH_OWNER)
                right.append(found == digest_of(name, parts))
            print(f"{name}, the value {auth!r}:", count(right, "digests"))
            client.flush(session.handle)


def mixed(client: Sessions) -> None:
    """Passwords and several sessions authorize the commands on one sequence in turn."""
    sessions = [client.session(it) for it in (SHA256, SHA1)]
    sequence = client.hash(sessions[0], auth=PIN)
    for session in sessions:
        sequence.session = session
        sequence.updated(b"by a session, ")
        client.done(update(sequence.handle, b"by a password, ", PIN))
    sequence.session = sessions[0]
    found = sequence.completed(b"at the end")
    text = b"by a session, by a password, " * 2 + b"at the end"
    print("all data are in the digest:", found == digest_of("sha256", [text]))


def contexts(client: Sessions) -> None:
    """The HMACs do not depend on the handle of a sequence. Its context contains no session."""
    key, session = client.key(KEY, SECRET, FREE), client.session()
    sequence = client.hmac(session, key, SECRET, PIN)
    sequence.updated(b"one, ")
    context = client.saved(sequence.handle)
    sequence.updated(b"lost")
    sequence.handle = client.loaded(context)
    client.loaded(client.saved(session.handle))
    sequence.updated(b"two")
    print("the handle:", f"{sequence.handle:08x}")
    found = sequence.completed(b"") == hmac_of(b"one, two")
    print("the sequence goes on from its context:", found)


def nonces(client: Sessions) -> None:
    """The new nonceTPM consists of the random bytes of the client's command."""
    key = client.key(KEY, SECRET, FREE)
    for algorithm in HASHES:
        session = client.session(algorithm)
        size, seen, drawn = session.size, [], []

        def note() -> None:
            drawn.append(client.device.events[-1].random[:size])
            seen.append(session.nonce_tpm)

        sequence = client.hmac(session, key, SECRET)
        note()
        sequence.updated(b"")
        note()
        sequence.completed(b"")
        note()
        different = f"{len(set(seen))} different ones"
        print(f"{size} bytes: they are the random bytes {seen == drawn}, {different}")


def ended(client: Sessions) -> None:
    """Without continueSession, the session ends with the command."""
    key = client.key(KEY, SECRET, GUARDED)

    def again(sequence: Guarded) -> str:
        return client.code(sequence.update(b""))

    sequence = client.hmac(client.session(), key, SECRET, attributes=0)
    print("after HMAC_Start:", again(sequence))
    sequence.session = client.session()
    sequence.updated(b"data", attributes=0)
    print("after SequenceUpdate:", again(sequence))
    session = sequence.session = client.session()
    found = sequence.completed(b"", attributes=0)
    other = client.hash(session)
    print("after SequenceComplete:", found == hmac_of(b"data"), again(other))
    handle = client.started(start(ALG_NULL))
    session = other.session = client.session()
    session.accepted(session.event_complete(PCR, handle, attributes=0))
    print("after EventSequenceComplete:", again(other))
    print("sessions that are left:", len(client.handles(0x02000000).split()))
    other.session = client.session()
    print("a refused command:", client.unchanged(other.update(b"", attributes=0, **WRONG)))
    print("then the right one:", again(other))


def wrong_hmacs(client: Sessions) -> None:
    """A wrong HMAC changes nothing, unless it counts as a failed try."""
    client.protect(100)
    guarded, free = client.key(KEY, SECRET, GUARDED), client.key(KEY, SECRET, FREE)
    for words, key, bind, value in (
        ("a protected key", guarded, RH_NULL, b""),
        ("a protected key, bound", guarded, guarded, SECRET),
        ("a key with noDA", free, RH_NULL, b""),
        ("a key with noDA, bound to the protected one", free, guarded, SECRET),
    ):
        session = client.session(bind=bind, value=value)
        for how, buffer in (
            ("another value", client.hmac_start(session, key, value=b"wrong")),
            ("no HMAC", client.hmac_start(session, key, own=b"")),
            ("zeros", client.hmac_start(session, key, **WRONG)),
            ("one byte", client.hmac_start(session, key, own=b"\0")),
        ):
            print(f"{words}, {how}: {client.unchanged(buffer)}")
        client.flush(session.handle)
    sequence = client.hash(client.session(), auth=PIN)
    kinds = (RH_NULL, "unbound"), (free, "bound, noDA"), (guarded, "bound, protected")
    commands = (Guarded.update, "SequenceUpdate"), (Guarded.complete, "SequenceComplete")
    for (command_of, words), (bound, kind) in itertools.product(commands, kinds):
        sequence.session = client.session(bind=bound, value=SECRET)
        told = client.unchanged(command_of(sequence, b"data", value=b"wrong"))
        print(f"{words}, {kind}: {told}")
        client.flush(sequence.session.handle)
    print("failed tries:", client.tries())
    sequence.session = client.session()
    found = sequence.completed(b"data")
    print("the sequence goes on:", found == digest_of("sha256", [b"data"]))


def other_texts(client: Sessions) -> None:
    """The HMAC covers the command code, the Names, the parameters, nonces and attributes."""
    key, handle = client.key(KEY, b"", FREE), client.started(start())
    session, name = client.session(), number(handle, 4)
    data, other = sized(b"data"), sized(b"date")

    def of(
        code: int, names: list[bytes], parameters: bytes, sent: bytes = data, to: int = UPDATE
    ) -> bytes:
        """Returns a command with the HMAC of other parts."""
        return on_handle(to, handle, sent, [session.entry(code, names, parameters)])

    print("the right parts:", client.code(of(UPDATE, [b""], data)))
    session = client.session()
    ended = data + number(RH_NULL, 4)
    for words, buffer in (
        ("the code of SequenceComplete", of(COMPLETE, [b""], data)),
        ("the handle as the Name", of(UPDATE, [name], data)),
        ("other data", of(UPDATE, [b""], other)),
        ("without parameters", of(UPDATE, [b""], b"")),
        ("the code of GetRandom", of(CC.GetRandom, [], bytes(2))),
        ("another hierarchy", of(COMPLETE, [b""], data + number(RH_OWNER, 4), ended, COMPLETE)),
        ("other attributes", with_attributes(session, handle, data)),
    ):
        print(f"{words}: {client.unchanged(buffer)}")
    parameters = sized(b"") + number(ALG_NULL, 2)
    for words, code, names in (
        ("HMAC_Start, the handle as the Name", HMAC_START, [number(key, 4)]),
        ("HMAC_Start, an empty Name", HMAC_START, [b""]),
        ("HMAC_Start, the code of HMAC", CC.HMAC, [client.name(key)]),
    ):
        buffer = on_handle(HMAC_START, key, parameters, [session.entry(code, names, parameters)])
        print(f"{words}: {client.unchanged(buffer)}")
    event = client.started(start(ALG_NULL))
    both = [number(PCR, 4), number(event, 4)]
    for words, covered in (("both Names", both), ("no Names", both[:0])):
        entries = [session.entry(EVENT_COMPLETE, covered, data), entry()]
        buffer = on_handles(EVENT_COMPLETE, [PCR, event], data, entries)
        print(f"EventSequenceComplete, {words}: {client.unchanged(buffer)}")


def with_attributes(session: HashedSession, handle: int, data: bytes) -> bytes:
    """Returns TPM2_SequenceUpdate with an attribute that its HMAC does not cover."""
    area, at = session.entry(UPDATE, [b""], data), 4 + 2 + session.size
    return on_handle(UPDATE, handle, data, [area[:at] + b"\0" + area[at + 1 :]])


def replays(client: Sessions) -> None:
    """A command that was accepted is refused when it is sent again."""
    key = client.key(KEY, SECRET, GUARDED)
    session = client.session()
    buffer = client.hmac_start(session, key, value=SECRET)
    session.accepted(buffer, SECRET, handles=1)
    print("HMAC_Start:", client.code(buffer), "failed tries", client.tries())
    sequence = Guarded(session, FIRST)
    buffer = sequence.update(b"data")
    session.accepted(buffer)
    print("SequenceUpdate:", client.unchanged(buffer))
    found = sequence.completed(b"")
    print("the data were added once:", found == hmac_of(b"data"))


def refused(client: Sessions) -> None:
    """What the layer refuses before it compares an HMAC, and what the device refuses."""
    key, session = client.key(KEY, SECRET, GUARDED), client.session()
    sequence, event = client.hash(session, auth=PIN), client.started(start(ALG_NULL))
    handles, parameters = start_auth_session(bytes(16), kind=SE_POLICY)
    text = b"".join(number(it, 4) for it in handles) + parameters
    policy = client.started(command(CC.StartAuthSession, text))
    print(f"a policy session {policy:08x}:", client.code(of(sequence, policy)))
    for number_of in (0x02000005, 0x02FFFFFF, 0x03000009, 0x40000001, 0x80000000, PCR):
        print(f"the handle {number_of:08x}: {client.code(of(sequence, number_of))}")
    for words, attributes in (
        *(("decrypt", 0x21), ("encrypt", 0x41), ("audit", 0x81), ("auditExclusive", 3)),
        *(("auditReset", 5), ("a reserved bit", 9), ("another one, and decrypt", 0x31)),
    ):
        buffers = (
            sequence.update(b"", attributes=attributes),
            client.hmac_start(session, key, attributes=attributes),
            session.event_complete(PCR, event, attributes=attributes),
        )
        print(f"{words}:", client.codes(*buffers))
    for words, buffer in (
        ("an HMAC of 33 bytes", sequence.update(b"", own=bytes(33))),
        ("no sequence", Guarded(session, THIRD).update(b"", **WRONG)),
        ("an object's handle", Guarded(session, key).update(b"", **WRONG)),
        ("the owner's handle", Guarded(session, RH_OWNER).update(b"", **WRONG)),
        ("1,025 bytes", sequence.update(bytes(1025), **WRONG)),
        ("a byte after the data", sequence.command(UPDATE, sized(b"") + b"\0", **WRONG)),
        ("no hierarchy", sequence.command(COMPLETE, sized(b""), **WRONG)),
        ("another hierarchy", sequence.complete(b"", RH_LOCKOUT, **WRONG)),
        ("an event sequence", Guarded(session, event).complete(b"", **WRONG)),
        ("two entries", two_entries(sequence)),
        ("a hash sequence for an event", session.event_complete(PCR, FIRST, b"", PIN)),
        ("a wrong password", session.event_complete(PCR, event, b"", b"x", **WRONG)),
        ("a session as entry 2", second_session(client, event)),
        ("one entry", one_entry(session, event)),
        ("a long value", client.hmac_start(session, key, bytes(33), **WRONG)),
        ("SHA-384", client.hmac_start(session, key, algorithm=0x0C, **WRONG)),
        ("no key", session.command(HMAC_START, [0x80000007], [b""], sized(b"") + bytes([0, 16]))),
        ("no PCR", session.event_complete(24, event)),
    ):
        print(f"{words}: {client.unchanged(buffer)}")
    client.started(start())
    print("no free slot:", client.unchanged(client.hmac_start(session, key, **WRONG)))
    print("failed tries:", client.tries())
    sequence.updated(b"the session is as before")
    print("HashSequenceStart:", client.code(session.command(START, [], [], sized(b"") + b"\0\x0b")))


def of(sequence: Guarded, handle: int) -> bytes:
    """Returns TPM2_SequenceUpdate with this handle of a session."""
    entries = [entry(handle, bytes(16), hmac=bytes(32))]
    return on_handle(UPDATE, sequence.handle, sized(b""), entries)


def two_entries(sequence: Guarded) -> bytes:
    parameters = sized(b"")
    own = sequence.session.entry(UPDATE, [b""], parameters, PIN)
    return on_handle(UPDATE, sequence.handle, parameters, [own, entry()])


def second_session(client: Sessions, event: int) -> bytes:
    parameters = sized(b"")
    own = client.session().entry(EVENT_COMPLETE, [number(PCR, 4), b""], parameters)
    return on_handles(EVENT_COMPLETE, [PCR, event], parameters, [entry(), own])


def one_entry(session: HashedSession, event: int) -> bytes:
    names = [number(PCR, 4), b""]
    return session.command(EVENT_COMPLETE, [PCR, event], names, sized(b""))


def lockout(client: Sessions) -> None:
    """A locked out key, and a session that is bound to it, are refused without comparing HMACs."""
    key = client.key(KEY, SECRET, GUARDED)
    client.protect(1)
    bound, unbound = client.session(bind=key, value=SECRET), client.session()
    sequence = client.hash(bound, auth=PIN)
    print("a failed try:", client.code(sequence.update(b"", value=b"wrong")), client.tries())
    for words, buffer in (
        ("SequenceUpdate, bound", sequence.update(b"")),
        ("SequenceUpdate, bound, a wrong HMAC", sequence.update(b"", **WRONG)),
        ("SequenceComplete, bound", sequence.complete(b"")),
        ("HMAC_Start, bound", client.hmac_start(bound, key)),
        ("HMAC_Start, unbound", client.hmac_start(unbound, key, value=SECRET)),
        ("HMAC_Start, unbound, a wrong HMAC", client.hmac_start(unbound, key)),
    ):
        print(f"{words}: {client.unchanged(buffer)}")
    sequence.session = unbound
    sequence.updated(b"data")
    print("SequenceUpdate, unbound: 000, failed tries", client.tries())
    client.tpm.call("DictionaryAttackLockReset", RH_LOCKOUT, uses=[b""])
    sequence.session = bound
    print("after a reset:", sequence.completed(b"") == digest_of("sha256", [b"data"]))


def keys_that_cannot(client: Sessions) -> None:
    """The device decides whether the key may be used by a session."""
    restricted = hmac_key(attributes=HERE | OPEN | Attribute.RESTRICTED)
    by_policy = hmac_key(attributes=HERE, auth_policy=bytes(32))
    free = hmac_key(scheme=ALG_NULL)
    for words, template, algorithm in (
        ("a restricted key", restricted, ALG_NULL),
        ("a key without userWithAuth", by_policy, ALG_NULL),
        ("scheme SHA-256, asked SHA-1", FREE, SHA1),
        ("scheme NULL, asked NULL", free, ALG_NULL),
        ("scheme NULL, asked SHA-1", free, SHA1),
    ):
        key, session = client.key(KEY, b"", template), client.session()
        buffer = client.hmac_start(session, key, algorithm=algorithm)
        print(f"{words}: {client.code(buffer)}")
        client.flush(key)
    key = client.key(KEY, SECRET, FREE)
    bound = client.session(bind=key, value=SECRET)
    client.flush(key)
    other = client.key(KEY, b"other", FREE)
    print("the same Name with another value:", end=" ")
    print(client.code(client.hmac_start(bound, other)), end=" ")
    client.hmac(bound, other, b"other")
    print("and with this value in the key 000")


def events(client: Sessions) -> None:
    """A session authorizes the PCR that an event sequence extends, and TPM_RH_NULL."""
    for algorithm in HASHES:
        session = client.session(algorithm)
        for pcr in (PCR, RH_NULL):
            before, sequence = pcrs(client), client.hash(session, ALG_NULL, PIN)
            sequence.updated(LONG)
            buffer = session.event_complete(pcr, sequence.handle, b"event", PIN)
            parameters, rest = session.accepted(buffer)
            assert parameters[:4] == number(len(HASHES), 4)
            right = is_event(client, pcr, before, LONG + b"event", Fields(parameters[4:]))
            print(f"{session.hash}, {pcr:08x}: {right}, and {rest.hex()}")
    session, handle = client.session(), client.started(start(ALG_NULL))
    for words, buffer in (
        ("PCR 17 at locality 0", session.event_complete(LATE_PCR, handle)),
        ("an empty HMAC", session.event_complete(LATE_PCR, handle, own=b"")),
        ("a wrong HMAC", session.event_complete(PCR, handle, **WRONG)),
        ("a wrong HMAC for TPM_RH_NULL", session.event_complete(RH_NULL, handle, value=b"x")),
    ):
        print(f"{words}: {client.unchanged(buffer)}")
    client.device.locality = 3
    session.accepted(session.event_complete(LATE_PCR, handle, own=b""))
    print("PCR 17 at locality 3, by an empty HMAC: 000")
    bound, handle = client.session(bind=PCR), client.started(start(ALG_NULL))
    bound.accepted(bound.event_complete(PCR, handle))
    print("a session that is bound to the PCR: 000")


def saved(client: Sessions) -> None:
    """A command by a session does not cancel what TPM2_Shutdown saved, unless it extends a PCR."""
    for words, algorithm in (("a hash", SHA256), ("an event", ALG_NULL)):
        session = client.session()
        sequence = client.hash(session, algorithm)
        client.tpm.call("Shutdown", shutdownType=STATE)
        sequence.updated(b"data")
        if algorithm == ALG_NULL:
            session.accepted(session.event_complete(PCR, sequence.handle))
        else:
            sequence.completed(b"")
        client.device.power_cycle()
        codes = [client.code(command(CC.Startup, number(it, 2))) for it in (STATE, CLEAR)]
        print(f"{words}, TPM2_Startup(STATE), and then (CLEAR):", *codes)


TESTS = (
    *(hmacs, restored, empty_values, hashes, mixed, contexts, nonces, ended),
    *(wrong_hmacs, other_texts, replays, refused, lockout, keys_that_cannot, events, saved),
)


main = functools.partial(play, TESTS, Sessions)

if __name__ == "__main__":
    run(main)
