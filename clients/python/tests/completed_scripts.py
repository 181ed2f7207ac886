"""Random commands for a device with the completing layer. They make and flush objects, sequence
objects and sessions, save and load their contexts, and read lists. There are also commands on
sequence objects, by passwords and by HMAC sessions, and the other commands that the layer answers.
A few commands have changed bytes, or are sent without the layer.
"""

import random_sessions

from tpmsim.caller import HERE, hmac_key, OPEN, storage_key
from tpmsim.caller.templates import STORES
from tpmsim.model.sequence_commands import EVENT_SEQUENCE_COMPLETE, HANDLES, HASH_SEQUENCE_START
from tpmsim.model.sequence_commands import HMAC_START, SEQUENCE_COMPLETE, SEQUENCE_UPDATE
from tpmsim.standard import ALG_NULL, CC, command, frames, number, NV, nv, on_handles
from tpmsim.standard import RH_LOCKOUT, RH_NULL, RH_OWNER, RH_PLATFORM, SHA256, sized, TRANSIENT
from tpmsim.standard.handle_kinds import PRIMARY_HIERARCHIES
from tpmsim.standard.objects import Attribute

CONTEXT_SAVE, CONTEXT_LOAD, STIR_RANDOM, QUOTE = 0x162, 0x161, 0x146, 0x158
INCREMENTAL_SELF_TEST, GET_TEST_RESULT, HASH, TEST_PARMS = 0x142, 0x17C, 0x17D, 0x18A
OF_FAMILY_1 = bytes.fromhex("00c10000000c00000099") + b"\0\1"
KINDS, OTHERS = (0x80, 0x80, 0x80, 0x80, 0x02, 0x03), (0x81, 0x01, 0x00, 0x40)
PASSWORD, TAG = frames.area(frames.entry()), frames.SESSIONS

# Authorization values of objects and sequences.
VALUES = b"", b"pin"

# The parameters of TPM2_TestParms: for a KEYEDHASH, a SYMCIPHER, RSA, and some parameters that the
# device does not support.
PARAMETERS = tuple(
    bytes.fromhex(it)
    for it in (
        *("0008 0010", "0008 0005 0004", "0008 0005 000b", "0025 0006 0080 0043"),
        *("0008 0005 000c", "0008 0007", "0025 0006 0100 0043", "0025 0010", "0001 0010", "0008"),
    )
)

# The attributes of a counter that the owner writes and reads.
COUNTER = nv.of_type(nv.Type.COUNTER) | nv.Attribute.OWNERWRITE | nv.Attribute.OWNERREAD

# The offset of the contextBlob's buffer from the start of a context.
BLOB_AT = 18


def handle_of(chance):
    kind = chance.choice(KINDS if chance.random() < 0.95 else OTHERS)
    return kind << 24 | (chance.randrange(8) if chance.random() < 0.95 else 0xFFFFFF)


def on_context(chance, code):
    """Returns TPM2_FlushContext or TPM2_ContextSave, sometimes with the handle of a sequence
    object.
    """
    handle = chance.choice(HANDLES) if chance.random() < 0.2 else handle_of(chance)
    return command(code, number(handle, 4))


def primary(chance):
    data, attributes = b"", HERE | OPEN | chance.choice((0, 0, 0, Attribute.ST_CLEAR))
    if chance.random() < 0.4:
        data = chance.randbytes(chance.choice((1, 32, 64)))
        attributes ^= chance.choice((0, 0, Attribute.NO_DA))
        template = hmac_key(SHA256, attributes, chance.choice((SHA256, frames.SHA1, ALG_NULL)))
    else:
        template = storage_key(chance.choice((SHA256, frames.SHA1)), attributes | STORES)
    sensitive, public = sized(sized(chance.choice(VALUES)) + sized(data)), sized(template.text)
    parameters = sensitive + public + sized(b"") + number(0, 4)
    hierarchy = number(chance.choice((RH_OWNER, *PRIMARY_HIERARCHIES)), 4)
    return command(CC.CreatePrimary, hierarchy + PASSWORD + parameters, frames.SESSIONS)


def listing(chance):
    asked = chance.choice((0, 1, 1, 1, 2, 3, 4, 5, 6, 6, 6, 7, 8, 9))
    first = {
        0: chance.randrange(80),
        7: chance.randrange(0x16),
        1: handle_of(chance),
        2: chance.randrange(0x11F, 0x194),
    }
    wanted = first.get(asked, chance.choice((0, 0x100, 0x112, 0x129, 0x200, 0x207, 0x20E)))
    count = chance.choice((0, 1, 3, 64, 100))
    return command(CC.GetCapability, b"".join(number(it, 4) for it in (asked, wanted, count)))


def testing(chance):
    """Returns a command for a self-test, a digest, or a test of parameters."""
    data = chance.choice((b"", bytes.fromhex("ff544347"), b"\xff\x54\x43", chance.randbytes(1024)))
    algorithm = chance.choice((SHA256, frames.SHA1, 0x0C))
    hierarchy = chance.choice((*PRIMARY_HIERARCHIES, RH_LOCKOUT))
    count = chance.choice((0, 1, 64, 65))
    code, parameters = chance.choice(
        (
            (INCREMENTAL_SELF_TEST, number(count, 4) + bytes(2 * count)),
            (GET_TEST_RESULT, b""),
            (HASH, sized(data) + number(algorithm, 2) + number(hierarchy, 4)),
            (TEST_PARMS, chance.choice(PARAMETERS)),
        )
    )
    return command(code, parameters)


def starting(chance, known):
    """Returns a command that starts a sequence."""
    auth, algorithm = chance.choice(VALUES), chance.choice((SHA256, frames.SHA1, ALG_NULL, 0x0C))
    parameters = sized(auth) + number(algorithm, 2)
    if chance.random() < 0.4:
        return command(HASH_SEQUENCE_START, parameters)
    key = chance.choice(known.objects or [TRANSIENT << 24 | chance.randrange(4)])
    return authorized(chance, known, HMAC_START, [key], parameters)


def authorized(chance, known, code, handles, parameters):
    """Returns a command on sequences. Its first entry is a password or an HMAC session."""
    found = entries(chance, [known.of(it)[1] for it in handles])
    if known.sessions and found and chance.random() < 0.4:
        found[0] = random_sessions.entry(chance, known, code, handles, parameters)
    return on_handles(code, handles, parameters, found)


def entries(chance, values):
    """Returns entries with these passwords or with wrong ones. In rare cases there is one entry too
    many or too few, or an entry has another handle or attribute.
    """
    if chance.random() < 0.03:
        values = values[1:] if chance.random() < 0.5 else [*values, b""]
    handles = frames.HMAC_SESSION << 24, frames.POLICY_SESSION << 24
    return [
        frames.entry(
            chance.choice(handles) if chance.random() < 0.05 else frames.RS_PW,
            attributes=chance.choice((0, 2, 8, 32)) if chance.random() < 0.05 else 1,
            hmac=value if chance.random() < 0.6 else chance.choice(VALUES),
        )
        for value in values
    ]


def sequence(chance, known):
    """Returns a command on a sequence."""
    handle = chance.choice(HANDLES) if chance.random() < 0.9 else handle_of(chance)
    if known.sequences and chance.random() < 0.6:
        handle = chance.choice(known.sequences)
    data = chance.choice((b"", b"\xff\x54", b"\x43\x47", bytes(3), chance.randbytes(1024)))
    hierarchy = chance.choice((*PRIMARY_HIERARCHIES, RH_LOCKOUT))
    code = chance.choice((SEQUENCE_UPDATE,) * 4 + (SEQUENCE_COMPLETE, EVENT_SEQUENCE_COMPLETE))
    if code == EVENT_SEQUENCE_COMPLETE:
        pcr = chance.choice((chance.randrange(25), RH_NULL))
        return authorized(chance, known, code, [pcr, handle], sized(data))
    parameters = sized(data)
    parameters += number(hierarchy, 4) if code == SEQUENCE_COMPLETE else b""
    if chance.random() < 0.02:
        return command(code, number(handle, 4) + parameters)
    return authorized(chance, known, code, [handle], parameters)


def changed(chance):
    """Returns a command that changes what the properties report: an authorization value, a counter,
    whether TPM2_Clear is disabled, or a saved state.
    """
    owner, platform = number(RH_OWNER, 4), number(RH_PLATFORM, 4)
    counter = frames.nv_public_area(NV << 24 | chance.randrange(3), SHA256, COUNTER, b"", 8)
    return chance.choice(
        (
            command(CC.HierarchyChangeAuth, number(RH_LOCKOUT, 4) + PASSWORD + sized(b"x"), TAG),
            command(CC.Clear, platform + PASSWORD, TAG),
            command(CC.ClearControl, platform + PASSWORD + bytes([chance.randrange(2)]), TAG),
            command(CC.NV_DefineSpace, owner + PASSWORD + sized(b"") + sized(counter), TAG),
            command(CC.Shutdown, number(1, 2)),
        )
    )


class Scripts:
    """Makes a caller's next command, depending on the earlier responses. With `changes`, some
    commands change state that survives a power cycle.
    """

    def __init__(self, chance, changes=False):
        self.chance, self.contexts, self.changes = chance, list[bytes](), changes
        self.known = random_sessions.Known()

    def heard(self, buffer, response):
        self.known.heard(buffer, response)
        if int.from_bytes(buffer[6:10], "big") == CONTEXT_SAVE and not any(response[6:10]):
            self.contexts.append(response[10:])

    def bent(self, data, size=None):
        """Returns the data with a bit flipped in one of the first `size` bytes."""
        at = self.chance.randrange(size or len(data))
        return data[:at] + bytes([data[at] ^ 1 << self.chance.randrange(8)]) + data[at + 1 :]

    def context(self):
        context = self.chance.choice(self.contexts[-12:] or [bytes(38)])
        return context if self.chance.random() < 0.9 else self.bent_context(context)

    def bent_context(self, context):
        """Returns a context after extending it by a byte, truncating it, or flipping one of its
        bits.
        """
        size = self.chance.choice((BLOB_AT, len(context)))
        way = self.chance.randrange(3)
        if way == 0:
            return context + b"\0"
        return context[: self.chance.randrange(size)] if way == 1 else self.bent(context, size)

    def next(self):
        chance = self.chance
        found = chance.choices(
            (
                lambda: primary(chance),
                lambda: random_sessions.started(chance, self.known),
                lambda: on_context(chance, CONTEXT_SAVE),
                lambda: command(CONTEXT_LOAD, self.context()),
                lambda: on_context(chance, CC.FlushContext),
                lambda: command(STIR_RANDOM, sized(bytes(chance.choice((0, 9, 128, 129))))),
                lambda: listing(chance),
                lambda: command(CC.ReadPublic, number(TRANSIENT << 24 | chance.randrange(9), 4)),
                lambda: command(CC.Startup, number(chance.choice((0, 0, 1)), 2)),
                lambda: command(QUOTE, number(handle_of(chance), 4)),
                lambda: OF_FAMILY_1,
                lambda: chance.randbytes(chance.randrange(12)),
                lambda: testing(chance),
                lambda: changed(chance),
                lambda: starting(chance, self.known),
                lambda: sequence(chance, self.known),
            ),
            (6, 3, 9, 6, 6, 1, 5, 2, 2, 0.5, 0.5, 0.5, 3, 0.3 * self.changes, 5, 12),
        )[0]()
        return self.bent(found) if found and chance.random() < 0.04 else found


def play(device, chance, count, completed=0.97, changes=False):
    """Plays `count` commands, a fraction `completed` of them with the layer. Returns the responses
    since the last power-on.
    """
    scripts, answered = Scripts(chance, changes), list[bytes]()
    device.execute(command(CC.Startup, bytes(2)))
    answered.append(device.events[-1].response)
    for _ in range(count):
        if chance.random() < 0.002:
            if changes and chance.random() < 0.5:
                device.execute(command(CC.Shutdown, number(1, 2)))
            device.power_cycle()
            answered.clear()
            continue
        device.completes = chance.random() < completed
        buffer = scripts.next()
        response = device.execute(buffer).response
        scripts.heard(buffer, response)
        answered.append(response)
    return answered
