"""What the general checks refuse: the example of a command with one thing wrong. G9 and G10 are in
authorization.py.
"""

from dataclasses import replace
from typing import Callable

from tpmsim.model.parameter_faults import parameter_faults
from tpmsim.refusals.authorization import of_authorization, of_session
from tpmsim.refusals.parts import bytes_of, entry_of, password, place_of, word_of
from tpmsim.refusals.stage import Stage
from tpmsim.standard import CC, CONTINUE_SESSION, DECRYPT, ENCRYPT, Entry, frames, NV, number
from tpmsim.standard import PERSISTENT, POLICY_SESSION, RH_OWNER, RS_PW, TRANSIENT
from tpmsim.standard.frames import AUDIT, COMMAND_BYTES, RESERVED
from tpmsim.standard.handle_kinds import IS_OF_KIND
from tpmsim.standard.rows import Row

# The last byte of handles that nothing has on a stage; and a nonce, and one that is too long.
ABSENT, NONCE, LONG_NONCE = 0x0E, bytes(16), bytes(33)

# The buffers that G1 to G4 refuse.
HEADERS = {
    "G1": b"",
    "G2": frames.command(CC.GetRandom, number(8, 2), tag=frames.BAD_TAG_ANSWER),
    "G3": frames.command(CC.GetRandom, number(8, 2), size=COMMAND_BYTES),
    "G4": frames.command(0, b""),
}


def of_startup(stage: Stage, row: Row) -> bytes:
    """G5: the device is not started; or, for TPM2_Startup, it is."""
    if row.command == CC.Startup:
        stage.tpm.start_up()
        return stage.tpm.starting(0).buffer()
    return Stage(row.command).example().buffer()


def of_handle(stage: Stage, row: Row) -> bytes:
    """G6: a handle is cut, or of another kind, or nothing has it."""
    example, place = stage.example(), place_of(row)
    before, handle = example.handles[: place - 1], row.command.handles[place - 1]
    if word_of(row) == "INSUFFICIENT":
        return frames.command(row.command, b"".join(number(it, 4) for it in before))
    if word_of(row) == "VALUE":
        absent = RS_PW
    else:
        first = (TRANSIENT, POLICY_SESSION) if "REFERENCE" in row.code_name else (NV, PERSISTENT)
        holds = IS_OF_KIND[handle.kind]
        absent = next(it << 24 for it in first if holds(it << 24)) + ABSENT
    handles = [*before, absent, *example.handles[place:]]
    return example.but(handles=handles).buffer()


def of_area(stage: Stage, row: Row) -> bytes:
    """G7: a command without entries that needs one, or with an entry though it takes none."""
    missing = [] if row.code_name == "AUTH_MISSING" else [password()]
    return bytes_of(stage.example(), *missing)


def of_entry(stage: Stage, row: Row) -> bytes:
    """G8: an entry is wrong by itself. The entries before it are right."""
    example = stage.example()
    if row.code_name == "AUTHSIZE":
        handles = b"".join(number(it, 4) for it in example.handles)
        return frames.command(row.command, handles + bytes(4), frames.SESSIONS)
    place = place_of(row)
    fillers = [entry_of(stage.tpm.session()) for _ in range(place - len(example.entries) - 1)]
    before = [*example.entries, *fillers][: place - 1]
    return bytes_of(example, *before, wrong_entry(stage, row))


def wrong_entry(stage: Stage, row: Row) -> Entry:
    """Returns an entry that G8 refuses with the row's response code."""
    word = word_of(row)
    absent = {
        "VALUE": Entry(RH_OWNER, b"", CONTINUE_SESSION, b""),
        "HANDLE": password(),
        "REFERENCE_S": Entry(frames.HMAC_SESSION << 24 | ABSENT, NONCE, CONTINUE_SESSION, b""),
    }
    if word in absent:
        return absent[word]
    right = entry_of(stage.tpm.session())
    if word == "SIZE":
        return replace(right, nonce=LONG_NONCE)
    attributes = {
        "RESERVED_BITS": RESERVED,
        "ATTRIBUTES": AUDIT,
        "SYMMETRIC": DECRYPT if row.command.takes_sized else ENCRYPT,
    }
    return replace(right, attributes=right.attributes | attributes[word])


def of_parameter(stage: Stage, row: Row) -> bytes:
    """G11: a parameter has a fault, or bytes follow the last one."""
    example = stage.example()
    text = parameter_faults(row.command).get(row.code_name, example.parameters + b"\0")
    return example.but(parameters=text).buffer()


GENERAL: dict[str, Callable[[Stage, Row], bytes]] = {
    "G5": of_startup,
    "G6": of_handle,
    "G7": of_area,
    "G8": of_entry,
    "G9": of_authorization,
    "G10": of_session,
    "G11": of_parameter,
}
