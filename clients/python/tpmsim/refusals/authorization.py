"""What the checks of authorizations refuse, G9 and G10: entries that are well-formed, but wrong."""

from typing import Callable

from tpmsim.caller.entries import Prepared, Session, wrong
from tpmsim.caller.templates import sealed
from tpmsim.refusals.parts import bytes_of, entry_of, password, place_of, word_of
from tpmsim.refusals.stage import Stage
from tpmsim.standard import AES, CC, CONTINUE_SESSION, DECRYPT, Fact, HandleKind, RH_OWNER, SE_HMAC
from tpmsim.standard import SE_POLICY, SE_TRIAL, SHA256
from tpmsim.standard.rows import Row

# A command that no policy names for another one.
OTHER_COMMAND = CC.NV_UndefineSpace


def by_owner(stage: Stage) -> Prepared:
    """Returns the example, authorized by the owner instead of by an index, which is protected."""
    example = stage.example()
    if stage.command.handles and stage.command.handles[0].kind == HandleKind.NV_AUTH:
        return example.but(handles=[RH_OWNER, *example.handles[1:]])
    return example


def of_authorization(stage: Stage, row: Row) -> bytes:
    """G9: the entry does not authorize the handle."""
    word = word_of(row)
    if word in POLICY_FAULTS:
        return by_policy(stage, row, POLICY_FAULTS[word])
    if word == "ATTRIBUTES":
        return bytes_of(stage.example(), entry_of(stage.tpm.session(kind=SE_TRIAL)))
    if word == "AUTH_UNAVAILABLE":
        entry = entry_of(stage.tpm.session(kind=SE_POLICY))
        return bytes_of(stage.example(), password() if row.command.has(Fact.ADMIN) else entry)
    if row.command.handles[0].kind == HandleKind.LOCKOUT:
        return of_lockout(stage, word == "LOCKOUT")
    return of_value(stage, row, word)


def of_lockout(stage: Stage, is_disabled: bool) -> bytes:
    """A wrong value of lockoutAuth; or any value after a wrong one, which disables lockoutAuth."""
    example = stage.example()
    if is_disabled:
        stage.sends_wrong(example)
    return (example if is_disabled else wrong(example)).buffer()


def of_value(stage: Stage, row: Row, word: str) -> bytes:
    """A wrong hmac or password; or, with LOCKOUT, any hmac of a session that is bound to a locked
    index.
    """
    example = by_owner(stage)
    if word == "BAD_AUTH":
        if row.command.has(Fact.ADMIN):
            return example.but_entry(1, hmac=b"\1").buffer()
        return bytes_of(example, password(b"\1"))
    bind, kind = stage.pin(), SE_POLICY if row.command.has(Fact.ADMIN) else SE_HMAC
    session = stage.tpm.session(bind=bind, kind=kind)
    if row.command.has(Fact.ADMIN):
        stage.tpm.send(stage.tpm.command_code(session, row.command))
    if word == "LOCKOUT":
        stage.lock_out()
    return bytes_of(example, entry_of(session, hmac=b"\1"))


# What a policy session recorded that does not hold when it is used.
Told = Callable[[Stage, Session], None]


def pcrs_changed(stage: Stage, session: Session) -> None:
    tpm = stage.tpm
    tpm.send(tpm.pcrs(session, "sha256:0"))
    tpm.send(tpm.command("PCR_Extend", 0, digests=[(SHA256, bytes(32))]))


def other_command(stage: Stage, session: Session) -> None:
    stage.tpm.send(stage.tpm.command_code(session, OTHER_COMMAND))


def other_locality(stage: Stage, session: Session) -> None:
    stage.tpm.send(stage.tpm.command_code(session, stage.command))
    stage.tpm.send(stage.tpm.locality(session, 1 << 4))


def nothing(stage: Stage, session: Session) -> None:
    """An empty policy, which is not that of the entity."""


POLICY_FAULTS: dict[str, Told] = {
    "PCR_CHANGED": pcrs_changed,
    "POLICY_CC": other_command,
    "LOCALITY": other_locality,
    "POLICY_FAIL": nothing,
}


def by_policy(stage: Stage, row: Row, told: Told) -> bytes:
    """A policy session for an entity with a policy, which does not authorize the command."""
    kind = row.command.handles[0].kind
    if kind == HandleKind.OBJECT:
        public = sealed(auth_policy=bytes(range(32)))
        entity = stage.tpm.create_primary(public, data=b"data")
    else:
        entity = stage.gate()
    session = stage.tpm.session(kind=SE_POLICY)
    told(stage, session)
    example = stage.example()
    handles = [entity, entity] if kind == HandleKind.NV_AUTH else [entity]
    handles += example.handles[len(handles) :]
    return bytes_of(example.but(handles=handles), entry_of(session))


def of_session(stage: Stage, row: Row) -> bytes:
    """G10: an entry that authorizes no handle is wrong; or the first parameter is cut, though a
    session decrypts it.
    """
    example, word = by_owner(stage), word_of(row)
    if word == "INSUFFICIENT":
        entry = entry_of(stage.tpm.session(cipher=AES), CONTINUE_SESSION | DECRYPT)
        return bytes_of(example.but(parameters=b""), *example.entries, entry)
    place = row.command.authorized + 1 if word == "LOCKOUT" else place_of(row)
    count = place - 1 - len(example.entries)
    before = [*example.entries, *(entry_of(stage.tpm.session()) for _ in range(count))]
    session = stage.tpm.session() if word == "BAD_AUTH" else stage.bound()
    if word == "LOCKOUT":
        stage.lock_out()
    return bytes_of(example, *before, entry_of(session, hmac=b"\1"))
