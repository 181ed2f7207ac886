"""What the own checks of the commands on sessions and policies refuse."""

from typing import Any, Callable

from tpmsim.caller.entries import Prepared, Session
from tpmsim.refusals.stage import Stage
from tpmsim.refusals.ways import SHORT, Way, Ways
from tpmsim.standard import CC, RH_OWNER, SHA1, SHA256, start_auth_session

# A command on a session.
Step = Callable[[Stage, Session], Prepared]


def told(prepare: Step) -> Way:
    """A command on a new policy session."""
    return lambda stage: prepare(stage, stage.session())


def twice(first: Step, then: Step) -> Way:
    """A command on a session that has recorded something else."""

    def way(stage: Stage) -> Prepared:
        session = stage.session()
        stage.tpm.send(first(stage, session))
        return then(stage, session)

    return way


def pcrs_changed(stage: Stage) -> Prepared:
    session = stage.session()
    stage.tpm.send(stage.tpm.pcrs(session, "sha256:0"))
    stage.tpm.send(stage.tpm.command("PCR_Extend", 0, digests=[(SHA256, bytes(32))]))
    return stage.tpm.pcrs(session, "sha256:0")


def one_hash(stage: Stage, session: Session) -> Prepared:
    return stage.tpm.cp_hash_told(session, bytes(32))


def other_cp_hash(stage: Stage, session: Session) -> Prepared:
    return stage.tpm.cp_hash_told(session, bytes(31) + b"\1")


def starting(nonce: bytes = bytes(16), **more: Any) -> Way:
    parts = start_auth_session(nonce, **more)
    return lambda stage: stage.tpm.prepare(CC.StartAuthSession, *parts)


def started_too_many(stage: Stage) -> Prepared:
    for _ in range(16):
        stage.tpm.session()
    return stage.example()


OF_SESSIONS: Ways = {
    (CC.StartAuthSession, "A1"): starting(bytes(15)),
    (CC.StartAuthSession, "A2"): starting(salt=b"salt"),
    (CC.StartAuthSession, "A3"): starting(xor=SHA1),
    (CC.StartAuthSession, "A4"): started_too_many,
    (CC.FlushContext, "A1"): lambda stage: stage.tpm.flush(RH_OWNER),
    (CC.FlushContext, "A2"): lambda stage: stage.tpm.flush(0x0200_0000),
    (CC.PolicyPCR, "A1"): pcrs_changed,
    (CC.PolicyPCR, "A2"): told(lambda stage, it: stage.tpm.pcrs(it, "sha256:0", bytes(32))),
    (CC.PolicyOR, "A1"): told(lambda stage, it: stage.tpm.branches(it, b"one", b"another")),
    (CC.PolicyCommandCode, "A1"): twice(
        lambda stage, it: stage.tpm.command_code(it, CC.Unseal),
        lambda stage, it: stage.tpm.command_code(it, CC.NV_Read),
    ),
    (CC.PolicyCommandCode, "A2"): told(lambda stage, it: stage.tpm.command_code(it, 0)),
    (CC.PolicyCpHash, "A1"): told(lambda stage, it: stage.tpm.cp_hash_told(it, SHORT)),
    (CC.PolicyCpHash, "A2"): twice(one_hash, other_cp_hash),
    (CC.PolicyNvWritten, "A1"): twice(
        lambda stage, it: stage.tpm.written_told(it, 1),
        lambda stage, it: stage.tpm.written_told(it, 0),
    ),
    (CC.PolicyLocality, "A1"): told(lambda stage, it: stage.tpm.locality(it, 0)),
    (CC.PolicySecret, "A1"): told(lambda stage, it: stage.tpm.secret(it, expiration=1)),
    (CC.PolicySecret, "A2"): told(lambda stage, it: stage.tpm.secret(it, cp_hash=SHORT)),
    (CC.PolicySecret, "A3"): told(lambda stage, it: stage.tpm.secret(it, nonce_tpm=b"other")),
    (CC.PolicySecret, "A4"): twice(
        one_hash, lambda stage, it: stage.tpm.secret(it, cp_hash=bytes(31) + b"\1")
    ),
}
