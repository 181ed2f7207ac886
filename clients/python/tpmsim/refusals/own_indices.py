"""What the own checks of the commands on NV indices refuse."""

from tpmsim.caller.entries import Prepared
from tpmsim.caller.examples import BITS, COUNTER, EXTENDED, INDEX, LOCKABLE, NEW
from tpmsim.caller.templates import area, BY_OWNER, BY_PLATFORM, counter
from tpmsim.refusals.stage import Stage
from tpmsim.refusals.ways import far, LONG_AUTH, sent_twice, SHORT, Way, Ways
from tpmsim.standard import CC, nv, policy, RH_OWNER, RH_PLATFORM, SE_POLICY, SHA1


def on_index(index: int, by: int = RH_OWNER) -> Way:
    """The example with another index, and another handle that authorizes it."""

    def way(stage: Stage) -> Prepared:
        example = stage.example()
        return example.but(handles=[by, index, *example.handles[2:]])

    return way


def after_lock(lock: str) -> Way:
    """The example with an index that is locked."""

    def way(stage: Stage) -> Prepared:
        prepared = on_index(LOCKABLE)(stage)
        stage.tpm.send(getattr(stage.tpm, lock)(LOCKABLE, by=RH_OWNER))
        return prepared

    return way


def nv_refusals() -> Ways:
    """Returns the refusals that several commands on indices share."""
    found: Ways = {}
    for code in (CC.NV_Write, CC.NV_Increment, CC.NV_SetBits, CC.NV_Extend):
        found[code, "A2"] = after_lock("write_locking")
        found[code, "A3"] = on_index(COUNTER if code == CC.NV_Write else INDEX)
    for code in (CC.NV_Read, CC.PolicyNV):
        found[code, "A2"] = after_lock("read_locking")
        found[code, "A3"] = on_index(COUNTER)
    for code in (CC.NV_WriteLock, CC.NV_ReadLock):
        found[code, "A2"] = on_index(INDEX)
    for code in dict.fromkeys(it for it, _ in [*found]):
        found[code, "A1"] = on_index(EXTENDED, by=BITS)
    return found


def defining(public: nv.Public, auth: bytes = b"") -> Way:
    return lambda stage: stage.tpm.defining(public, auth=auth)


def defined_too_many(stage: Stage) -> Prepared:
    """A new index, when the others use all of the memory."""
    for at in range(8):
        stage.tpm.define(area(NEW + 1 + at, size=2048))
    return stage.example()


def undefined_by_owner(stage: Stage) -> Prepared:
    attributes = BY_PLATFORM | nv.Attribute.PLATFORMCREATE
    stage.tpm.define(area(NEW, attributes), by=RH_PLATFORM)
    return stage.tpm.undefining(NEW)


def long_value(stage: Stage) -> Prepared:
    """TPM2_NV_ChangeAuth to a value that is longer than a digest of the index's nameAlg."""
    digest = policy.after_command_code(SHA1, bytes(20), CC.NV_ChangeAuth)
    stage.tpm.define(area(NEW, BY_OWNER, algorithm=SHA1, auth_policy=digest))
    session = stage.tpm.session(kind=SE_POLICY, algorithm=SHA1)
    stage.tpm.send(stage.tpm.command_code(session, CC.NV_ChangeAuth))
    return stage.tpm.changing_auth(NEW, LONG_AUTH, session)


OF_INDICES: Ways = {
    **nv_refusals(),
    (CC.PolicyNV, "A4"): lambda stage: stage.tpm.comparing(
        stage.session(), INDEX, b"data", offset=5, by=RH_OWNER
    ),
    (CC.PolicyNV, "A5"): lambda stage: stage.tpm.comparing(
        stage.session(), INDEX, b"other", by=RH_OWNER
    ),
    (CC.NV_DefineSpace, "A1"): defining(area(NEW, algorithm=SHA1), auth=LONG_AUTH),
    (CC.NV_DefineSpace, "A2"): defining(area(NEW, auth_policy=SHORT)),
    (CC.NV_DefineSpace, "A3"): defining(area(NEW, nv.Attribute.OWNERREAD)),
    (CC.NV_DefineSpace, "A4"): defining(counter(NEW, size=7)),
    (CC.NV_DefineSpace, "A5"): sent_twice,
    (CC.NV_DefineSpace, "A6"): defined_too_many,
    (CC.NV_UndefineSpace, "A1"): undefined_by_owner,
    (CC.NV_Write, "A4"): lambda stage: stage.tpm.writing(INDEX, b"data", offset=5, by=RH_OWNER),
    (CC.NV_Increment, "A4"): far,
    (CC.NV_Read, "A4"): lambda stage: stage.tpm.reading(INDEX, 1025, by=RH_OWNER),
    (CC.NV_Read, "A5"): lambda stage: stage.tpm.reading(INDEX, 9, by=RH_OWNER),
    (CC.NV_ChangeAuth, "A1"): long_value,
}
