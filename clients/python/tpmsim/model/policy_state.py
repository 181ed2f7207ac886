"""A policy session's state, and the values with which it is compared when the session is used (TPM
2.0 Library, Part 1, 19.7).
"""

from __future__ import annotations

from dataclasses import dataclass
from functools import partial

from tpmsim.model.general import Refusal
from tpmsim.standard import digest_bytes, nv, objects, SE_TRIAL
from tpmsim.standard.policy import ALL_LOCALITIES

# The largest number of sessions.
SESSIONS = 16


@dataclass
class State:
    """The values that assertions recorded, to be compared when the session is used. None means that
    no value was recorded.
    """

    digest: bytes
    update_counter: int | None = None
    code: int | None = None
    cp_hash: bytes | None = None
    nv_written: bool | None = None
    localities: int = ALL_LOCALITIES
    demand: str | None = None


def starting_state(algorithm: int) -> State:
    return State(bytes(digest_bytes(algorithm)))


@dataclass
class Session:
    """A session, with the Name, the authorization value and the protection that its bind entity had
    when the session started, or those of TPM_RH_NULL if it is not bound. `cipher` is AES, XOR or
    ALG_NULL. For XOR the masks use the session's own hash algorithm, which is then also in `masks`.
    """

    kind: int
    algorithm: int
    cipher: int
    nonce_tpm: bytes
    key: bytes
    bind: bytes
    bind_auth: bytes
    bind_protection: str | None
    policy: State
    masks: int | None = None
    is_bound: bool = False

    @property
    def is_trial(self) -> bool:
        return self.kind == SE_TRIAL


@dataclass(frozen=True)
class Use:
    """The facts about a use of a session that are compared with its policy. `written` is None if
    the entity is not an NV index. `lacks` says why no policy can authorize the handle, if none can.
    """

    code: int
    is_admin: bool
    cp_hash: bytes
    written: bool | None
    update_counter: int
    locality: int
    lacks: str = ""


def check_use(
    session: Session, entity: objects.Public | nv.Public | None, use: Use, place: int
) -> None:
    """Refuses an entry before its hmac is checked. If `entity` is None, no policy can authorize the
    handle. The operand `condition` is the number of the condition in docs/table that does not hold.
    """
    told = session.policy
    refusal = partial(Refusal, check="G9", place=place)
    if session.is_trial:
        raise refusal(f"ATTRIBUTES/s{place}", condition=1)
    if entity is None:
        raise refusal("AUTH_UNAVAILABLE", condition=2, case=use.lacks)
    if told.update_counter not in (None, use.update_counter):
        raise refusal("PCR_CHANGED", condition=3, told=told.update_counter, now=use.update_counter)
    if told.code not in (None, use.code):
        raise refusal(f"POLICY_CC/s{place}", condition=4, told=told.code)
    if use.is_admin and told.code is None:
        raise refusal(f"POLICY_FAIL/s{place}", condition=5, case="code")
    if told.cp_hash not in (None, use.cp_hash):
        hashes = {"told": told.cp_hash, "now": use.cp_hash}
        raise refusal(f"POLICY_FAIL/s{place}", condition=5, case="cpHash", **hashes)
    if told.nv_written not in (None, use.written):
        name = f"POLICY_FAIL/s{place}"
        raise refusal(name, condition=6, told=told.nv_written, now=use.written)
    if not told.localities >> use.locality & 1:
        raise refusal("LOCALITY", condition=7, allowed=told.localities, locality=use.locality)
    if session.algorithm != entity.name_algorithm:
        algorithms = {"wanted": entity.name_algorithm, "had": session.algorithm}
        raise refusal(f"POLICY_FAIL/s{place}", condition=8, case="hash", **algorithms)
    if told.digest != entity.auth_policy:
        digests = {"wanted": entity.auth_policy, "had": told.digest}
        raise refusal(f"POLICY_FAIL/s{place}", condition=8, case="digest", **digests)
