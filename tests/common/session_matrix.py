"""The matrix of sessions: each hash algorithm with sizes of nonces, ciphers, kinds of sessions, and
entities to which sessions are bound. Scripts take their sessions from it.
"""

import itertools
from collections.abc import Iterable, Iterator
from dataclasses import dataclass, replace

from tpmsim.caller import NONCE_BYTES, Prepared, Session
from tpmsim.standard import AES, ALG_NULL, CONTINUE_SESSION, digest_bytes, RH_ENDORSEMENT
from tpmsim.standard import RH_NULL, RH_OWNER, SE_HMAC, SHA1, SHA256, sized, XOR
from tests.common.policy_teller import ENTITIES
from tests.common.teller import Teller
from tests.common.vocabulary import flipped, NAMES


@dataclass(frozen=True)
class SessionCase:
    """A session of the matrix. With the cipher ALG_NULL it cannot encrypt."""

    algorithm: int = SHA256
    size: int = NONCE_BYTES
    cipher: int = ALG_NULL
    bind: int = RH_NULL
    kind: int = SE_HMAC

    @property
    def hash_name(self) -> str:
        return NAMES[self.algorithm]

    @property
    def bound_to(self) -> str:
        return ENTITIES.get(self.bind, "nothing")

    @property
    def nonces(self) -> str:
        return f"{self.hash_name} and a nonce of {self.size} bytes"

    def start(self, tpm: Teller, what: str) -> Session:
        aes, xor = self.cipher == AES, self.cipher == XOR
        return tpm.start(
            what, self.bind, self.algorithm, size=self.size, kind=self.kind, aes=aes, xor=xor
        )


def matrix(**fields: Iterable[int]) -> Iterator[SessionCase]:
    """Yields sessions with each combination of these values. The last field changes fastest."""
    for values in itertools.product(*fields.values()):
        yield SessionCase(**dict(zip(fields, values)))


def bound_and_unbound(
    tpm: Teller, cipher: int, unbound: str = "Bound to nothing"
) -> Iterator[tuple[Session, Session]]:
    """Yields a session that is bound to TPM_RH_OWNER, and an unbound one, for each hash algorithm
    with its shortest and longest nonces. Each pair has its own chapter, at whose end both sessions
    are flushed.
    """
    for algorithm in (SHA1, SHA256):
        for size in (NONCE_BYTES, digest_bytes(algorithm)):
            case = SessionCase(algorithm, size, cipher)
            tpm.chapter(f"Sessions of {case.hash_name}, with nonces of {size} bytes.")
            to_owner = replace(case, bind=RH_OWNER)
            pair = to_owner.start(tpm, "Bound to TPM_RH_OWNER"), case.start(tpm, unbound)
            yield pair
            for session in pair:
                tpm.accepted("The session is flushed", tpm.flush(session))


def refuse_changes(tpm: Teller, right: Prepared, plain: bytes, encrypted: str) -> None:
    """Sends changed copies of a command whose first parameter is encrypted. `plain` is the
    parameter, and `encrypted` is the word for its encryption.
    """
    said = tpm(f"One bit of the {encrypted} bytes, which the hmac is of: BAD_AUTH/s1")
    said.refused(right.but(parameters=flipped(right.parameters)))
    tpm.refused("The same bytes in plain: BAD_AUTH/s1", right.but(parameters=sized(plain)))
    said = tpm("The attribute decrypt taken away: BAD_AUTH/s1")
    said.refused(right.but_entry(1, attributes=CONTINUE_SESSION))


def set_owner_and_endorsement(tpm: Teller, owner: str) -> None:
    """Sets ownerAuth to "owner", described by `owner`, and endorsementAuth to "endorsement"."""
    tpm.accepted(owner, tpm.change_auth(RH_OWNER, b"owner", b""))
    said = tpm('endorsementAuth is "endorsement"')
    said.accepted(tpm.change_auth(RH_ENDORSEMENT, b"endorsement", b""))
