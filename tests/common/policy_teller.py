"""A caller for policy sessions. It compares the state of its device with the state that the
accepted commands determine.
"""

from typing import Any, Callable, Sequence

from tpmsim.caller import Prepared, Session
from tpmsim.model.history import History
from tpmsim.standard import CC, RH_ENDORSEMENT, RH_LOCKOUT, RH_OWNER, RH_PLATFORM
from tests.common.teller import Teller

HIERARCHIES = {
    RH_OWNER: "TPM_RH_OWNER",
    RH_ENDORSEMENT: "TPM_RH_ENDORSEMENT",
    RH_PLATFORM: "TPM_RH_PLATFORM",
    RH_LOCKOUT: "TPM_RH_LOCKOUT",
}
ENTITIES = {**HIERARCHIES, 0: "PCR 0", 23: "PCR 23"}


class PolicyTeller(Teller):
    def __init__(self, name: str, told: str, tries: bool = False) -> None:
        super().__init__(name, told, tries)
        self.history = History()
        self.script.device.tell = self.history.add

    def digest_of(self, session: Session) -> bytes:
        """Returns the policy digest that results from the assertions that a session has accepted."""
        return self.history.sessions.live[session.handle].policy.digest

    def digest_is(self, what: str, session: Session, wanted: bytes | None = None) -> None:
        """Reads the policy digest with TPM2_PolicyGetDigest, and compares it with the digest that
        the accepted assertions determine. If the caller passes `wanted`, the digest must also be
        equal to `wanted`.
        """
        told = self.digest_of(session)
        assert wanted in (None, told), what
        assert not list(self.history.differences(self.script.device)), what
        super().digest_is(what, session, told)

    def makes(
        self, what: str, session: Session, told: Prepared, digest: str = "The digest of the session"
    ) -> None:
        """Sends an assertion that must be accepted, and checks the policy digest after it."""
        self.does(what, told)
        self.digest_is(digest, session)

    def texts(self, words: str, code: CC, session: Session, *texts: bytes) -> None:
        """Sends a policy command with each of these parameter encodings, valid or not."""
        self.says(words, *(self.told(code, session, it) for it in texts))

    # Commands whose HMACs are computed with a different key or with different nonces.

    def with_key(self, key: bytes, prepare: Callable[..., Prepared], *those: Any) -> Prepared:
        with self.breaking(key=lambda *_: key):
            return prepare(*those)

    def with_nonces_of(
        self, others: Sequence[Session], prepare: Callable[..., Prepared], *those: Any
    ) -> Prepared:
        nonces = [it.nonce_tpm for it in others]
        with self.breaking(nonces_of_others=lambda *_: nonces):
            return prepare(*those)
