"""A caller with the steps that many scripts need, and the values that these steps use."""

import contextlib
import functools
import itertools
from collections.abc import Callable, Iterator, Sequence
from typing import Any

from tpmsim.caller import HERE, hmac_key, Made, Means, OPEN, Prepared, Session, STATE, Use
from tpmsim.standard import CC, command, CONTINUE_SESSION, DECRYPT, digest_bytes, ENCRYPT, number
from tpmsim.standard import nv, policy, RH_ENDORSEMENT, RH_LOCKOUT, RH_NULL, RH_OWNER, RH_PLATFORM
from tpmsim.standard import SHA1, SHA256, SYMCIPHER
from tpmsim.standard.objects import Attribute, Public
from tpmsim.standard.policy import AUTH_VALUE, PASSWORD
from tests.common.teller import Teller

HIERARCHIES = (
    (RH_OWNER, "TPM_RH_OWNER"),
    (RH_ENDORSEMENT, "TPM_RH_ENDORSEMENT"),
    (RH_PLATFORM, "TPM_RH_PLATFORM"),
    (RH_NULL, "TPM_RH_NULL"),
)

# Hierarchies and lockout, each with its name and an authorization value.
AUTHORIZED = (
    (RH_OWNER, "TPM_RH_OWNER", b"owner"),
    (RH_ENDORSEMENT, "TPM_RH_ENDORSEMENT", b"endorsement"),
    (RH_PLATFORM, "TPM_RH_PLATFORM", b"platform"),
    (RH_LOCKOUT, "TPM_RH_LOCKOUT", b"lockout"),
)

# Attributes of two kinds of objects: one with dictionary attack protection, and one whose key the
# device generates.
PROTECTED = HERE | Attribute.USER_WITH_AUTH
GENERATED = HERE | OPEN | Attribute.SENSITIVE_DATA_ORIGIN

# For each hash algorithm, the digest of a policy that demands the authorization value.
AFTER_AUTH_VALUE = {
    algorithm: policy.after_auth_value(algorithm, bytes(digest_bytes(algorithm)))
    for algorithm in (SHA1, SHA256)
}

RESTRICTED_KEY = hmac_key(attributes=HERE | OPEN | Attribute.RESTRICTED)

# Handles that do not name objects. A command that needs an object refuses them with this outcome.
OTHERS = RH_OWNER, RH_NULL, 0, 0x0100_0000, 0x0200_0000, 0x0300_0000
NO_OBJECT = "No object's handle: TPM_RH_OWNER, TPM_RH_NULL, PCR 0, an NV index, sessions: VALUE/h1"

# Functions that return the use of a session whose policy demands the authorization value, in the
# HMAC's key or as a password.
with_value = functools.partial(Use, demand=AUTH_VALUE)
in_plain = functools.partial(Use, demand=PASSWORD)


def aes_key(
    attributes: int = Attribute.SIGN | Attribute.DECRYPT, algorithm: int = SHA256
) -> Public:
    """Returns the template of an AES key whose value the caller chooses, with these additional
    attributes.
    """
    return Public(SYMCIPHER, algorithm, HERE | OPEN | attributes)


class Steps(Teller):
    """A caller whose methods send the commands of common steps. The description of a step names its
    outcome, unless the outcome follows from the method's name.
    """

    # Steps for commands that need an object.

    def refuses_others(
        self,
        prepare: Callable[[int], Prepared],
        *more: int,
        transient: Sequence[int] = (0x8000_0000, 0x8000_0008, 0x80FF_FFFF),
        persistent: Sequence[int] = (0x8100_0000,),
    ) -> None:
        """Sends a command with handles of other kinds, and with handles of objects that do not
        exist.
        """
        self.says(NO_OBJECT, *map(prepare, (*OTHERS, *more)))
        words = "A transient object, while there is none: REFERENCE_H0"
        self.says(words, *map(prepare, transient))
        self.says("A persistent object, while there is none: HANDLE/h1", *map(prepare, persistent))

    def needs_entries(self, code: CC, handle: int, parameters: bytes = b"") -> None:
        words = (
            "The object has to be authorized, but there are no sessions (tag 8001): AUTH_MISSING"
        )
        self.raw(words, command(code, number(handle, 4) + parameters))

    # Steps for objects, sessions and indices that exist only temporarily.

    def owned(self, what: str, public: Public, *uses: Means, **more: Any) -> int:
        """Makes a primary object of the owner's hierarchy, and returns its handle."""
        return self.create_primary(what, RH_OWNER, public, *uses, **more)

    def below(self, what: str, parent: int, public: Public, *uses: Means, **more: Any) -> int:
        """Creates an object below a parent, loads it, and returns its handle."""
        return self.load("TPM2_Load", parent, self.create(what, parent, public, *uses, **more))

    @contextlib.contextmanager
    def held(
        self,
        what: str,
        public: Public,
        *uses: Means,
        hierarchy: int = RH_OWNER,
        flushed: str = "The object is flushed",
        **more: Any,
    ) -> Iterator[int]:
        """Makes a primary object, and flushes it at the end of the `with` block."""
        handle = self.create_primary(what, hierarchy, public, *uses, **more)
        yield handle
        self.flush_objects(flushed, handle)

    @contextlib.contextmanager
    def loaded(
        self,
        what: str,
        parent: int,
        made: Made,
        *uses: Means,
        flushed: str = "The object is flushed",
    ) -> Iterator[int]:
        """Loads an object below its parent, and flushes it at the end of the `with` block."""
        handle = self.load(what, parent, made, *uses)
        yield handle
        self.flush_objects(flushed, handle)

    def written(
        self, what: str, public: nv.Public, data: bytes, auth: bytes = b"", by: int | None = None
    ) -> None:
        """Defines an index, authorized by the owner, and writes data to it."""
        self.define(what, public, auth=auth)
        self.does("The index is written", self.writing(public.index, data, by=by))

    def flushes(self, what: str, *sessions: Session) -> None:
        """Flushes sessions, with the same description for each."""
        for session in sessions:
            self.does(what, self.flush(session))

    # Steps for policies that demand the authorization value.

    def by_value(self, session: Session, attributes: int = CONTINUE_SESSION) -> Use:
        """Sends TPM2_PolicyAuthValue. Returns the use of the session with the authorization value
        in the HMAC's key, as the policy then demands.
        """
        self.does("TPM2_PolicyAuthValue", self.auth_value_told(session))
        return with_value(session, attributes)

    def by_password(self, session: Session, attributes: int = CONTINUE_SESSION) -> Use:
        """Sends TPM2_PolicyPassword. Returns the use of the session with a password, as the policy
        then demands.
        """
        self.does("TPM2_PolicyPassword", self.password_told(session))
        return in_plain(session, attributes)

    def encrypts_nothing(self, prepare: Callable[[], Prepared]) -> None:
        """Sends a command with a session that could decrypt or encrypt, although neither the
        command nor its response has a parameter that can be encrypted.
        """
        for attribute, words in ((DECRYPT, "decrypted"), (ENCRYPT, "encrypted")):
            bent = prepare().but_entry(1, attributes=CONTINUE_SESSION | attribute)
            self.refused(f"Nothing can be {words}: ATTRIBUTES/s1", bent)

    # Steps for the state that the device keeps while it has no power.

    def saves(self) -> None:
        self.does("TPM2_Shutdown(STATE)", self.shutting_down(STATE))

    def resumes(self, what: str = "TPM2_Startup(STATE)") -> None:
        """Resumes from the saved state."""
        self.power()
        self.start_up(what, STATE)

    def saves_and_resumes(self, what: str = "TPM2_Startup(STATE)") -> None:
        self.saves()
        self.resumes(what)

    def resumes_not(self, words: str = "TPM2_Startup(STATE): VALUE/p1") -> None:
        """Checks that no state is saved, so that TPM2_Startup(STATE) fails."""
        self.power()
        self.fails(words, self.starting(STATE))
        self.start_up("TPM2_Startup(CLEAR)")

    def lists(
        self,
        what: str,
        kind: int,
        first: int,
        count: int,
        elements: Sequence[int | tuple[int, int]],
        more: bool = False,
    ) -> None:
        """Checks that TPM2_GetCapability returns these numbers or pairs, and that its moreData is
        equal to `more`.
        """
        numbers = itertools.chain(*(it if isinstance(it, tuple) else (it,) for it in elements))
        listed = number(len(elements), 4) + b"".join(number(it, 4) for it in numbers)
        answer = self.does(what, self.capability(kind, first, count))
        assert answer == number(more, 1) + number(kind, 4) + listed, what

    def clock_is(self, what: str, time: int, clock: int, resets: int, restarts: int) -> None:
        """Checks that TPM2_ReadClock returns these numbers."""
        counts = number(resets, 4) + number(restarts, 4)
        answer = number(time, 8) + number(clock, 8) + counts + b"\1"
        assert self.does(what, self.clock()) == answer, what
