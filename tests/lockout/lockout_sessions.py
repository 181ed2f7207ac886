"""Makes lockout_sessions.tpm. Each way in which an entry can guess a protected authorization
value: as the password, in the key of an HMAC, or because its session was bound to a protected
entity at the start. maxTries is 1 here, so one wrong entry in any of these ways locks all protected
entities.
"""

from dataclasses import dataclass
from functools import partial
from typing import Callable

from tests.common.steps import AFTER_AUTH_VALUE, in_plain, PROTECTED, Steps, with_value
from tests.common.vocabulary import area, BY_POLICY, BY_VALUE, FIRST, NvAttribute, policy
from tests.common.vocabulary import RH_LOCKOUT, RH_OWNER, sealed, SECOND, SHA256, wrong

PIN, DATA, OWNER, LOCKOUT = b"pin", b"a secret", b"owner", b"lockout"
DEMANDING = AFTER_AUTH_VALUE[SHA256]

tpm = Steps(__name__, __doc__)


@dataclass
class Way:
    """A way to use an entity: a function that prepares a command, the number of the entry that is
    made wrong, and the assertions that its policy session needs before each use.
    """

    words: str
    prepare: Callable
    place: int = 1
    tell: Callable = None

    def prepared(self):
        if self.tell:
            self.tell()
        return self.prepare()


def ways(handle, use):
    """Returns all ways in which an entry attempts to authorize with the value of a protected
    entity, and the sessions that they use.
    """
    unbound = tpm.start("An HMAC session that is bound to nothing")
    to_owner = tpm.start("A session that is bound to TPM_RH_OWNER", RH_OWNER)
    bound = tpm.start("A session that is bound to the entity", handle)
    to_lockout = tpm.start("A session that is bound to TPM_RH_LOCKOUT", RH_LOCKOUT)
    told = tpm.policy("A policy session")
    bound_policy = tpm.policy("A session that is bound to the entity", bind=handle)
    sessions = unbound, to_owner, bound, to_lockout, told, bound_policy

    by_lockout = "A session that is bound to TPM_RH_LOCKOUT: the entity's value is in the key"
    value, password = partial(tpm.by_value, told), partial(tpm.by_password, told)
    on_owner = "The session that is bound to the entity, on TPM_RH_OWNER"
    return sessions, (
        Way("The password", lambda: use(PIN)),
        Way("An HMAC session that is bound to nothing", lambda: use(unbound)),
        Way("A session that is bound to TPM_RH_OWNER", lambda: use(to_owner)),
        Way("A session that is bound to the entity", lambda: use(bound)),
        Way(by_lockout, lambda: use(to_lockout)),
        Way("A policy session with TPM2_PolicyAuthValue", lambda: use(with_value(told)), 1, value),
        Way("A policy session with TPM2_PolicyPassword", lambda: use(in_plain(told)), 1, password),
        Way(on_owner, lambda: tpm.change_auth(RH_OWNER, OWNER, bound)),
        Way("On PCR 16", lambda: tpm.reset(bound)),
        Way("In an entry that authorizes nothing, alone", lambda: tpm.random(2, bound)),
        Way(
            "In an entry that authorizes nothing, after a password",
            lambda: tpm.reset(b"", bound),
            place=2,
        ),
        Way(
            "In an entry that authorizes nothing, after two other entries",
            lambda: tpm.reset(to_owner, unbound, bound),
            place=3,
        ),
        Way("The policy session that is bound to it", lambda: tpm.random(2, bound_policy)),
        Way("And after a password", lambda: tpm.reset(b"", bound_policy), place=2),
    )


def check(name, handle, use):
    tpm.chapter(f"{name}.")
    sessions, found = ways(handle, use)
    for way in found:
        tpm.chapter(f"{way.words}, {name}.")
        tpm.accepted("The right entry", way.prepared())
        bent = wrong(way.prepared(), way.place)
        tpm.refused(f"A wrong entry is a failed try: AUTH_FAIL/s{way.place}", bent)
        tpm.refused("The right entry during the lockout: LOCKOUT", way.prepare())
        tpm.refused("The right password during the lockout: LOCKOUT", use(PIN))
        if way.tell:
            tpm.restarts(sessions[4])
        tpm.unlocks()
    # During the lockout, entries that involve no protected authorization value still work.
    unbound, to_owner, bound, to_lockout, told, bound_policy = sessions
    tpm.chapter(f"Entries that are no attempts, {name}.")
    others = (
        ("On TPM_RH_OWNER, bound to nothing", tpm.change_auth, (RH_OWNER, OWNER, unbound), 1),
        ("Bound to TPM_RH_OWNER", tpm.change_auth, (RH_OWNER, OWNER, to_owner), 1),
        ("The password of TPM_RH_OWNER", tpm.change_auth, (RH_OWNER, OWNER, OWNER), 1),
        (
            "Bound to TPM_RH_OWNER, in an entry that authorizes nothing",
            tpm.random,
            (2, to_owner),
            1,
        ),
        ("On PCR 16, bound to TPM_RH_OWNER", tpm.reset, (to_owner,), 1),
        ("After a session that is bound to TPM_RH_OWNER", tpm.reset, (to_owner, unbound), 2),
    )
    for words, prepare, arguments, place in others:
        tpm.refused(f"{words}: wrong: BAD_AUTH/s{place}", wrong(prepare(*arguments), place))
    tpm("The entity is not locked").random(2, bound)
    tpm.refused("A failed try: AUTH_FAIL/s1", wrong(tpm.random(2, bound)))
    for words, prepare, arguments, _ in others:
        tpm.accepted(f"{words}: right", prepare(*arguments))
    tpm("Bound to TPM_RH_LOCKOUT, on PCR 16").reset(to_lockout)
    said = tpm("Bound to the entity, on TPM_RH_LOCKOUT: lockoutAuth is what is tried there")
    said.lock_reset(bound)
    tpm("The session is flushed").flush(unbound)
    tpm.flushes("", *sessions[1:])


def policy_without_value():
    """Using a policy that demands no authorization value does not count as an attempt to guess the
    entity's value, whatever HMAC the entry contains. But if the session is bound to a protected
    entity, a wrong HMAC counts as an attempt to guess the value of that entity.
    """
    tpm.chapter(
        "A policy that demands no authorization value, and a session that is bound to nothing."
    )
    digest = policy.after_locality(SHA256, bytes(32), 1)
    tpm.define("An index with this policy", area(SECOND, BY_POLICY, auth_policy=digest))
    session = tpm.policy("A policy session")

    def use(session):
        tpm("TPM2_PolicyLocality of locality 0").locality(session, 1)
        return tpm.writing(SECOND, DATA, session)

    tpm.accepted("TPM2_NV_Write", use(session))
    tpm.refused("TPM2_NV_Write with an hmac that is not demanded: BAD_AUTH/s1", wrong(use(session)))
    tpm.restarts(session)
    tpm.refused("A failed try on another entity: AUTH_FAIL/s1", tpm.writing(FIRST, DATA, b"x"))
    tpm.accepted("The policy session is still accepted", use(session))
    tpm.unlocks()
    bound = tpm.policy("A policy session that is bound to the other entity", bind=FIRST)
    tpm.accepted("TPM2_NV_Write", use(bound))
    tpm.refused(
        "A wrong hmac, which is a failed try on the other entity: AUTH_FAIL/s1", wrong(use(bound))
    )
    tpm("The right entry during the lockout: LOCKOUT").writing(SECOND, DATA, bound)
    tpm.unlocks()
    tpm("The index is undefined").undefining(SECOND, OWNER)
    tpm("The sessions are flushed").flush(session)
    tpm("").flush(bound)


tpm.set_protection("TPM2_DictionaryAttackParameters: maxTries is 1", 1, 1000, 1000)
tpm('lockoutAuth is "lockout"').change_auth(RH_LOCKOUT, LOCKOUT, b"")
tpm('ownerAuth is "owner"').change_auth(RH_OWNER, OWNER, b"")
said = tpm("An NV index, with a policy that asks for its value")
said.written(area(FIRST, BY_VALUE | BY_POLICY, auth_policy=DEMANDING), DATA, auth=PIN)
template = sealed(attributes=PROTECTED, auth_policy=DEMANDING)
SEALED = tpm.owned("A sealed object, with the same policy", template, user_auth=PIN, data=DATA)
check("the NV index", FIRST, lambda use: tpm.writing(FIRST, DATA, use))
check("the object", SEALED, lambda use: tpm.unsealing(SEALED, use))
policy_without_value()

tpm.chapter("A session that was bound to a protected entity stays such a session.")
tpm.define("An index", area(SECOND, BY_VALUE), OWNER, auth=PIN)
bound = tpm.start("A session that is bound to it", SECOND)
tpm("The index is undefined").undefining(SECOND, OWNER)
tpm("On PCR 16").reset(bound)
tpm.refused("A wrong entry is a failed try: AUTH_FAIL/s1", wrong(tpm.reset(bound)))
tpm("It is locked: LOCKOUT").reset(bound)
tpm.unlocks()
said = tpm("The index again, with TPMA_NV_NO_DA")
said.define(area(SECOND, BY_VALUE | NvAttribute.NO_DA), OWNER, auth=PIN)
free = tpm.start("A session that is bound to it now", SECOND)
tpm.refused("A wrong entry is no failed try: BAD_AUTH/s1", wrong(tpm.reset(free)))
said = tpm("The first session, which was bound to a protected entity: AUTH_FAIL/s1")
said.refused(wrong(tpm.writing(SECOND, DATA, bound)))
tpm("Locked or not, the second session").writing(SECOND, DATA, free)
tpm.unlocks()
tpm.flushes("The session is flushed", bound, free)
