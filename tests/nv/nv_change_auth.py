"""Makes nv_change_auth.tpm. TPM2_NV_ChangeAuth: the index is authorized in the ADMIN role, which
needs a policy with TPM2_PolicyCommandCode for this command.
"""

from tests.common.steps import AFTER_AUTH_VALUE, Steps, with_value
from tests.common.vocabulary import area, BY_OWNER, BY_POLICY, BY_VALUE, CC, DECRYPTS, digest_bytes
from tests.common.vocabulary import FIRST, HASHES, LOCKS, number, NvAttribute, policy, RH_OWNER
from tests.common.vocabulary import RH_PLATFORM, SECOND, SHA1, SHA256, sized, THIRD, Use, zeros

tpm = Steps(__name__, __doc__, tries=True)


def changing_policy(algorithm=SHA256, before=None):
    """Returns the digest after the assertions that produced `before`, followed by
    TPM2_PolicyCommandCode.
    """
    old = before or bytes(digest_bytes(algorithm))
    return policy.after_command_code(algorithm, old, CC.NV_ChangeAuth)


def told(session):
    tpm("TPM2_PolicyCommandCode of TPM2_NV_ChangeAuth").command_code(session, CC.NV_ChangeAuth)


tpm.chapter("TPM2_NV_ChangeAuth without the policy.")
said = tpm("An index with this policy, that can be used by its value")
said.define(area(FIRST, BY_VALUE, auth_policy=changing_policy()), auth=b"old")
tpm("TPM2_NV_ChangeAuth by the password: AUTH_UNAVAILABLE").changing_auth(FIRST, b"new")
tpm("TPM2_NV_ChangeAuth by a wrong password: AUTH_UNAVAILABLE").changing_auth(FIRST, b"new", b"x")
plain = tpm.start("An HMAC session that is bound to it", bind=FIRST)
tpm("TPM2_NV_ChangeAuth by the HMAC session: AUTH_UNAVAILABLE").changing_auth(FIRST, b"new", plain)
session = tpm.policy("A policy session")
tpm("TPM2_NV_ChangeAuth before TPM2_PolicyCommandCode: POLICY_FAIL/s1").changing_auth(
    FIRST, b"new", session
)
trial = tpm.trial("A trial session")
told(trial)
tpm("TPM2_NV_ChangeAuth by the trial session: ATTRIBUTES/s1").changing_auth(FIRST, b"new", trial)
tpm("TPM2_PolicyCommandCode of TPM2_NV_Write").command_code(session, CC.NV_Write)
tpm("TPM2_NV_ChangeAuth by this session: POLICY_CC/s1").changing_auth(FIRST, b"new", session)
tpm.restarts(session)
tpm("The value is unchanged: TPM2_NV_Write by it").writing(FIRST, b"x")

tpm.chapter("TPM2_NV_ChangeAuth by the policy.")
told(session)
tpm('TPM2_NV_ChangeAuth to "new"').changing_auth(FIRST, b"new", session)
tpm.digest_is("The policy counts once", session, zeros(session))
tpm("TPM2_NV_ChangeAuth again: POLICY_FAIL/s1").changing_auth(FIRST, b"newer", session)
tpm("TPM2_NV_Write by the old value: AUTH_FAIL/s1").writing(FIRST, b"y", b"old")
tpm("TPM2_NV_Write by the new value").writing(FIRST, b"y")
tpm.is_now("The Name of the index is unchanged, since it does not contain the value", FIRST)
told(session)
tpm("TPM2_NV_ChangeAuth to the empty value").changing_auth(FIRST, b"", session)
tpm.read("TPM2_NV_Read by the empty password", FIRST, b"y")
told(session)
tpm('TPM2_NV_ChangeAuth to "a" followed by zeros').changing_auth(FIRST, b"a" + bytes(31), session)
tpm.read("The zeros do not count", FIRST, b"y", b"a")
tpm.power_cycle()
tpm.read("The value survives a power cycle", FIRST, b"y", b"a")
tpm.undefines(FIRST)

tpm.chapter("A digest that is right, and no TPM2_PolicyCommandCode in it.")
said = tpm("An index whose policy is TPM2_PolicyAuthValue")
said.define(area(FIRST, BY_POLICY, auth_policy=AFTER_AUTH_VALUE[SHA256]), auth=b"old")
session = tpm.policy("A policy session")
said = tpm("TPM2_NV_Write by it: what is no ADMIN role asks for no code")
said.writing(FIRST, b"x", tpm.by_value(session))
by_value = tpm.by_value(session)
tpm("TPM2_NV_ChangeAuth: POLICY_FAIL/s1").changing_auth(FIRST, b"new", by_value)
tpm.undefines(FIRST)
said = tpm("An index whose policy is TPM2_PolicyCommandCode of TPM2_NV_Write")
for_writing = policy.after_command_code(SHA256, bytes(32), CC.NV_Write)
said.define(area(FIRST, BY_POLICY, auth_policy=for_writing))
tpm.restarts(session)
tpm("TPM2_PolicyCommandCode of TPM2_NV_Write").command_code(session, CC.NV_Write)
tpm("TPM2_NV_ChangeAuth: POLICY_CC/s1").changing_auth(FIRST, b"new", session)
tpm("TPM2_NV_Write").writing(FIRST, b"x", session)
tpm.undefines(FIRST)
tpm.define("An index without a policy", area(FIRST, BY_VALUE))
told(session)
tpm("TPM2_NV_ChangeAuth: AUTH_UNAVAILABLE").changing_auth(FIRST, b"new", session)
tpm.restarts(session)
tpm.undefines(FIRST)

tpm.chapter("No attribute has to allow TPM2_NV_ChangeAuth, and no lock forbids it.")
said = tpm("An index that the owner alone uses")
said.define(area(FIRST, BY_OWNER | LOCKS, auth_policy=changing_policy()), auth=b"old")
tpm("TPM2_NV_Write").writing(FIRST, b"x", by=RH_OWNER)
tpm("TPM2_NV_WriteLock").write_locking(FIRST, by=RH_OWNER)
tpm("TPM2_NV_ReadLock").read_locking(FIRST, by=RH_OWNER)
told(session)
tpm("TPM2_NV_ChangeAuth").changing_auth(FIRST, b"new", session)
tpm.undefines(FIRST)
created = area(SECOND, BY_OWNER | NvAttribute.PLATFORMCREATE, auth_policy=changing_policy())
tpm.define("An index of the platform", created, by=RH_PLATFORM)
told(session)
tpm("TPM2_NV_ChangeAuth").changing_auth(SECOND, b"new", session)
tpm("The index is undefined").undefining(SECOND, by=RH_PLATFORM)

for algorithm, name in HASHES:
    size = digest_bytes(algorithm)
    tpm.chapter(f"With {name}: sizes of the new value.")
    public = area(FIRST, BY_VALUE, algorithm=algorithm, auth_policy=changing_policy(algorithm))
    tpm.define("An index", public)
    session = tpm.policy("A policy session", algorithm=algorithm)
    told(session)
    wrong = tpm.changing_auth(FIRST, b"", session)
    said = tpm("No size, half of one, and a size that is cut: INSUFFICIENT/p1")
    said.fails(*(wrong.but(parameters=it) for it in (b"", b"\0", b"\0\1", b"\0\x20" + bytes(31))))
    said = tpm("33 bytes, whole or cut: SIZE/p1")
    said.fails(wrong.but(parameters=sized(bytes(33))), wrong.but(parameters=number(33, 2)))
    tpm.fails("A byte after it: SIZE", wrong.but(parameters=sized(b"a") + b"\0"))
    if algorithm == SHA1:
        longer = (tpm.changing_auth(FIRST, b"a" * it, session) for it in (21, 32))
        tpm.fails("21 and 32 bytes: SIZE/p1", *longer)

    tpm(f"{size} bytes").changing_auth(FIRST, b"a" * size, session)
    tpm("TPM2_NV_Write by it").writing(FIRST, b"x")
    told(session)
    tpm("32 zeros").changing_auth(FIRST, bytes(32), session)
    tpm("TPM2_NV_Write by the empty password").writing(FIRST, b"x", b"")
    tpm.undefines(FIRST)

tpm.chapter("A policy that also demands the old value. The response depends on the new value.")
BOTH = changing_policy(before=AFTER_AUTH_VALUE[SHA256])
tpm.define("An index", area(FIRST, BY_VALUE, auth_policy=BOTH), auth=b"old")
aes = tpm.policy("A policy session with AES", aes=True)


def both_told(tell=tpm.by_value, **choices):
    use = tell(aes, **choices)
    told(aes)
    return use


wrong = tpm.changing_auth(FIRST, b"new", both_told()).but_entry(1, hmac=bytes(32))
tpm.fails("A wrong hmac: AUTH_FAIL/s1", wrong)
said = tpm(
    "The key of the command's hmac has the old value, and the response's key has the new one"
)
said.changing_auth(FIRST, b"new", with_value(aes))
tpm("With the new value encrypted").changing_auth(FIRST, b"hidden", both_told(attributes=DECRYPTS))
tpm("TPM2_NV_Write by it").writing(FIRST, b"x")
use = both_told(tpm.by_password)
said = tpm("TPM2_NV_ChangeAuth by a wrong password: AUTH_FAIL/s1")
said.fails(tpm.changing_auth(FIRST, b"new", use).but_entry(1, hmac=b"x"))
tpm("TPM2_NV_ChangeAuth by the right password").changing_auth(
    FIRST, b"open", Use(aes, demand=use.demand)
)
tpm("TPM2_NV_Write by it").writing(FIRST, b"x")

tpm.chapter("A session that was bound to the index is so while it has the value of then.")
bound = tpm.start("An HMAC session that is bound to it", bind=FIRST)
tpm("TPM2_NV_Write by it").writing(FIRST, b"y", bound)
said = tpm("TPM2_NV_ChangeAuth, with this session in addition to the policy session")
said.changing_auth(FIRST, b"another", both_told(), bound)
tpm("TPM2_NV_Write: the new value is in the hmac's key").writing(FIRST, b"z", bound)
tpm("TPM2_NV_ChangeAuth back to the first value").changing_auth(FIRST, b"open", both_told())
tpm("TPM2_NV_Write: it is bound again").writing(FIRST, b"x", bound)

tpm.chapter("Handles.")
told(session)
right = tpm.changing_auth(FIRST, b"new", b"")
said = tpm("Handles of other kinds: the owner, PCR 0, an object and a session: VALUE/h1")
said.fails(*(right.but(handles=[it]) for it in (RH_OWNER, 0, 0x8000_0000, 0x8100_0000, aes.handle)))
tpm.fails("An undefined index: HANDLE/h1", right.but(handles=[THIRD]))
tpm.fails("Without sessions: AUTH_MISSING", right.but(entries=[]))
