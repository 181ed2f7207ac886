"""Makes nv_policies.tpm. NV indices and policy sessions: with POLICYWRITE and POLICYREAD the
policy of an index can authorize writing and reading.
"""

from tests.common.steps import AFTER_AUTH_VALUE, Steps, with_value
from tests.common.vocabulary import area, BY_OWNER, BY_POLICY, CC, DECRYPTS, digest, ENCRYPTS, FIRST
from tests.common.vocabulary import HASHES, LOCKS, nv, NvAttribute, others_in, policy, RH_OWNER
from tests.common.vocabulary import SECOND, selection, SHA1, SHA256, THIRD, Use, zeros

DATA = b"8 bytes."
POLICYWRITE, POLICYREAD = NvAttribute.POLICYWRITE, NvAttribute.POLICYREAD
BY_KNOWING = AFTER_AUTH_VALUE[SHA256]

tpm = Steps(__name__, __doc__, tries=True)

# The commands that an index can authorize on itself, and whether each needs the right to read.
COMMANDS = (
    ("TPM2_NV_Write", False, lambda by: tpm.writing(FIRST, DATA, by)),
    ("TPM2_NV_WriteLock", False, lambda by: tpm.write_locking(FIRST, by)),
    ("TPM2_NV_Read", True, lambda by: tpm.reading(FIRST, 8, by)),
    ("TPM2_NV_ReadLock", True, lambda by: tpm.read_locking(FIRST, by)),
    ("TPM2_PolicyNV", True, lambda by: tpm.comparing(told, FIRST, DATA, by)),
    ("TPM2_PolicySecret", True, lambda by: tpm.secret(told, by, of=FIRST)),
)

LOCKING = tuple(it for it in COMMANDS if it[0].endswith("Lock"))
USES = tuple(it for it in COMMANDS if it not in LOCKING)
CHOSEN = [(SHA256, [10])]


def by_code_and_pcrs():
    tpm.chapter(
        "One policy with two branches: who knows the value writes, and everybody reads while PCR "
        "10 has its value of now."
    )
    to_write = policy.after_command_code(SHA256, BY_KNOWING, CC.NV_Write)
    values = digest(SHA256, bytes(32))
    to_read = policy.after_pcr(SHA256, bytes(32), selection(*CHOSEN), values)
    to_read = policy.after_command_code(SHA256, to_read, CC.NV_Read)
    either = policy.after_or(SHA256, [to_write, to_read])
    tpm.define("The index", area(FIRST, BY_POLICY, auth_policy=either), auth=b"a")
    session = tpm.policy("A policy session")

    def writer():
        use = tpm.by_value(session)
        tpm("TPM2_PolicyCommandCode of TPM2_NV_Write").command_code(session, CC.NV_Write)
        tpm("TPM2_PolicyOR of both").branches(session, to_write, to_read)
        return use

    def reader(words="TPM2_PolicyOR of both"):
        tpm("TPM2_PolicyPCR of PCR 10").pcrs(session, CHOSEN)
        tpm("TPM2_PolicyCommandCode of TPM2_NV_Read").command_code(session, CC.NV_Read)
        tpm(words).branches(session, to_write, to_read)

    tpm("TPM2_NV_Read by the writer's: POLICY_CC/s1").reading(FIRST, 8, writer())
    tpm("TPM2_NV_Write").writing(FIRST, DATA, with_value(session))
    reader()
    tpm("TPM2_NV_Write by the reader's: POLICY_CC/s1").writing(FIRST, DATA, session)
    tpm.read("TPM2_NV_Read", FIRST, DATA, session)
    reader()
    tpm("PCR 10 is extended").event(b"program", b"", pcr=10)
    tpm("TPM2_NV_Read: PCR_CHANGED").reading(FIRST, 8, session)
    tpm.restarts(session)
    reader("TPM2_PolicyOR: VALUE/p1")
    tpm("TPM2_NV_Read: POLICY_FAIL/s1").reading(FIRST, 8, session)
    tpm.restarts(session)
    tpm("TPM2_NV_Write is as before").writing(FIRST, DATA[::-1], writer())
    tpm.undefines(FIRST)
    tpm("The session is flushed").flush(session)


told = tpm.policy("A session with TPM2_PolicyNV and TPM2_PolicySecret")

for algorithm, name in HASHES:
    tpm.chapter(f"TPM2_PolicyAuthValue and TPM2_PolicyPassword, of {name}.")
    public = area(FIRST, BY_POLICY, algorithm=algorithm, auth_policy=AFTER_AUTH_VALUE[algorithm])
    tpm.define("An index that a policy alone may use", public, auth=b"a")
    tpm("TPM2_NV_Write by the password: AUTH_UNAVAILABLE").writing(FIRST, DATA)
    tpm("By the owner: NV_AUTHORIZATION").writing(FIRST, DATA, by=RH_OWNER)
    session = tpm.policy("A policy session", algorithm=algorithm)
    tpm("Without an assertion: POLICY_FAIL/s1").writing(FIRST, DATA, session)
    for tell in (tpm.by_value, tpm.by_password):
        use = tell(session)
        wrong = others_in(tpm.writing(FIRST, DATA, use), 1)
        tpm.fails("TPM2_NV_Write by a wrong value: AUTH_FAIL/s1", wrong)
        tpm("TPM2_NV_Write").writing(FIRST, DATA, Use(session, demand=use.demand))
        tpm.digest_is("The assertion counts once", session, zeros(session))
        tpm("TPM2_NV_Read: POLICY_FAIL/s1").reading(FIRST, 8, Use(session, demand=use.demand))
        tpm.read("TPM2_NV_Read", FIRST, DATA, tell(session))
    tpm.undefines(FIRST)
    other = tpm.policy("A session of the other hash", algorithm=SHA1 + SHA256 - algorithm)
    tpm.define("The index again", public, auth=b"a")
    tpm("TPM2_NV_Write by it: POLICY_FAIL/s1").writing(FIRST, DATA, tpm.by_value(other))
    tpm.undefines(FIRST)
    tpm.flushes("A session is flushed", session, other)

tpm.chapter("Which attribute lets what authorize: the others do not.")
session = tpm.policy("A policy session")
hmac = tpm.start("An HMAC session")
for what, attributes in (
    ("POLICYWRITE and what allows all others to read", POLICYWRITE | nv.READS & ~POLICYREAD),
    ("POLICYREAD and what allows all others to write", POLICYREAD | nv.WRITES & ~POLICYWRITE),
):
    writes = bool(attributes & POLICYWRITE)
    tpm.define(what, area(FIRST, attributes | LOCKS, auth_policy=BY_KNOWING), auth=b"a")
    for name, is_reading, prepare in COMMANDS:
        if is_reading == writes:
            tpm.fails(f"{name} by the policy: AUTH_UNAVAILABLE", prepare(tpm.by_value(session)))
            tpm.restarts(session)
        else:
            tpm.fails(f"{name} by the password: AUTH_UNAVAILABLE", prepare(b"a"))
            said = tpm("By a wrong one, or an HMAC session: AUTH_UNAVAILABLE")
            said.fails(prepare(b"x"), prepare(hmac))
    tpm.undefines(FIRST)

tpm.chapter("With all attributes and without a policy.")
tpm.define("The index", area(FIRST, nv.WRITES | nv.READS | LOCKS), auth=b"a")
for name, _, prepare in COMMANDS:
    tpm.fails(f"{name} by a policy session: AUTH_UNAVAILABLE", prepare(session))
for name, _, prepare in USES:
    tpm.does(f"{name} by the password", prepare(b"a"))
tpm("TPM2_PolicyRestart of the session with assertions").restart(told)
tpm.undefines(FIRST)

tpm.chapter("With all attributes and a policy, each way is open.")
public = area(FIRST, nv.WRITES | nv.READS | LOCKS, auth_policy=BY_KNOWING)
tpm.define("The index", public, auth=b"a")
for name, _, prepare in USES + LOCKING:
    tpm.does(f"{name} by the policy", prepare(tpm.by_value(session)))
tpm.flushes("A session is flushed", session, hmac)
tpm.undefines(FIRST)

by_code_and_pcrs()

tpm.chapter("TPM2_PolicyLocality: written from locality 1 alone.")
from_1 = policy.after_locality(SHA256, bytes(32), 0b10)
tpm.define("The index", area(FIRST, POLICYWRITE | NvAttribute.OWNERREAD, auth_policy=from_1))
session = tpm.policy("A policy session")
tpm("TPM2_PolicyLocality").locality(session, 0b10)
tpm("TPM2_NV_Write at locality 0: LOCALITY").writing(FIRST, DATA, session)
tpm.locality_is(1)
tpm("At locality 1").writing(FIRST, DATA, session)
tpm.locality_is(0)
tpm.read("TPM2_NV_Read by the owner", FIRST, DATA, by=RH_OWNER)
tpm.undefines(FIRST)
tpm("The session is flushed").flush(session)

tpm.chapter("A policy session that is bound to the index. The first write ends no key of it.")
tpm.define("The index", area(FIRST, BY_POLICY, auth_policy=BY_KNOWING), auth=b"a")
session = tpm.policy("The session, with AES", bind=FIRST, aes=True)
tpm("TPM2_NV_Write, with the value in both keys").writing(FIRST, DATA, tpm.by_value(session))
tpm("Once more, with its data encrypted").writing(FIRST, DATA, tpm.by_value(session, DECRYPTS))
said = tpm("TPM2_NV_Read by the password, with what is read encrypted")
said.read(FIRST, DATA, tpm.by_password(session, ENCRYPTS))
tpm("The session ends with the command").writing(FIRST, DATA, tpm.by_value(session, 0))
tpm("The session no longer exists: REFERENCE_H0").get_digest(session)
tpm.undefines(FIRST)

tpm.chapter("The policy is that of the index that authorizes, and of no other entity.")
tpm.define("An index", area(FIRST, BY_POLICY | BY_OWNER, auth_policy=BY_KNOWING), auth=b"a")
tpm.define(
    "Another index with the same policy", area(SECOND, BY_POLICY, auth_policy=BY_KNOWING), auth=b"a"
)
tpm.define(
    "A third index with another policy", area(THIRD, BY_POLICY, auth_policy=bytes(32)), auth=b"a"
)
session = tpm.policy("A policy session")
tpm("The third, whose policy is zeros, asks for no assertion").writing(THIRD, DATA, session)
tpm("The third by another digest: POLICY_FAIL/s1").writing(THIRD, DATA, tpm.by_value(session))
for words, asker in (
    ("The first, by the second: NV_AUTHORIZATION", SECOND),
    ("The first, by the owner: AUTH_UNAVAILABLE", RH_OWNER),
    ("The first, by itself", FIRST),
):
    tpm(words).writing(FIRST, DATA, with_value(session), by=asker)
trial = tpm.trial("A trial session")
tpm("TPM2_PolicyAuthValue").auth_value_told(trial)
tpm("By it: ATTRIBUTES/s1").writing(FIRST, DATA, trial)
tpm("A trial session fails even if nothing else can authorize: ATTRIBUTES/s1").writing(
    FIRST, DATA, trial, by=RH_OWNER
)
tpm("The first is undefined: its policy is nobody's").undefining(FIRST)
tpm("The second index").writing(SECOND, DATA, tpm.by_value(session))
said = tpm("TPM2_NV_Write through the session, which then returns to its start")
said.writing(THIRD, DATA, session)
