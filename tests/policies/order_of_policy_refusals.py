"""Makes order_of_policy_refusals.tpm. The order of refusals of the policy commands: many faults are
repaired one after the other. The response always reports the first remaining fault, in the order of
docs/table/order_of_refusals.md.
"""

from tests.common.order import OrderTeller
from tests.common.vocabulary import CC, CONTINUE_SESSION, DECRYPTS, ENCRYPTS, frames, number
from tests.common.vocabulary import RH_LOCKOUT, RH_NULL, RH_OWNER, selection, SHA256, sized
from tests.common.vocabulary import Use, wrong_in

tpm = OrderTeller(__name__, __doc__, tries=True)


def refused(words, prepared, *wrong):
    """Sends a command that must be refused. The entries with the numbers `wrong` get wrong HMACs."""
    tpm.refused(words, wrong_in(prepared, *wrong) if wrong else prepared)


def up_to_hmacs(text):
    """Causes all refusals that precede those of the parameters, in a command with one handle.
    `text` contains the command's parameters.
    """
    tpm.refuses_before_parameters(code, [policy.handle], text, [hmac, policy])


def symmetric(use):
    case = f"{'encrypt' if use.attributes == ENCRYPTS else 'decrypt'} in a session that cannot"
    told = tpm.told(code, policy, b"\0", hmac, use)
    refused(f"{case}, and a wrong hmac before: SYMMETRIC/s2", told, 1)


def by_right(words, text):
    """Sends TPM2_PolicySecret with the right password, while the policy session itself decrypts
    nonceTPM. The command must be refused.
    """
    refused(words, secret(text, b"lockout", policy.decrypting))


def in_trial(words, **parameters):
    tpm.says(words, tpm.secret(trial, b"lockout", of=RH_LOCKOUT, **parameters))


hmac = tpm.start("An HMAC session, with AES", RH_OWNER, aes=True)
plain = tpm.start("Another, without AES", RH_OWNER)
policy = tpm.policy("A policy session, with AES", bind=RH_OWNER, aes=True)
trial = tpm.trial("A trial session, with AES", bind=RH_OWNER, aes=True)


def says(words, text, session=policy, attributes=CONTINUE_SESSION):
    """Sends the chapter's command with these parameters."""
    tpm(words).told(code, session, text, Use(hmac, attributes))


def decrypted(words, text, session=policy):
    """Sends the chapter's command with these parameters; the HMAC session is used to decrypt the
    first one.
    """
    says(words, text, session, DECRYPTS)


for code in (CC.PolicyRestart, CC.PolicyAuthValue, CC.PolicyPassword):
    tpm.chapter(f"TPM2_{code.name} with a byte too many.")
    up_to_hmacs(b"\0")
    says("The byte: SIZE", b"\0")
    says("No fault is left", b"")

code = CC.PolicyGetDigest
tpm.chapter("TPM2_PolicyGetDigest with a byte too many.")
up_to_hmacs(b"\0")
symmetric(plain.encrypting)
says("The byte: SIZE", b"\0")
says("No fault is left", b"")

code = CC.PolicyLocality
tpm.chapter("TPM2_PolicyLocality.")
up_to_hmacs(b"")
says("No byte: INSUFFICIENT/p1", b"")
says("A byte after 0, and after FF: SIZE", b"\0\0")
says("SIZE", b"\xff\0")
says("0: RANGE/p1", b"\0")
says("No fault is left", b"\1")

code = CC.PolicyCommandCode
tpm.chapter("TPM2_PolicyCommandCode after TPM2_PolicyCommandCode of Unseal.")
tpm("Unseal").command_code(policy, CC.Unseal)
up_to_hmacs(b"\0\0\1")
says("Three bytes: INSUFFICIENT/p1", b"\0\0\1")
says("Another code, 0, and a byte after it: SIZE", bytes(5))
says("0, which is no code, and another: VALUE/p1", bytes(4))
tpm.restarts(policy)
says("0, and none is recorded: POLICY_CC/p1", bytes(4))
says("No fault is left", number(CC.Unseal, 4))

code = CC.PolicyOR
tpm.chapter("TPM2_PolicyOR.")
up_to_hmacs(b"\0\0\0")
says("Three bytes of the number: INSUFFICIENT/p1", b"\0\0\0")
says("One digest, of 33 bytes: SIZE/p1", frames.sized_list(bytes(33)))
says("Nine, the first cut: SIZE/p1", number(9, 4) + b"\0")
says("Two, the first cut: INSUFFICIENT/p1", number(2, 4) + b"\0\x20" + bytes(31))
says("Its size over 32: SIZE/p1", number(2, 4) + b"\0\x21" + bytes(31))
case = "The second over 32 and cut, though the digest is not among them: SIZE/p1"
says(case, number(2, 4) + sized(b"x") + b"\0\x21")
says("A byte after two of others: SIZE", frames.sized_list(b"x", b"y") + b"\0")
says("Two of others: VALUE/p1", frames.sized_list(b"x", b"y"))
tpm.restarts(policy)
says("No fault is left", frames.sized_list(b"x", bytes(32)))

code = CC.PolicyPCR
tpm.chapter("TPM2_PolicyPCR after TPM2_PolicyPCR, and PCR 16 has changed; hmac decrypts.")
tpm.restarts(policy)
tpm("TPM2_PolicyPCR").pcrs(policy, [(SHA256, [0])])
tpm.accepted("TPM2_PCR_Reset of PCR 16", tpm.reset(b""))
GIVEN, CUT_DIGEST = sized(bytes(32)), sized(bytes(32))[:-1]
up_to_hmacs(CUT_DIGEST)
symmetric(plain.decrypting)
decrypted("pcrDigest that is cut, and cannot be decrypted: INSUFFICIENT/p1", CUT_DIGEST)
decrypted("One of 33 bytes, and nothing after it: SIZE/p1", sized(bytes(33)))
decrypted("No selection after it: INSUFFICIENT/p2", GIVEN)
decrypted("Of seventeen banks, the first cut: SIZE/p2", GIVEN + number(17, 4) + b"\0")
decrypted("Of a wrong hash, of four octets, and cut: HASH/p2", GIVEN + number(1, 4) + b"\0\x0c\4")
decrypted("Of four octets, and cut: VALUE/p2", GIVEN + number(1, 4) + b"\0\x0b\4")
decrypted("Cut: INSUFFICIENT/p2", GIVEN + selection((SHA256, [0]))[:-1])
decrypted("A byte after it: SIZE", GIVEN + selection((SHA256, [0])) + b"\0")
decrypted("The PCR that has changed, and a wrong pcrDigest: PCR_CHANGED", GIVEN + selection())
tpm.restarts(policy)
decrypted("The pcrDigest: VALUE/p1", GIVEN + selection())
tpm("No fault is left").pcrs(policy, [], b"", [hmac.decrypting])

tpm.chapter("TPM2_PolicySecret of TPM_RH_LOCKOUT.")
tpm.script.wait_each_time()
tpm.restarts(policy)
CP_HASH = bytes([1]) * 32
tpm.accepted('lockoutAuth is "lockout"', tpm.change_auth(RH_LOCKOUT, b"lockout", b""))
tpm.accepted("A cpHash", tpm.secret(policy, cp_hash=CP_HASH))


def secret(text, *uses, of=RH_LOCKOUT, session=policy.handle):
    return tpm.prepare(CC.PolicySecret, [of, session], text, *uses)


CUT = b"\0\x20"
both = [RH_LOCKOUT, policy.handle]
tpm.refuses_handles(CC.PolicySecret, both)
refused("TPM_RH_NULL: VALUE/h1", secret(CUT, of=RH_NULL))
tpm.refuses_entries(CC.PolicySecret, both, CUT, [b"lockout", policy])
refused("A second password after a wrong one: HANDLE/s2", secret(CUT, b"wrong", b"lockout"))
case = "decrypt in a session that cannot, after a wrong password: SYMMETRIC/s2"
refused(case, secret(CUT, b"wrong", plain.decrypting))
case = "A trial session that is to authorize it, and a wrong hmac after it: ATTRIBUTES/s1"
refused(case, secret(CUT, trial, hmac), 1, 2)
case = "A policy session that is to authorize it, and a wrong hmac after it: AUTH_UNAVAILABLE"
refused(case, secret(CUT, policy, hmac), 1, 2)
case = "A wrong password, and a wrong hmac after it: AUTH_FAIL/s1"
refused(case, secret(CUT, b"wrong", hmac.decrypting), 2)
refused("A wrong hmac, and another after it: AUTH_FAIL/s1", secret(CUT, hmac, policy), 1, 2)
refused("The one after: BAD_AUTH/s2", secret(CUT, b"lockout", policy.decrypting), 2)
NONCE = bytes(16)
assert policy.nonce_tpm != NONCE
by_right("nonceTPM that is cut, and cannot be decrypted: INSUFFICIENT/p1", CUT)
by_right("One of 33 bytes, and nothing after it: SIZE/p1", sized(bytes(33)))
by_right("cpHashA of 33 bytes, and nothing after it: SIZE/p2", sized(NONCE) + b"\0\x21")
by_right("One of 32 that is cut: INSUFFICIENT/p2", sized(NONCE) + CUT)
by_right("policyRef of 33 bytes: SIZE/p3", sized(NONCE) + sized(b"x") + b"\0\x21")
by_right("One of 32 that is cut: INSUFFICIENT/p3", sized(NONCE) + sized(b"x") + CUT)
by_right("expiration that is cut: INSUFFICIENT/p4", sized(NONCE) + sized(b"x") + sized(b"") + b"\1")
faulty = dict(nonce_tpm=NONCE, cp_hash=b"x", expiration=1)
by_right("A byte after it: SIZE", frames.policy_secret(**faulty) + b"\0")
by_right("expiration is 1: VALUE/p4", frames.policy_secret(**faulty))
del faulty["expiration"]
by_right("cpHashA of one byte: SIZE/p2", frames.policy_secret(**faulty))
faulty["cp_hash"] = bytes(32)
by_right("Another nonceTPM, and another cpHashA: NONCE/p1", frames.policy_secret(**faulty))
faulty["nonce_tpm"] = policy.nonce_tpm
by_right("Another cpHashA: CPHASH", frames.policy_secret(**faulty))
faulty["cp_hash"] = CP_HASH
said = tpm("No fault is left")
said.accepted(secret(frames.policy_secret(**faulty), b"lockout", policy.decrypting))

tpm.chapter("In a trial session fewer of them are faults.")
in_trial("expiration is 1: VALUE/p4", nonce_tpm=NONCE, cp_hash=b"x", expiration=1)
in_trial("cpHashA of one byte: SIZE/p2", nonce_tpm=NONCE, cp_hash=b"x")
in_trial("Another nonceTPM, and a cpHashA: SUCCESS", nonce_tpm=NONCE, cp_hash=CP_HASH)
in_trial("And another cpHashA: SUCCESS", nonce_tpm=NONCE, cp_hash=bytes(32))
others = frames.sized_list(b"x", b"y") + b"\0"
refused("A byte after TPM2_PolicyOR of others: SIZE", tpm.told(CC.PolicyOR, trial, others))
tpm("TPM2_PolicyOR of others").branches(trial, b"x", b"y")
tpm("TPM2_PolicyPCR").pcrs(trial, [])
tpm.accepted("TPM2_PCR_Reset of PCR 16", tpm.reset(b""))
case = "A byte after TPM2_PolicyPCR with another pcrDigest: SIZE"
refused(case, tpm.told(CC.PolicyPCR, trial, GIVEN + selection() + b"\0"))
tpm("TPM2_PolicyPCR with it").pcrs(trial, [], bytes(32))

tpm.chapter("TPM2_PolicyCpHash after TPM2_PolicyCpHash; hmac decrypts.")
tpm.says("TPM2_PolicyRestart: SUCCESS", tpm.restart(policy), tpm.restart(trial))
code = CC.PolicyCpHash
tpm("A cpHash").cp_hash_told(policy, CP_HASH)
tpm("In the trial session too").cp_hash_told(trial, CP_HASH)
up_to_hmacs(CUT_DIGEST)
symmetric(plain.decrypting)
for what, outcome, text in (
    ("cpHashA that is cut, and cannot be decrypted", "INSUFFICIENT/p1", CUT_DIGEST),
    ("One of 33 bytes, and a byte after it", "SIZE/p1", sized(bytes(33)) + b"\0"),
    ("A byte after one of 31", "SIZE", sized(bytes(31)) + b"\0"),
    ("One of 31, which is another", "SIZE/p1", sized(bytes(31))),
    ("Another one", "CPHASH", sized(bytes(32))),
):
    decrypted(f"{what}: {outcome}", text)
    decrypted(f": {outcome}", text, trial)
for session in (policy, trial):
    decrypted("No fault is left", sized(CP_HASH), session)

tpm.chapter("TPM2_PolicyNvWritten after TPM2_PolicyNvWritten of 1.")
code = CC.PolicyNvWritten
tpm("In a policy session").written_told(policy, True)
tpm("In a trial session").written_told(trial, True)
up_to_hmacs(b"")
for session in (policy, trial):
    says("No byte: INSUFFICIENT/p1", b"", session)
    says("2, and a byte after it: VALUE/p1", b"\2\0", session)
    says("A byte after 0: SIZE", b"\0\0", session)
    says("0, and 1 is recorded: VALUE/p1", b"\0", session)
    says("No fault is left", b"\1", session)
