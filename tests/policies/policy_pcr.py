"""Makes policy_pcr.tpm. TPM2_PolicyPCR: the policy requires PCRs to have their current values. Its
parameters are the digest that these values must have, if any, and the selection.
"""

from tests.common.policy_teller import PolicyTeller
from tests.common.vocabulary import CC, digest, flipped, frames, is_trial, number, policy, RH_NULL
from tests.common.vocabulary import selection, SHA1, SHA256, sized, zeros

ALL, ZERO, EMPTY = range(24), [(SHA256, [0])], sized(b"")

tpm = PolicyTeller(__name__, __doc__)


def changed(what, banks=ZERO):
    """Sends TPM2_PolicyPCR after a PCR has changed. A policy session must refuse it, and a trial
    session must accept it.
    """
    outcome = "SUCCESS" if is_trial(session) else "PCR_CHANGED"
    tpm(f"{what}: {outcome}").pcrs(session, banks)


def values_digest(banks):
    """Returns the hash of the values of the selected PCRs, in the order of banks and PCR numbers."""
    return tpm.history.pcrs.digest(session.algorithm, [(bank, sorted(it)) for bank, it in banks])


def texts(words, *those, front=EMPTY):
    """For each of these byte strings, sends a TPM2_PolicyPCR whose pcrDigest is `front` and whose
    remaining parameter bytes are that string.
    """
    tpm.texts(words, CC.PolicyPCR, session, *(front + it for it in those))


def from_the_start(words="From the start"):
    tpm.restarts(session)
    tpm(words).pcrs(session, ZERO)


def extended(what, pcr, *values):
    tpm.accepted(what, tpm.prepare(CC.PCR_Extend, [pcr], frames.digests(*values), b""))


def event(what="TPM2_PCR_Event into PCR 0", pcr=0, data=b"abc"):
    tpm.accepted(what, tpm.event(data, b"", pcr=pcr))


for pcr in (0, 1, 7, 8, 16, 23):
    event(f"TPM2_PCR_Event into PCR {pcr}", pcr, b"event %d" % pcr)

for session in tpm.each_session():
    # These parameters must be refused. Afterwards the digest must still consist of zeros.
    one, of_one = selection((SHA256, [0])), number(1, 4) + number(SHA256, 2)
    case = "pcrDigest that is cut: INSUFFICIENT/p1"
    texts(case, b"", b"\0", b"\0\x01", number(32, 2) + bytes(31), front=b"")
    case = "A buffer of 33 bytes, whole or truncated: SIZE/p1"
    texts(case, sized(bytes(33)) + one, number(33, 2), b"\xff\xff", front=b"")
    texts(
        "The selection that is cut: within its number, before its first bank, within the bank's "
        "hash, before its size, within its bits, and with a bank less than it says: "
        "INSUFFICIENT/p2",
        *(one[:it] for it in (0, 3, 4, 5, 6, 7, 9)),
        number(2, 4) + one[4:],
    )
    case = "Of seventeen banks, whole, and with nothing after that number: SIZE/p2"
    texts(case, selection(*17 * ZERO), number(17, 4), number(0xFFFF_FFFF, 4))
    case = "A hash that is neither SHA-1 nor SHA-256: TPM_ALG_NULL, and SHA-384 as the second"
    texts(f"{case}: HASH/p2", selection((0x0010, [0])), selection((SHA1, [0]), (0x000C, [0])))
    texts("A bank of two octets, and of four: VALUE/p2", of_one + b"\2\0\0", of_one + b"\4\0\0\0\0")
    case = "A byte after them, even if pcrDigest is another: SIZE"
    texts(case, EMPTY + one + b"\0", sized(bytes(32)) + one + b"\0", front=b"")
    tpm.digest_is("The digest is zeros", session, zeros(session))
    for what, banks in (
        ("No bank at all, and so no value", []),
        ("A bank of which no PCR is selected", [(SHA256, [])]),
        ("PCR 0", [(SHA256, [0])]),
        ("PCR 0 in the other bank", [(SHA1, [0])]),
        ("PCR 0 in both banks", [(SHA1, [0]), (SHA256, [0])]),
        ("The same banks in another order", [(SHA256, [0]), (SHA1, [0])]),
        ("A bank twice, with one PCR", [(SHA256, [7]), (SHA256, [7])]),
        ("And with two", [(SHA256, [8]), (SHA256, [7])]),
        ("PCR 17, all ones, and PCR 23", [(SHA1, [23, 17])]),
        ("Nine PCRs, of which TPM2_PCR_Read gives eight", [(SHA256, range(9))]),
        ("All PCRs of a bank", [(SHA1, ALL)]),
        ("All PCRs in both banks", [(SHA256, ALL), (SHA1, ALL)]),
        ("Sixteen banks", 8 * [(SHA1, [0, 16]), (SHA256, [1, 8])]),
        ("Sixteen banks with all PCRs", 16 * [(SHA256, ALL)]),
    ):
        tpm.says(f"{what}: SUCCESS", tpm.restart(session), tpm.pcrs(session, banks))
        told = zeros(session), selection(*banks), values_digest(banks)
        tpm.digest_is(
            "The digest of the session", session, policy.after_pcr(session.algorithm, *told)
        )

    tpm.chapter("A digest that is given.")
    both = [(SHA1, [1]), (SHA256, [0, 23])]
    right = values_digest(both)
    tpm.restarts(session)
    tpm("The right one").pcrs(session, both, right)
    once = policy.after_pcr(session.algorithm, zeros(session), selection(*both), right)
    tpm.digest_is("The digest is the same as without pcrDigest", session, once)
    tpm("The right one of no values").pcrs(session, [], digest(session.algorithm, b""))
    tpm.digest_is("The digest of the session, after the one before", session)
    for words, given in (
        ("Another, by one bit", flipped(right)),
        ("A pcrDigest that is a byte too short", right[:-1]),
        ("The first of its bytes alone", right[:1]),
        ("The pcrDigest of other values", values_digest([(SHA256, [0, 1])])),
        ("Zeros of its size", bytes(len(right))),
        ("Zeros of another size", bytes(52 - len(right))),
        ("The right one and a byte after it", (right + b"\0")[:32]),
    ):
        if given == right:
            continue
        tpm.restarts(session)
        if is_trial(session):
            tpm.makes(
                words,
                session,
                tpm.pcrs(session, both, given),
                "The digest is computed with this pcrDigest",
            )
        else:
            tpm(f"{words}: VALUE/p1").pcrs(session, both, given)
            tpm.digest_is("The digest is unchanged", session, zeros(session))

    tpm.chapter("PCRs that change after it.")
    from_the_start("PCR 0")
    tpm("Once more, and nothing has changed").pcrs(session, ZERO)
    extended("TPM2_PCR_Extend of PCR 0", 0, (SHA256, digest(SHA256, b"more")))
    changed("TPM2_PolicyPCR again")
    changed("And of PCRs that are as they were, or of none", [(SHA256, [1])])
    changed("", [])
    outcome = "SUCCESS" if is_trial(session) else "PCR_CHANGED"
    tpm(f"With a wrong digest it is no other refusal: {outcome}").pcrs(session, ZERO, b"wrong")
    from_the_start("A policy from the start has the new value")
    tpm.digest_is("The digest of the session", session)
    extended("PCR 16, which is not selected, is extended in one bank", 16, (SHA1, bytes(20)))
    changed("TPM2_PolicyPCR again")
    from_the_start()
    tpm.accepted("TPM2_PCR_Reset of PCR 23", tpm.reset(b"", pcr=23))
    changed("TPM2_PolicyPCR again")
    from_the_start()
    event("TPM2_PCR_Event into PCR 23", 23)
    changed("TPM2_PolicyPCR again")

    tpm.chapter("Commands that change no PCR.")
    from_the_start()
    event("TPM2_PCR_Event on TPM_RH_NULL", RH_NULL)
    extended("TPM2_PCR_Extend of PCR 0 by no digest", 0)
    tpm.refused("TPM2_PCR_Reset of PCR 0: LOCALITY", tpm.reset(b"", pcr=0))
    tpm.refused("TPM2_PCR_Event by a wrong password: BAD_AUTH/s1", tpm.event(b"a", b"x"))
    tpm.accepted("TPM2_PCR_Read", tpm.read_pcr(0))
    tpm("TPM2_PolicyPCR again").pcrs(session, ZERO)
    tpm.digest_is("The digest of the session, of twice the same", session)

tpm.chapter("Other assertions are not refused when a PCR has changed.")
session = tpm.policy("A policy session")
tpm("TPM2_PolicyPCR").pcrs(session, ZERO)
event()
tpm.makes("TPM2_PolicyAuthValue", session, tpm.auth_value_told(session))

tpm.chapter("No change is allowed from the first one on, even if it selects none.")
tpm.restarts(session)
tpm("No PCR").pcrs(session, [])
event()
tpm("PCR 0: PCR_CHANGED").pcrs(session, ZERO)

tpm.chapter("But not from one that was refused.")
tpm.restarts(session)
tpm("A wrong digest: VALUE/p1").pcrs(session, ZERO, bytes(32))
tpm.digest_is("The digest is zeros", session, zeros(session))
event()
tpm.makes("PCR 0", session, tpm.pcrs(session, ZERO))

tpm.chapter("Each session by itself.")
other = tpm.policy("Another policy session")
tpm.accepted("TPM2_PCR_Reset of PCR 16", tpm.reset(b""))
tpm("The session has no assertion about PCRs").pcrs(other, ZERO)
tpm("But the one before has: PCR_CHANGED").pcrs(session, ZERO)
