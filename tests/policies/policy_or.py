"""Makes policy_or.tpm. TPM2_PolicyOR: the policyDigest must be one of two to eight digests in a
list. It then becomes the digest of the list.
"""

from tests.common.policy_teller import PolicyTeller
from tests.common.vocabulary import CC, digest, frames, is_trial, number, policy, SHA256, sized
from tests.common.vocabulary import zeros

tpm = PolicyTeller(__name__, __doc__)


def other(count):
    """Returns digests with the size of the session's policyDigest. None of them is ever equal to
    the policyDigest.
    """
    return [digest(session.algorithm, b"branch %d" % it) for it in range(count)]


def joins(what, *branches):
    tpm(what).branches(session, *branches)
    tpm.digest_is(
        "The digest of the session", session, policy.after_or(session.algorithm, branches)
    )


def again():
    """Restarts the session. Returns its digest, which then consists of zeros."""
    tpm.restarts(session)
    return zeros(session)


def texts(words, *those):
    tpm.texts(words, CC.PolicyOR, session, *those)


for session in tpm.each_session():
    joins("The digest is the first of two", zeros(session), *other(1))
    joins("The second of two", *other(1), again())
    joins("The last of eight", *other(7), again())
    joins("The fourth of seven", *other(3), again(), *other(3))
    joins("Two that are the same", *2 * [again()])
    tpm("TPM2_PolicyAuthValue").auth_value_told(session)
    joins(
        "Another digest than zeros, the third of three|and the zeros that it is hashed after are "
        "not the digest before",
        *other(2),
        tpm.digest_of(session),
    )
    joins("The digest of that, the first of two", tpm.digest_of(session), *other(1))
    joins("The digest of that, the second of them", *other(1), tpm.digest_of(session))
    current = again()
    case = "Elements of other lengths next to it, of 0, 1, 19, 20, 21, 31 and 32 bytes"
    joins(case, *(bytes([it]) * it for it in (0, 1, 19, 20, 21, 31, 32)), current)

    current = again()
    parts = "one too many", current[:-1], (current + b"\0")[:32]
    if len(current) == 32:
        parts = "is not zero", current[1:], b"\1" + current[1:]
    for what, *branches in (
        ("The digest is not among two", *other(2)),
        ("Not among eight", *other(8)),
        (f"A byte of it is missing, or {parts[0]}", *parts[1:]),
        ("A digest whose last bit differs", current[:-1] + b"\1", current[:-1]),
        ("No element has a byte", b"", b""),
    ):
        if is_trial(session):
            again()
            joins(f"{what}, which a trial session does not look at", *branches)
        else:
            tpm(f"{what}: VALUE/p1").branches(session, *branches)
            tpm.digest_is("The digest of the session is unchanged", session, zeros(session))

    current = again()
    case = "A list of no digests, of one, of nine, and of 2^32 - 1: SIZE/p1"
    most = tpm.branches(session, current, current, count=0xFFFF_FFFF)
    tpm.says(case, *(tpm.branches(session, *it * [current]) for it in (0, 1, 9)), most)
    case = "The number of one and of nine, and nothing after it: SIZE/p1"
    texts(case, number(1, 4), number(9, 4))
    two, whole = number(2, 4), frames.sized_list(current, current)
    case = "An element of 33 bytes, the first or the second, whole or cut: SIZE/p1"
    long = frames.sized_list(bytes(33), current), frames.sized_list(current, bytes(33))
    texts(case, *long, two + number(33, 2), two + b"\xff\xff")
    size = len(sized(current))
    texts(
        "Cut: within the number, before the first element, within its size and its bytes, before "
        "the second, and within that: INSUFFICIENT/p1",
        *(whole[:it] for it in (0, 3, 4, 5, 6, 3 + size, 4 + size, 5 + size, -1)),
    )
    said = tpm("A list that says three and has two: INSUFFICIENT/p1")
    said.branches(session, current, current, count=3)
    texts(
        "A byte after the list, also where the digest is not among it, and a list that says two "
        "and has three: SIZE",
        *(whole + b"\0", frames.sized_list(*other(2)) + b"\0"),
        frames.sized_list(current, current, current, count=2),
    )
    tpm.digest_is("No refusal changed the digest", session, current)

tpm.chapter("Values that were recorded before TPM2_PolicyOR still count after it.")
session = tpm.policy("A policy session is started")
cp_hash = digest(session.algorithm, b"a command")
tpm.says(
    "A command, localities, PCRs and a cpHash are recorded: SUCCESS",
    tpm.command_code(session, CC.GetRandom),
    tpm.locality(session, 0b01100),
    tpm.pcrs(session, [(SHA256, [0])]),
    tpm.secret(session, cp_hash=cp_hash),
)
tpm("The digest of the session").get_digest(session)
joins("The digest is the first of two", tpm.digest_of(session), *other(1))
tpm("Another command: VALUE/p1").command_code(session, CC.PCR_Read)
tpm("Localities of which none is left: RANGE/p1").locality(session, 0b10011)
tpm("Another cpHash: CPHASH").secret(session, cp_hash=digest(session.algorithm, b"another command"))
tpm.accepted("TPM2_PCR_Reset of PCR 16", tpm.reset(b""))
tpm("PCRs, of which one changed: PCR_CHANGED").pcrs(session, [(SHA256, [0])])
