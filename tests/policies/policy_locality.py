"""Makes policy_locality.tpm. TPM2_PolicyLocality: the policy can be used only at some
localities. Its parameter has a bit for each of the localities 0 to 4. After several such
commands, only the localities that are in all their parameters remain.
"""

from tests.common.policy_teller import PolicyTeller
from tests.common.vocabulary import CC, policy, zeros

tpm = PolicyTeller(__name__, __doc__)


def says(words, *masks):
    tpm.says(words, *(tpm.locality(session, it) for it in masks))


for session in tpm.each_session():
    says("No locality: RANGE/p1", 0)
    case = "Localities that do not exist: bit 5, 6 and 7, alone and with others: RANGE/p1"
    says(case, 0x20, 0x21, 0x3F, 0x40, 0x5F, 0x80, 0x81, 0xE0, 0xFF)
    tpm("No parameter: INSUFFICIENT/p1").told(CC.PolicyLocality, session, b"")
    case = "A byte after it, even if it is 0: SIZE"
    tpm.texts(case, CC.PolicyLocality, session, b"\1\0", b"\0\0")
    tpm.digest_is("The digest is zeros", session, zeros(session))

    tpm.chapter("Step by step to locality 2 alone. What is hashed is the byte as it is given.")
    for mask, *absent in (
        (0x1F,),
        (0x1E, 0x01),
        (0x0F, 0x11, 0x10, 0x01),
        (0x17, 0x08, 0x18, 0x09),
        (0x05, 0x02, 0x1A),
        (0x1F, 0x01, 0x1B),
        (0x04, 0x1B),
    ):
        wanted = policy.after_locality(session.algorithm, tpm.digest_of(session), mask)
        says(f"Localities {mask:02X}: SUCCESS", mask)
        tpm.digest_is("The digest of the session", session, wanted)
        if absent:
            says("None of the remaining localities: RANGE/p1", *absent)
            tpm.digest_is("The digest is unchanged", session, wanted)
    says("Nothing, as ever: RANGE/p1", 0)

    tpm.chapter("Each locality alone, from the start.")
    for locality in range(5):
        twice = 2 * [tpm.locality(session, 1 << locality)]
        tpm.says(f"Locality {locality}: SUCCESS", tpm.restart(session), *twice)
        says("The others: RANGE/p1", 0x1F & ~(1 << locality))
        tpm.digest_is("The digest of the session, of twice the same", session)

tpm.chapter("The locality of this command does not matter.")
session = tpm.policy("A policy session")
tpm.locality_is(3)
says("For locality 0, from locality 3: SUCCESS", 1)
tpm.digest_is("The digest of the session", session)
tpm.locality_is(0)
says("For locality 3, from locality 0: RANGE/p1", 8)
