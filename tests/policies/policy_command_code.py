"""Makes policy_command_code.tpm. TPM2_PolicyCommandCode: the policy authorizes only one command.
The parameter is the code of a command, which the device must implement.
"""

from tpmsim.standard import NUMBERED
from tests.common.policy_teller import PolicyTeller
from tests.common.vocabulary import CC, number, policy, SE_POLICY, SE_TRIAL, SHA1, SHA256, zeros

UNKNOWN = 0x194

tpm = PolicyTeller(__name__, __doc__)


def texts(words, *those):
    tpm.texts(words, CC.PolicyCommandCode, session, *those)


def says(words, *codes):
    tpm.says(words, *(tpm.command_code(session, it) for it in codes))


for session in tpm.each_session():
    case = "A code that is no command's: 0, 11E, 194, and all ones: POLICY_CC/p1"
    says(case, 0, 0x11E, UNKNOWN, 0xFFFF_FFFF)
    texts("No code, and cut: INSUFFICIENT/p1", b"", bytes(3))
    case = "A byte after it, even if it is no command's: SIZE"
    texts(case, number(CC.Unseal, 4) + b"\0", number(UNKNOWN, 4) + b"\0")
    tpm.digest_is("The digest is zeros", session, zeros(session))

    once = policy.after_command_code(session.algorithm, zeros(session), CC.Unseal)
    says("The code of Unseal: SUCCESS", CC.Unseal)
    tpm.digest_is("The digest of the session", session, once)
    case = "Another code, in a trial session too, NV_Read and ReadPublic: VALUE/p1"
    says(case, CC.NV_Read, CC.ReadPublic)
    says("Another code, which is not a command's: VALUE/p1", UNKNOWN, 0)
    texts("Cut, all the same: INSUFFICIENT/p1", number(CC.NV_Read, 4)[:3])
    tpm.digest_is("The digest is unchanged", session, once)
    says("The code of Unseal once more: SUCCESS", CC.Unseal)
    tpm.digest_is("The digest contains the assertion again", session)
    says("NV_Read: VALUE/p1", CC.NV_Read)

for kind, name, algorithm, hash_name in (
    (SE_POLICY, "policy", SHA256, "SHA-256"),
    (SE_TRIAL, "trial", SHA1, "SHA-1"),
):
    tpm.chapter(f"Each code that there is, in a {name} session of {hash_name}.")
    session = tpm.start("The session is started", kind=kind, algorithm=algorithm)
    for code in sorted(NUMBERED.values()):
        said = tpm(f"{code:X} in a new policy, and the digest of it: SUCCESS")
        said.says(tpm.restart(session), tpm.command_code(session, code))
        tpm.digest_is("", session)

    tpm.chapter("Each number between 11F and 190 that is no code.")
    tpm.restarts(session)
    says("All of them: POLICY_CC/p1", *sorted(set(range(0x11F, 0x191)) - set(NUMBERED)))
    case = "Unseal's code with a vendor's bit, with a reserved bit, and with its bytes turned round"
    says(f"{case}: POLICY_CC/p1", 0x2000_015E, 0x0001_015E, 0x5E01_0000)
