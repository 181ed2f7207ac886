"""Simulates a weak hash function in policies. Each case replaces the hash of certain texts. A
session then gets the digest of a policy that it does not satisfy, and the device and its history
accept the session. The audit must report that the policy is not satisfied. In the last case the
session satisfies the policy anyway.

    weak_hashes.py FOLDER

For each case the program writes files to FOLDER, and prints the result for the policy and the end
of what tools/audit.py reports about these files. The status is 1 if the audit is wrong about
whether a use satisfies its policy.
"""

import pathlib
import sys
from contextlib import ExitStack
from unittest import mock

from tpmsim.audit import broken
from tpmsim.policies import pcr_values, policy_texts, written
from tpmsim.policies.policy_file import PolicyFile
from tpmsim.standard import CC, SHA1, SHA256, digest, nv, policy, selection
from tests.python import cases

# The bytes that TPM2_PolicyLocality of locality 0 hashes after the initial digest.
LOCALITY_0 = bytes.fromhex("0000016f01")
ATTRIBUTES = nv.Attribute.POLICYREAD | nv.Attribute.POLICYWRITE

# SHA-1 digests of two branches of a policy. MIDDLE is the end of the first digest and the beginning
# of the second one.
UNSEAL = policy.after_command_code(SHA1, bytes(20), CC.Unseal)
VALUE = policy.after_auth_value(SHA1, bytes(20))
MIDDLE = UNSEAL[10:] + VALUE[:10]

# With SHA-256: the bytes that TPM2_PolicySecret hashes before policyRef, for the owner and for the
# platform; and the digests of two policies.
OWNER = bytes(32) + bytes.fromhex("0000015140000001")
PLATFORM = bytes(32) + bytes.fromhex("000001514000000c")
BY_OWNER = digest(SHA256, digest(SHA256, OWNER))
WRITE = policy.after_command_code(SHA256, bytes(32), CC.NV_Write)

# A nonzero value of PCR 16, and the digest of a policy that requires zeros.
OTHER_VALUE = b"\x11" * 32
BY_PCR = policy.after_pcr(SHA256, bytes(32), selection((SHA256, [16])), digest(SHA256, bytes(32)))


def script(algorithm, auth_policy, *assertions):
    """Returns a script that defines an index, satisfies assertions in a policy session, and writes
    the index. Only the policy of the index authorizes the write.
    """
    area = nv.Public(0x0100_0001, algorithm, ATTRIBUTES, auth_policy, 8).text.hex()
    name = "sha1" if algorithm == SHA1 else "sha256"
    return [
        "do Startup 0",
        f"do NV_DefineSpace OWNER pw:- - {area}",
        f"do StartAuthSession NULL NULL {bytes(16).hex()} - 1 null {name}",
        *(f"do {it}" for it in assertions),
        f"do NV_Write 01000001 01000001 s:03000000:{bytes(16).hex()}:01:- 0000000000000001 0",
    ]


def by_either(first, second, *branches):
    """Returns a script for a policy with two branches. The session's TPM2_PolicyOR lists the
    digests `branches` instead of those of the policy.
    """
    told = f"PolicyOR 03000000 {'+'.join(it.hex() for it in branches)}"
    return script(SHA1, policy.after_or(SHA1, [first, second]), "PolicyLocality 03000000 0x1", told)


# The cases: a description, texts with their replaced hashes, the policy, a script, and whether its
# session satisfies the policy.
WEAK = (
    (
        "two texts have the same hash",
        {PLATFORM: digest(SHA256, OWNER)},
        "PolicySecret OWNER -",
        script(SHA256, BY_OWNER, "PolicySecret PLATFORM 03000000 pw:- - - - 0"),
        False,
    ),
    (
        "a text has a hash of zeros",
        {bytes(32) + LOCALITY_0: bytes(32)},
        "PolicyLocality 0\nPolicyCommandCode NV_Write",
        script(SHA256, WRITE, "PolicyCommandCode 03000000 0x137"),
        False,
    ),
    (
        "a text has a hash that is astride two branches",
        {bytes(20) + LOCALITY_0: MIDDLE},
        "either\n    PolicyCommandCode Unseal\nor\n    PolicyAuthValue",
        by_either(UNSEAL, VALUE, UNSEAL[:10], MIDDLE, VALUE[10:]),
        False,
    ),
    (
        "the values of two PCRs have one hash",
        {OTHER_VALUE: digest(SHA256, bytes(32))},
        f"PolicyPCR sha256:16={OTHER_VALUE.hex()}",
        script(SHA256, BY_PCR, "PolicyPCR 03000000 - sha256:16"),
        False,
    ),
    (
        "two branches have one hash, and the second one is met",
        {bytes(20) + LOCALITY_0: UNSEAL},
        "either\n    PolicyCommandCode Unseal\nor\n    PolicyLocality 0",
        by_either(UNSEAL, UNSEAL, UNSEAL, UNSEAL),
        True,
    ),
)


def weakly(other):
    """In all code that computes policies, replaces the hash of each text in `other` with the hash
    that `other` gives for it.
    """
    stack = ExitStack()
    weak = lambda algorithm, text: other.get(text) or digest(algorithm, text)
    for module in (policy, pcr_values, policy_texts, broken, written):
        stack.enter_context(mock.patch.object(module, "digest", weak))
    return stack


def judged(lines, text):
    """Audits the device's output for a script, together with a policy. Returns the auditor and the
    output.
    """
    played = "\n".join(lines).encode()
    output = cases.printed(played)
    auditor, fault = cases.audited(played, output, [PolicyFile("policy", text.encode())])
    assert fault is None, fault
    return auditor, output


def ended(folder, lines, output, text):
    """Writes the script, its output and the policy to files. Returns the results of their audit."""
    files = [folder / it for it in ("script", "output", "policy")]
    for file, data in zip(files, ("\n".join(lines).encode(), output, text.encode())):
        file.write_bytes(data)
    script_name, output_name, policy_name = map(str, files)
    return cases.run("the audit", script_name, output_name, "--policy", policy_name)


def main(folder):
    missed = 0
    for words, other, text, lines, is_met in WEAK:
        honest, _ = judged(lines, text)
        assert honest.counts.refused or honest.policies.faults(), words
        with weakly(other):
            auditor, output = judged(lines, text)
            told = list(ended(pathlib.Path(folder), lines, output, text))
        missed += auditor.counts.refused + (is_met == bool(auditor.policies.unmet()))
        print(f"{words}:", *auditor.policies.report(), *told, sep="\n")
    return 1 if missed else 0


if __name__ == "__main__":
    sys.exit(main(*sys.argv[1:]))
