"""Makes sealing_policy.tpm. The key of an encrypted disk is to be sealed: the device returns it
only if the computer was started by the same software, only to the operating system, and only to
someone who knows a PIN. This script shows what an unlocker does beforehand: it makes the policy, a
digest of 32 bytes, with which the key is then sealed. The policy authorizes nothing yet, so a trial
session makes it.
"""

from tpmsim.standard import CC, digest, policy, selection, SHA256
from tests.common.script_caller import zeros
from tests.common.teller import Example

# Each piece of software is measured into its PCR before it runs. The policy uses these PCRs.
MEASURED = (
    (0, "The firmware", b"firmware 1.0"),
    (7, "The state of secure boot, on,", b"secure boot on"),
    (4, "The boot loader", b"boot loader"),
    (8, "The kernel's command line", b"root=/dev/sda2 ro"),
)
CHOSEN = [(SHA256, [0, 4, 7, 8])]
NEXT_LOADER = (4, "The next boot loader", b"boot loader 2")

tpm = Example(__name__, __doc__)


def measured_by(measurements):
    """Returns the digest of the values that the chosen PCRs have after these measurements."""
    values = {
        pcr: digest(SHA256, bytes(32) + digest(SHA256, data)) for pcr, _, data in measurements
    }
    return digest(SHA256, b"".join(values[pcr] for _, pcrs in CHOSEN for pcr in pcrs))


def start_of(measurements):
    for pcr, what, data in measurements:
        tpm.accepted(f"{what} is measured into PCR {pcr}", tpm.event(data, b"", pcr=pcr))


def for_every_branch(session, words):
    """Makes the assertions that do not depend on the software: the locality, the command and the PIN."""
    locality, code, value = words
    tpm(f"TPM2_PolicyLocality{locality}").locality(session, 1)
    tpm(f"TPM2_PolicyCommandCode{code}").command_code(session, CC.Unseal)
    tpm(f"TPM2_PolicyAuthValue{value}").auth_value_told(session)


def after_all_of_it(digest_before):
    after = policy.after_locality(SHA256, digest_before, 1)
    return policy.after_auth_value(SHA256, policy.after_command_code(SHA256, after, CC.Unseal))


def after_pcrs(values_digest):
    return policy.after_pcr(SHA256, bytes(32), selection(*CHOSEN), values_digest)


tpm.startup()
tpm.chapter("The start of the computer is measured, here by TPM2_PCR_Event.")
start_of(MEASURED)

tpm.chapter("TPM2_StartAuthSession of type 03, TPM_SE_TRIAL, with SHA-256.")
trial = tpm.trial("The session is 03000000")
tpm.digest_is("The digest of the session is zeros", trial, zeros(trial))

tpm.chapter("The policy, assertion by assertion. Each assertion changes the session's digest.")
tpm(
    "TPM2_PolicyPCR requires the present values of PCR 0, 4, 7 and 8 in the SHA-256 bank. "
    "pcrDigest is empty, so the device uses the digest of its PCRs"
).pcrs(trial, CHOSEN)
for_every_branch(
    trial,
    (
        " requires that the command comes from locality 0, like those of the operating system",
        " requires that the command is TPM2_Unseal (15E)",
        " requires that the key of the command's hmac contains the PIN, the sealed key's "
        "authorization value",
    ),
)
said = tpm("TPM2_PolicyGetDigest returns the policy (authPolicy) with which the key is sealed")
said.digest_is(trial, after_all_of_it(after_pcrs(measured_by(MEASURED))))

tpm.chapter(
    "The boot loader will be updated. With the policy above, nobody could unseal the key after the "
    "update. So the key is sealed with another policy, which allows the present PCR values or "
    "those after the update. The unlocker computes the values after the update, and passes their "
    "digest as pcrDigest: a trial session accepts any pcrDigest."
)
UPDATED = tuple(NEXT_LOADER if it[0] == NEXT_LOADER[0] else it for it in MEASURED)
branches = []
for what, measurements, given in (
    ("TPM2_PolicyPCR with the present values", MEASURED, b""),
    ("TPM2_PolicyPCR with the values after the update", UPDATED, measured_by(UPDATED)),
):
    tpm("TPM2_PolicyRestart, which resets the digest to zeros").restart(trial)
    tpm(what).pcrs(trial, CHOSEN, given)
    branches.append(after_pcrs(measured_by(measurements)))
    tpm.digest_is("TPM2_PolicyGetDigest returns the digest of a branch", trial, branches[-1])
tpm(
    "TPM2_PolicyOR of the two branches. The new digest depends only on them, not on earlier "
    "assertions. So the assertions that both branches need come after TPM2_PolicyOR"
).branches(trial, *branches)
for_every_branch(trial, ("", "", ""))
wanted = after_all_of_it(policy.after_or(SHA256, branches))
tpm.digest_is("TPM2_PolicyGetDigest returns the policy with which the key is sealed", trial, wanted)
tpm.refused("A trial session authorizes nothing: ATTRIBUTES/s1", tpm.reset(trial))
tpm("TPM2_FlushContext of the trial session, which is no longer needed").flush(trial)

tpm.chapter("The computer is started with the next boot loader.")
tpm.power_cycle()
start_of(UPDATED)
tpm.chapter("TPM2_StartAuthSession of type 01, TPM_SE_POLICY. Its assertions must be true.")
session = tpm.policy("The session is 03000000")
tpm("TPM2_PolicyPCR").pcrs(session, CHOSEN)
tpm("TPM2_PolicyOR, in which the session's digest is the second branch").branches(
    session, *branches
)
for_every_branch(session, ("", "", ""))
said = tpm(
    "TPM2_PolicyGetDigest returns the key's policy, so this session could authorize TPM2_Unseal"
)
said.digest_is(session, wanted)

tpm.chapter("At another start secure boot is off.")
tpm.power_cycle()
start_of(
    (7, "The state of secure boot, off,", b"secure boot off") if it[0] == 7 else it
    for it in UPDATED
)
session = tpm.policy("TPM2_StartAuthSession")
tpm("TPM2_PolicyPCR, which gives another digest").pcrs(session, CHOSEN)
tpm("TPM2_PolicyOR, although the digest is not that of a branch: VALUE/p1").branches(
    session, *branches
)
said = tpm("TPM2_PolicyPCR with the digest of the values after the update: VALUE/p1")
said.says(tpm.pcrs(session, CHOSEN, measured_by(UPDATED)))
