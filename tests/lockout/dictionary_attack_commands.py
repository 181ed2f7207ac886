"""Makes dictionary_attack_commands.tpm. TPM2_DictionaryAttackLockReset and
TPM2_DictionaryAttackParameters: their bytes, and their refusals. TPM_RH_LOCKOUT authorizes them,
with a password or an HMAC session.
"""

from tests.common.vocabulary import CC, command, DECRYPT, ENCRYPT, frames, number, on_handle
from tests.common.vocabulary import RH_LOCKOUT, RH_NULL, RH_OWNER, RH_PLATFORM, Teller, Use

LOCK_RESET, PARAMETERS = CC.DictionaryAttackLockReset, CC.DictionaryAttackParameters
THREE = frames.attack_parameters(3, 1000, 1000)
COMMANDS = (LOCK_RESET, b""), (PARAMETERS, THREE)

tpm = Teller(__name__, __doc__, starts=False)
says = tpm.raw

case = "Before TPM2_Startup: INITIALIZE"
says(case, *(on_handle(code, RH_LOCKOUT, parameters) for code, parameters in COMMANDS))
tpm.startup()
tpm.chapter("The empty password authorizes, since lockoutAuth is empty on a new device.")
says("Both commands: SUCCESS", on_handle(LOCK_RESET, RH_LOCKOUT))
says("SUCCESS", on_handle(PARAMETERS, RH_LOCKOUT, THREE))

tpm.chapter("The handle.")
says("No handle: INSUFFICIENT/h1", *(command(code, b"") for code, _ in COMMANDS))
case = "The handle of another hierarchy, of TPM_RH_NULL, and of PCR 0: VALUE/h1"
others = RH_OWNER, RH_PLATFORM, RH_NULL, 0
says(case, *(on_handle(code, it, parameters) for code, parameters in COMMANDS for it in others))
case = "Without sessions: AUTH_MISSING"
says(case, *(command(code, number(RH_LOCKOUT, 4) + parameters) for code, parameters in COMMANDS))

tpm.chapter("The parameters.")
for place in (1, 2, 3):
    case = f"Cut within parameter {place}: INSUFFICIENT/p{place}"
    says(case, *(on_handle(PARAMETERS, RH_LOCKOUT, THREE[: 4 * place - it]) for it in (4, 1)))
case = "A byte after them: SIZE"
says(case, *(on_handle(code, RH_LOCKOUT, parameters + b"\0") for code, parameters in COMMANDS))
most = 0xFFFF_FFFF
good = (0, 0, 0), (most, most, most), (0, most, 1), (3, 1000, 1)
tpm.says("All values are valid: SUCCESS", *(tpm.attack_parameters(*it) for it in good))

tpm.chapter("Sessions that authorize.")
tpm('lockoutAuth is "lockout"').change_auth(RH_LOCKOUT, b"lockout", b"")
unbound = tpm.start("An HMAC session that is bound to nothing, with AES", aes=True)
bound = tpm.start("A session that is bound to TPM_RH_LOCKOUT", RH_LOCKOUT)
for session, words in ((unbound, "The first session"), (bound, "The second session")):
    tpm(f"{words}: TPM2_DictionaryAttackLockReset").lock_reset(session)
    tpm(f"{words}: TPM2_DictionaryAttackParameters").attack_parameters(3, 1000, 1, session)
tpm("Both sessions in one command").lock_reset(bound, unbound)
for attribute, words in ((DECRYPT, "decrypted"), (ENCRYPT, "encrypted")):
    prepared = tpm.lock_reset(unbound), tpm.attack_parameters(3, 1000, 1, unbound)
    said = tpm(f"Nothing can be {words}: ATTRIBUTES/s1")
    said.refused(*(it.but_entry(1, attributes=attribute) for it in prepared))
policy = tpm.policy("A policy session")
said = tpm("No policy authorizes TPM_RH_LOCKOUT: AUTH_UNAVAILABLE")
said.refused(tpm.lock_reset(policy), tpm.attack_parameters(3, 1000, 1, policy))
tpm("The policy session may come after the password").lock_reset(b"lockout", policy)
tpm("A session that ends").lock_reset(Use(bound, attributes=0))
tpm("The session no longer exists: REFERENCE_S0").lock_reset(bound)
case = "Wrong parameters after a wrong password, which is compared first: AUTH_FAIL/s1"
says(case, on_handle(PARAMETERS, RH_LOCKOUT, b"", [frames.entry(hmac=b"x")]))
