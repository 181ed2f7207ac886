"""The short names of commands: `tpm.reading(index, 8)` prepares TPM2_NV_Read of eight bytes. The
arguments are the command's handles and parameters, in the order of Part 3, and then the uses.
"""

from typing import Any, Sequence

from tpmsim.standard import CC, RH_LOCKOUT, RH_OWNER

# The commands, by their short names.
COMMANDS = {
    "starting": CC.Startup,
    "shutting_down": CC.Shutdown,
    "self_test": CC.SelfTest,
    "capability": CC.GetCapability,
    "random": CC.GetRandom,
    "clock": CC.ReadClock,
    "flush": CC.FlushContext,
    "restart": CC.PolicyRestart,
    "auth_value_told": CC.PolicyAuthValue,
    "password_told": CC.PolicyPassword,
    "command_code": CC.PolicyCommandCode,
    "cp_hash_told": CC.PolicyCpHash,
    "written_told": CC.PolicyNvWritten,
    "locality": CC.PolicyLocality,
    "get_digest": CC.PolicyGetDigest,
    "public": CC.ReadPublic,
    "unsealing": CC.Unseal,
    "hmac": CC.HMAC,
    "evicting": CC.EvictControl,
    "clearing": CC.Clear,
    "clear_control": CC.ClearControl,
    "defining": CC.NV_DefineSpace,
    "undefining": CC.NV_UndefineSpace,
    "index_public": CC.NV_ReadPublic,
    "writing": CC.NV_Write,
    "incrementing": CC.NV_Increment,
    "setting": CC.NV_SetBits,
    "extending": CC.NV_Extend,
    "reading": CC.NV_Read,
    "write_locking": CC.NV_WriteLock,
    "read_locking": CC.NV_ReadLock,
    "changing_auth": CC.NV_ChangeAuth,
    "lock_reset": CC.DictionaryAttackLockReset,
    "attack_parameters": CC.DictionaryAttackParameters,
}

# The arguments that are passed by name, with their default values. BY is the first handle, which
# authorizes the command. ITSELF stands for the second handle: an index authorizes its own use.
BY, ITSELF = "by", None
DEFAULTS: dict[CC, dict[str, Any]] = {
    CC.NV_DefineSpace: {BY: RH_OWNER, "auth": b""},
    CC.NV_UndefineSpace: {BY: RH_OWNER},
    CC.NV_Write: {BY: ITSELF, "offset": 0},
    CC.NV_Increment: {BY: ITSELF},
    CC.NV_SetBits: {BY: ITSELF},
    CC.NV_Extend: {BY: ITSELF},
    CC.NV_Read: {BY: ITSELF, "offset": 0},
    CC.NV_WriteLock: {BY: ITSELF},
    CC.NV_ReadLock: {BY: ITSELF},
    CC.DictionaryAttackLockReset: {BY: RH_LOCKOUT},
    CC.DictionaryAttackParameters: {BY: RH_LOCKOUT},
}


def names_of(code: CC) -> list[str]:
    """Returns the names of a command's arguments, in the order of Part 3."""
    names = [it.name for it in code.handles] + [it.name for it in code.parameters]
    return [BY, *names[1:]] if BY in DEFAULTS.get(code, {}) else names


def bound(
    code: CC, those: Sequence[Any], named: dict[str, Any]
) -> tuple[list[Any], list[Any], Sequence[Any]]:
    """Returns the handles, the values of the parameters and the uses that the arguments contain.
    Raises TypeError if an argument is missing or has a wrong name.
    """
    names, defaults = names_of(code), DEFAULTS.get(code, {})
    in_order = [it for it in names if it not in defaults]
    found = {**defaults, **named, **dict(zip(in_order, those))}
    if set(found) != set(names):
        raise TypeError(f"{code.name} takes {', '.join(names) or 'no arguments'}")
    values = [found[it] for it in names]
    if BY in defaults and found[BY] is ITSELF:
        values[0] = values[1]
    count = len(code.handles)
    return values[:count], values[count:], those[len(in_order) :]
