"""Why a check refuses a command: the sentence of sentences.json, and what the earlier events add to
it.
"""

from tpmsim.explain import entries, own_objects, policies, sentences
from tpmsim.explain.past import values_digest
from tpmsim.explain.reason import Check, Look, Reason, RULES, Scene
from tpmsim.explain.words import algorithm_words, OPERATIONS
from tpmsim.model.nv_commands import signed, unsigned
from tpmsim.standard import CC, first_byte

# If an entity is missing, at most this many existing entities of the same kind are listed.
MOST_OTHERS = 8


def reason(scene: Scene) -> Reason:
    found = Reason(rule_of(scene), "")
    look, case = Look(scene, found), scene.operands.get("case")
    key = f"{found.rule}.{case}" if case else found.rule
    sentences.say(look, key)
    if key in CHECKS:
        CHECKS[key](look)
    return found


def rule_of(scene: Scene) -> str:
    """Returns the key of the check that refused the command."""
    if scene.check in RULES:
        return scene.check
    if "condition" in scene.operands:
        return f"condition/{scene.operands['condition']}"
    if scene.check.startswith("G"):
        # The code REFERENCE_H0 contains the number of a handle.
        is_reference = scene.name.startswith("REFERENCE")
        return f"{scene.check}/{'REFERENCE' if is_reference else scene.name}"
    return f"{scene.code.name}/{scene.check}"


def others(look: Look) -> None:
    """Adds the existing entities that have the same kind as the missing entity."""
    model, kind = look.model, first_byte(look.operands["handle"])
    held = sorted({*model.sessions, *model.objects, *model.indices})
    for it in [it for it in held if first_byte(it) == kind][:MOST_OTHERS]:
        look.found.add(f"{it:08x}", look.since(it, "has existed since line") or "exists")


def cut_parameter(look: Look) -> None:
    look.found.at = look.scene.parameters_at


def no_session(look: Look) -> None:
    for it in sorted(look.model.sessions):
        begun = look.past.sessions.get(it)
        look.found.add(f"{it:08x}", f"since line {begun.line}" if begun else "from before the log")


def pcr_changed(look: Look) -> None:
    lines = look.past.lines_told(look.handles[0], CC.PolicyPCR)
    moved = look.past.moved_since(lines[-1] if lines else 0)
    by = policies.moved_words(moved) if moved else "no command of this log"
    where = f"the session's first PolicyPCR{look.recorded}"
    look.found.words = f"Since {where} PCRs have moved: by {by}."


def pcr_digest(look: Look) -> None:
    selected, banks = look["pcrs"], look.model.banks
    for bank, pcr in [(bank, pcr) for bank, pcrs in selected for pcr in pcrs]:
        moved = [it.words for it in look.past.moves if it.pcr == pcr]
        behind = f" (by {moved[-1]})" if moved else ""
        look.found.add(f"{algorithm_words(bank)} PCR {pcr}", banks[bank][pcr].hex() + behind)
    algorithm = look.session.algorithm
    for line, banks in reversed(look.past.pcr_states):
        if values_digest(algorithm, selected, banks) == look["pcrDigest"]:
            words = f"it is the digest of the PCRs as they were after line {line}"
            look.found.slip("PCRs moved", words)
            break


def branches(look: Look) -> None:
    for it in look.past.told_words(look.handles[0]):
        look.found.add("told by", it)


# The signs of the first ten operations.
SIGNS = ("=", "!=", ">", ">", "<", "<", ">=", ">=", "<=", "<=")
SIGNED = (2, 4, 6, 8)
BITSET, BITCLEAR = 10, 11


def comparison(look: Look) -> None:
    operation = look["operation"]
    compared = compared_words(operation, look.operands["held"], look["operandB"])
    look.found.words = f"{OPERATIONS[operation]} does not hold: {compared} is false."


def compared_words(operation: int, held: bytes, operand: bytes) -> str:
    """Returns the comparison of TPM2_PolicyNV, such as `2 <= 1`."""
    if operation in (0, 1):
        return f"{held.hex() or 'empty'} {SIGNS[operation]} {operand.hex() or 'empty'}"
    if operation == BITSET:
        missing = unsigned(operand) & ~unsigned(held)
        return f"{held.hex()} has all bits of {operand.hex()} set (missing: {missing:#x})"
    if operation == BITCLEAR:
        found = unsigned(operand) & unsigned(held)
        return f"{held.hex()} has all bits of {operand.hex()} clear (set: {found:#x})"
    number = signed if operation in SIGNED else unsigned
    return f"{number(held)} {SIGNS[operation]} {number(operand)}"


def old_nonce(look: Look) -> None:
    begun = look.past.sessions.get(look.handles[-1])
    for since in begun.nonces[:-1] if begun else []:
        if since.value == look["nonceTPM"]:
            words = f"it is that of line {since.line}, which is outdated"
            look.found.slip("old nonceTPM", words)


# What the checks add to their sentences, with the same keys as sentences.json.
CHECKS: dict[str, Check] = {
    **dict.fromkeys(("G6/REFERENCE", "G6/HANDLE", "G8/REFERENCE"), others),
    "G10/INSUFFICIENT": cut_parameter,
    "StartAuthSession/A4": no_session,
    "PolicyPCR/A1": pcr_changed,
    "PolicyPCR/A2": pcr_digest,
    "PolicyOR/A1": branches,
    "PolicySecret/A3": old_nonce,
    "PolicyNV/A5": comparison,
    **entries.CHECKS,
    **policies.CHECKS,
    **own_objects.CHECKS,
}
