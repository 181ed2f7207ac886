"""Finds why the digest of a policy session differs, and what else its conditions depend on."""

from typing import Sequence

from tpmsim.explain import ingredients, policy_slips
from tpmsim.explain.ingredients import Use
from tpmsim.explain.past import Banks, Made, Moved, Step
from tpmsim.explain.reason import Check, HAD, Look, Reason, WANTED
from tpmsim.explain.words import algorithm_words, handle_words, listed
from tpmsim.standard import CC, digest_bytes


def difference(use: Use, wanted: bytes, found: Reason) -> str:
    """Returns, as text, how the session's digest differs from the expected digest, as far as the
    log shows it, and adds facts to `found`.
    """
    if use.begun is None:
        return "Its session began before the log, which may lack some of its assertions."
    steps = use.begun.told
    if not steps:
        line, by = use.begun.restarted, use.begun.restarted_by
        since = f" since line {line} ({by}), with which its policy restarted" if line else ""
        return f"It has no assertions{since}."
    earlier = use.scene.past.made.get(wanted)
    if earlier is not None:
        return from_earlier(use, steps, earlier, found)
    return from_outside(use, steps, wanted, found)


# The explanation if the expected digest was already computed earlier in this log.


def from_earlier(use: Use, steps: Sequence[Step], earlier: Made, found: Reason) -> str:
    found.add("wanted digest", f"that of a session after line {earlier.line}")
    algorithm = use.session.algorithm
    if is_reordered(steps, earlier.steps, algorithm):
        those = listed(f"{it.code.name} (line {it.line})" for it in earlier.steps)
        found.slips.append("order of assertions")
        return f"The order is another one; the wanted one is {those}."
    for own, its in zip(steps, earlier.steps):
        if not is_like(own, its, algorithm):
            return step_words(use, own, its, earlier, found)
    if len(steps) < len(earlier.steps):
        missing = earlier.steps[len(steps)]
        found.add(f"asserted in line {missing.line}", missing.words, WANTED)
        found.add("asserted after that", "nothing", HAD)
        found.slips.append("assertion missing")
        return f"{missing.code.name} is missing."
    more = steps[len(earlier.steps) :]
    found.slips.append("assertion too many")
    those = listed(f"{it.code.name} in line {it.line}" for it in more)
    return f"It has additional assertions: {those}."


def alone(step: Step, algorithm: int) -> bytes:
    return step.after(algorithm, bytes(digest_bytes(algorithm)))


def is_like(own: Step, its: Step, algorithm: int) -> bool:
    return alone(own, algorithm) == alone(its, algorithm)


def is_reordered(steps: Sequence[Step], its: Sequence[Step], algorithm: int) -> bool:
    return sorted(alone(it, algorithm) for it in steps) == sorted(
        alone(it, algorithm) for it in its
    )


def step_words(use: Use, own: Step, its: Step, earlier: Made, found: Reason) -> str:
    if own.selected is not None and own.selected == its.selected:
        found.slips.append("PCRs moved")
        words = f"The PCRs differ: {moved(use, own, earlier.banks, found)}"
        return words + when_words(use, own, its)
    if own.selected is not None and its.selected is not None:
        if [set(it.pcrs) for it in own.selected] == [set(it.pcrs) for it in its.selected]:
            banks = listed(algorithm_words(it.algorithm) for it in its.selected)
            found.slips.append("other bank")
            return f"The bank is another one; the wanted one is {banks}."
    if own.handle is not None and is_like(own.but(its.given), its, use.session.algorithm):
        found.compare(its.given.hex(), own.given.hex(), "Name")
        found.slips.append("old Name in a policy")
        change = use.scene.past.last_change.get(own.handle, "")
        since = f" since {change}" if change else ""
        return f"The Name of {handle_words(own.handle)} is another one{since}."
    found.add(f"asserted in line {its.line}", its.words, WANTED)
    found.add(f"asserted in line {own.line}", own.words, HAD)
    return "The assertion that differs is shown below."


def when_words(use: Use, own: Step, its: Step) -> str:
    """Returns when the PCRs had the values that are in the expected digest."""
    between = sorted((own.line, its.line))
    lines = [it.line for it in use.scene.past.moves if between[0] < it.line < between[1]]
    if not lines:
        return ""
    when = f"before line {lines[0]}" if its.line < own.line else f"after line {lines[-1]}"
    return f" The wanted digest has them as they were {when}."


def moved(use: Use, step: Step, then: Banks, found: Reason) -> str:
    """Returns which of the selected PCRs had different values in the state `then`, and adds the
    commands that wrote these PCRs to `found`.
    """
    past, said = use.scene.past, []
    now = past.told_banks.get(step.line, use.scene.model.banks)
    for bank, pcr in [(bank, pcr) for bank, pcrs in step.selected or [] for pcr in pcrs]:
        if now[bank][pcr] == then[bank][pcr]:
            continue
        found.compare(then[bank][pcr].hex(), now[bank][pcr].hex(), f"PCR {pcr}")
        by = [it for it in past.moves if it.pcr == pcr and it.line < step.line]
        words = ", ".join(it.words for it in by[-3:]) or "nothing since the power cycle"
        found.add(f"PCR {pcr} was written by", words)
        said.append(f"PCR {pcr}")
    return listed(dict.fromkeys(said)) + "." if said else "in what PolicyPCR was given."


# The explanation if the expected digest was computed outside this log.


def from_outside(use: Use, steps: Sequence[Step], wanted: bytes, found: Reason) -> str:
    """Returns the mistake that explains the expected digest, as text, or how many digests were
    tried.
    """
    search = policy_slips.Search(use, steps, wanted)
    told = search.told()
    if not told:
        tried = (
            f"{search.tried:,} digests, of other assertions, orders, values and PCRs, were tried"
        )
        return f"No known slip makes it: {tried}."
    found.slips += [name for name, _ in told]
    words, turned = together([it for _, it in told]), search.turned
    if turned is None or turned.banks is None:
        return f"{words}."
    joined = ": " if words.endswith(MAKES_IT) else ". The PCRs differ: "
    return words + joined + moved(use, steps[turned.place], turned.banks, found)


MAKES_IT = " it would match"


def together(told: Sequence[str]) -> str:
    """Returns the sentence for one mistake, or for two that occur together, without its full stop."""
    if len(told) == 1:
        return told[0].removesuffix(".")
    slips, _, rests = zip(*(it.rpartition(MAKES_IT) for it in told))
    first, second = (it.removesuffix(",") for it in slips)
    rest = "".join(it.removesuffix(".") for it in rests)
    return f"{first}, and {second[0].lower()}{second[1:]},{MAKES_IT}{rest}"


# The largest number of commands that are named as writers of PCRs.
MOST_MOVED = 4


def moved_words(moved: list[Moved]) -> str:
    more = [f"{len(moved) - MOST_MOVED:,} more"] if len(moved) > MOST_MOVED else []
    return listed([*(it.words for it in moved[:MOST_MOVED]), *more])


# What the conditions add to their sentences.


def assertions(look: Look) -> None:
    for it in look.past.told_words(look.entry.handle):
        look.found.add("told by", it)


def pcrs(look: Look) -> None:
    line = (look.past.lines_told(look.entry.handle, CC.PolicyPCR) or [0])[0]
    moved = look.past.moved_since(line)
    by = moved_words(moved) if moved else "a power cycle" if line else "what came before the log"
    since = f"PolicyPCR in line {line}" if line else "its PolicyPCR, before the log,"
    look.found.words = f"After {since} PCRs have moved: by {by}."
    assertions(look)


def cp_hash(look: Look) -> None:
    command = look.scene.command
    for handle, name in zip(command.handles, look.model.names(command)):
        look.found.add(f"Name of {handle_words(handle)}", name.hex())
    look.found.add("parameters", command.parameters.hex() or "none")
    assertions(look)


def digests(look: Look) -> None:
    use = ingredients.use_of(look.scene, look.place)
    assert use is not None
    words = difference(use, look.operands["wanted"], look.found)
    look.found.words += f" {words}" if words else ""
    assertions(look)


CHECKS: dict[str, Check] = {
    "condition/3": pcrs,
    "condition/5.cpHash": cp_hash,
    "condition/8.digest": digests,
    **dict.fromkeys(("condition/4", "condition/5.code", "condition/6"), assertions),
    **dict.fromkeys(("condition/7", "condition/8.hash"), assertions),
}
