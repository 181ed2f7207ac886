"""Why an entry is refused because of a lockout, or because it is wrong (G9, G10)."""

from typing import Iterator

from tpmsim.explain import ingredients, slips
from tpmsim.explain.forms import forms_of, mistypings
from tpmsim.explain.ingredients import Use
from tpmsim.explain.reason import Check, HAD, Look, Reason, Scene, SLIP, WANTED
from tpmsim.explain.slip import Told
from tpmsim.explain.words import bytes_words, handle_words, seconds_words
from tpmsim.model.protection import Lockout, LOCKOUT_AUTH, MILLISECONDS, TRIES
from tpmsim.standard import Entry, policy, RS_PW, trimmed


def locked(look: Look) -> None:
    found, lockout = look.found, look.model.lockout
    if look.operands["protection"] == LOCKOUT_AUTH:
        left = MILLISECONDS * lockout.lockout_recovery - lockout.closed_time
        opens = f"it is enabled again in {seconds_words(left)}"
        until = opens if lockout.lockout_recovery else "a TPM Reset enables it again"
        found.rule = "lockoutAuth"
        found.words = f"A failed try has disabled lockoutAuth; {until}."
    else:
        left = MILLISECONDS * lockout.recovery_time - lockout.forgiving_time
        reset = "DictionaryAttackLockReset resets them at once"
        opens = f"One is forgiven in {seconds_words(left)}; {reset}."
        if not lockout.max_tries:
            opens = "With a maxTries of 0 that is always so."
        tries = f"{lockout.failed_tries} failed tries >= maxTries {lockout.max_tries}"
        found.rule = "tries"
        found.words = f"Protected entities are locked out: {tries}. {opens}"
        recent = look.past.tries[-lockout.failed_tries :] if lockout.failed_tries else []
        found.add("failed tries", ", ".join(f"line {it}" for it in recent) or "before the log")
    is_right = look.model.accepts(look.scene.command, look.place, look.entry, look.handle)
    found.add("the entry itself", f"{'right' if is_right else 'wrong'}, and not looked at")


def wrong(look: Look) -> None:
    scene, found, entry = look.scene, look.found, look.entry
    field = look.field(f"entry {look.place}/{'password' if entry.handle == RS_PW else 'hmac'}")
    assert field is not None
    found.at = field.at + field.front
    use = ingredients.use_of(scene, look.place)
    if use is None or entry.demand == policy.PASSWORD:
        wrong_password(scene, found, entry, look.authorized)
        if use is not None:
            as_hmac(use, found)
        name_password(scene, found, entry, look.authorized)
    else:
        wrong_hmac(use, found)
    found.words += " " + counted_words(look.operands["protection"], look.model.lockout)


def wrong_hmac(use: Use, found: Reason) -> None:
    session = f"{use.entry.handle:08x}"
    found.words = f"The HMAC of entry {use.place} is not the one that session {session} wants."
    found.facts += ingredients.facts(use)
    found.add("HMAC wanted", use.right().hmac.hex(), WANTED)
    found.add("HMAC given", use.entry.hmac.hex() or "empty", HAD)
    explained = slips.found(use)
    for name, words in explained.told:
        found.slip(name, words)
    if not explained.told:
        found.add(SLIP, explained.none_words())


def wrong_password(scene: Scene, found: Reason, entry: Entry, handle: int) -> None:
    said, value = handle_words(handle), scene.model.auth_value(handle)
    found.words = f"The password of the entry is not the authValue of {said}."
    since = scene.past.values.get(handle, [])
    line = f" (since line {since[-1].line})" if since and since[-1].line else ""
    found.add("authValue wanted", bytes_words(value) + line, WANTED)
    found.add("password given", bytes_words(entry.hmac), HAD)


def name_password(scene: Scene, found: Reason, entry: Entry, handle: int) -> None:
    """Names the mistake that explains a wrong password, or says how many mistakes were tried. Does
    nothing if a mistake is already named.
    """
    tried = 0
    for told, password in passwords(scene, handle) if not found.slips else ():
        tried += 1
        if trimmed(password) == trimmed(entry.hmac):
            for name, words in told:
                found.slip(name, words)
            return
    if tried:
        words = "other forms of the value, past values and those of others"
        found.add(SLIP, f"none of {tried:,} that were tried: {words}; {slips.TRY}")


def passwords(scene: Scene, handle: int) -> Iterator[tuple[tuple[Told, ...], bytes]]:
    """Yields the passwords that a mistaken caller may have sent, with the mistakes that explain
    each.
    """
    value, said = scene.model.auth_value(handle), handle_words(handle)
    if value:
        left_out = "password left out", f"the password is empty, and {said} has a value"
        yield (left_out,), b""
        yield from formed(value, "the password is the value")
        for size in range(len(value) + 1, 33):
            front = f"the password has zeros in front, to {size} bytes"
            zeros = "zeros", f"{front}; those at its end alone do not count"
            yield (zeros,), value.rjust(size, b"\0")
    for typed in mistypings(value):
        words = f'{said} has {bytes_words(value)}, which was mistyped as "{typed.decode("ascii")}"'
        yield (("password mistyped", words),), typed
    for past in scene.past.values.get(handle, [])[:-1]:
        words = f"that is the value that {said} had since line {past.line}, which is outdated"
        yield (("old password", words),), past.value
    for other in scene.past.values:
        its = scene.model.auth_value(other)
        if other != handle and its:
            words = f"that is the authValue of {handle_words(other)}"
            yield (("another's password", words),), its
    for its in scene.tried:
        tried = "tried value", f"that is the tried value, {bytes_words(its)}"
        yield (tried,), its
        for told, formed_value in formed(its, "it is there"):
            yield (tried, *told), formed_value


def formed(value: bytes, begin: str) -> Iterator[tuple[tuple[Told, ...], bytes]]:
    for it in forms_of(value):
        told = tuple((f"password {form.name}", f"{begin} {form.words}") for form in it.forms)
        yield told, it.value


def as_hmac(use: Use, found: Reason) -> None:
    found.words += " The policy asserts PolicyPassword, so the value must be sent as a password."
    use.entry.demand = policy.AUTH_VALUE
    is_hmac = use.entry.hmac == use.right().hmac
    use.entry.demand = policy.PASSWORD
    if is_hmac:
        words = "it is the HMAC that PolicyAuthValue would ask for"
        found.slip("HMAC in place of a password", words)


def counted_words(protection: str | None, lockout: Lockout) -> str:
    if protection == LOCKOUT_AUTH:
        return "It disabled lockoutAuth."
    if protection != TRIES:
        return "It was no attempt on a protected value, and counts as no failed try."
    if not lockout.recovery_time:
        return "It counts as no failed try, because recoveryTime is 0."
    left = max(0, lockout.max_tries - lockout.failed_tries)
    closes = f"{left} more {'locks' if left == 1 else 'lock'} it out"
    if not left:
        closes = "which locks out all protected entities"
    return f"It counted as failed try {lockout.failed_tries} of {lockout.max_tries}; {closes}."


def is_try(scene: Scene) -> bool:
    is_failed = scene.refused.startswith("AUTH_FAIL/s") and scene.model.lockout.recovery_time != 0
    return is_failed and scene.operands["protection"] == TRIES


CHECKS: dict[str, Check] = {
    **dict.fromkeys(("G9/LOCKOUT", "G10/LOCKOUT"), locked),
    **dict.fromkeys(("G9/AUTH_FAIL", "G9/BAD_AUTH", "G10/AUTH_FAIL", "G10/BAD_AUTH"), wrong),
}
