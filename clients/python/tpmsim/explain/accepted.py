"""Mistakes ("slips") in commands that a device accepts nevertheless, and their consequences."""

from typing import Iterator

from tpmsim.explain import ingredients, unshown
from tpmsim.explain.reason import Reason, Scene
from tpmsim.explain.words import bytes_words, handle_words, plural, printable
from tpmsim.standard import CC, Fields, nv, RS_PW, trimmed

# A text of at least this many characters is assumed to be intended.
LEAST_TEXT = 8

DRAWS = CC.StartAuthSession, CC.GetRandom, CC.Create


def note(rule: str, slip: str, words: str) -> Reason:
    return Reason(rule, words, slips=[slip])


def before(scene: Scene) -> list[Reason]:
    """Returns notes on a command whose authorization was accepted. The scene is the state before
    the command takes effect.
    """
    return [
        *(*garbage(scene), *zeros(scene), *nonces(scene), *unwritten(scene)),
        *offline_guesses(scene),
    ]


def garbage(scene: Scene) -> Iterator[Reason]:
    """Reports a first parameter that decrypts to garbage, but would have decrypted to readable
    bytes if the caller had encrypted it differently.
    """
    if ingredients.decrypting_use(scene) is None or scene.plain is None:
        return
    plain = Fields(scene.plain).sized()
    for other in ingredients.otherwise(scene) if not printable(plain) else []:
        meant = Fields(other.plain).sized()
        if len(meant) >= LEAST_TEXT and printable(meant):
            taken = f"The first parameter decrypts to {plain.hex()}, which is taken as it is"
            slip = f"It seems to be a slip: {other.words}; so it would be {bytes_words(meant)}"
            yield note("encryption", other.name, f"{taken}. {slip}.")
            return


def zeros_words(value: bytes) -> str:
    count = len(value) - len(trimmed(value))
    return f"{plural(count, 'zero')} at its end" if count else ""


def zeros(scene: Scene) -> Iterator[Reason]:
    for place, entry, handle in scene.command.places:
        if entry.handle == RS_PW:
            told = zeros_words(entry.hmac)
            if told:
                words = f"The password of entry {place} has {told}, which do not count."
                yield note("zeros", "zeros at the end", words)
        elif handle is not None:
            given = scene.past.untrimmed.get(handle, b"")
            told = zeros_words(given) if trimmed(given) else ""
            if told and scene.model.uses_auth_value(entry, handle):
                value = f"The authValue of {handle_words(handle)} was given with {told}"
                pads = "an HMAC pads its key with zeros, so that one with them is the same"
                words = f"{value}. They do not count, and {pads}."
                yield note("zeros", "zeros that HMAC pads", words)


def nonces(scene: Scene) -> Iterator[Reason]:
    for place, entry, _ in scene.command.places:
        begun = scene.past.sessions.get(entry.handle)
        if begun is None or not entry.nonce:
            continue
        line = begun.caller_nonces.setdefault(entry.nonce, scene.line)
        if line != scene.line:
            used = f"nonceCaller of entry {place} was used in line {line} already"
            words = f"{used}: the caller's part of what makes each HMAC another one is missing."
            yield note("nonces", "nonceCaller used again", words)


def unwritten(scene: Scene) -> Iterator[Reason]:
    """Reports that the Name of an unwritten index goes into a policy."""
    if scene.code not in (CC.PolicyNV, CC.PolicySecret):
        return
    handle = scene.command.handles[1 if scene.code == CC.PolicyNV else 0]
    index = scene.model.indices.get(handle)
    if index is not None and not index.public.has(nv.Attribute.WRITTEN):
        words = (
            f"{handle_words(handle)} is not written, and its Name goes into the policy digest. The "
            "first write makes it another Name, and the digest does not fit then."
        )
        yield note("name of an index", "index without WRITTEN in a policy", words)


def offline_guesses(scene: Scene) -> Iterator[Reason]:
    """Reports encryption with a value that the caller did not have to know."""
    for place, entry, _ in scene.command.places:
        use = ingredients.use_of(scene, place)
        if use is None or not unshown.encrypts(entry.attributes):
            continue
        if use.has_unshown_binding:
            bound = handle_words(use.begun.bind) if use.begun else "an entity"
            words = unshown.of_binding(place, entry.attributes, bound)
            yield note("guesses", "guesses of a bound value need no try", words)
        if use.has_unshown_value:
            words = unshown.of_used(place, entry.attributes, handle_words(use.authorized))
            yield note("guesses", "guesses of a used value need no try", words)


def after(scene: Scene) -> Iterator[Reason]:
    """Yields notes after the command took effect: that a nonceTPM repeats and, once per log, that
    the random bytes are zeros.
    """
    if scene.code in DRAWS and not any(scene.random) and "random" not in scene.past.told_once:
        scene.past.told_once.add("random")
        words = (
            "The random bytes are zeros, because no entropy line set others. This is reported once."
        )
        yield note("random bytes", "random bytes are zeros", words)
    for place, entry, _ in scene.command.places:
        begun = scene.past.sessions.get(entry.handle)
        session = scene.model.sessions.get(entry.handle)
        if begun is None or session is None or not session.nonce_tpm:
            continue
        line = begun.own_nonces.get(session.nonce_tpm)
        if line is not None:
            words = (
                f"The new nonceTPM of entry {place} is that of line {line} again, as the random bytes "
                "are the same: a command that was sent with it can be sent again."
            )
            yield note("nonces", "nonceTPM comes again", words)


def of_refusal(scene: Scene) -> list[Reason]:
    lockout = scene.model.lockout
    is_try = scene.refused.startswith("AUTH_FAIL/")
    if not is_try or not lockout.recovery_time or lockout.failed_tries != lockout.max_tries - 1:
        return []
    tries = f"{lockout.failed_tries} of {lockout.max_tries} have failed"
    words = f"One more failed try locks out all protected entities: {tries}."
    return [note("tries", "one more try locks", words)]
