"""Mistakes in the key of an HMAC: another authorization value, another form of it, or another
session key.
"""

from typing import Any, Callable, Iterator

from tpmsim.explain import ingredients, slip_kdf
from tpmsim.explain.forms import forms_of, mistypings
from tpmsim.explain.ingredients import Ingredients, Use
from tpmsim.explain.slip import Changes, Slip, Told
from tpmsim.explain.slip_kdf import Kdf, right_kdf
from tpmsim.explain.words import bytes_words, handle_words
from tpmsim.standard import RH_NULL, trimmed


# The number of other entities whose values are tried together with another mistake.
PAIRED_OTHERS = 4


def value_slip(name: str, words: str, value: bytes, is_paired: bool = True) -> Slip:
    return Slip.of(name, words, is_paired, auth_value=value)


def auth_values(use: Use) -> Iterator[Slip]:
    if use.handle is None and not use.takes_value:
        yield from values_put_in(use)
        return
    value, said = use.auth_value, use.authorized_words
    if use.takes_value and value:
        yield left_out(use)
    if not use.takes_value and value:
        why = use.value_words().removeprefix("not in the key: ")
        words = f"the authValue of {said} was put into the key, where it does not belong: {why}"
        yield value_slip("authValue put in", words, value)
    for past in use.past_values:
        if past.value:
            since = f"{said} had since line {past.line}, which is outdated"
            yield value_slip("old authValue", f"the key has the authValue that {since}", past.value)
    new = new_value(use)
    if new:
        words = "the key has the new authValue; a command has the old one, its response the new one"
        yield value_slip("new authValue", words, new)
    if use.takes_value:
        yield from formed(use)
        yield from of_others(use)


def left_out(use: Use) -> Slip:
    said = use.authorized_words
    if use.was_bound:
        lapsed = f"the binding to {said} has lapsed, {use.lapse_words()}"
        return value_slip("binding lapsed", f"the authValue was left out; {lapsed}", b"")
    why = use.value_words().removeprefix("in the key: ")
    words = f"the authValue of {said} was left out of the key, where it belongs: {why}"
    return value_slip("authValue left out", words, b"")


def new_value(use: Use) -> bytes:
    is_change = use.code.name in ("HierarchyChangeAuth", "NV_ChangeAuth")
    if not is_change or ingredients.decrypting_use(use.scene) is not None:
        return b""
    size = int.from_bytes(use.command.parameters[:2], "big")
    return trimmed(use.command.parameters[2 : 2 + size])


def values_put_in(use: Use) -> Iterator[Slip]:
    """Yields the values of the command's handles and of the bind entity, for an entry that
    authorizes nothing.
    """
    bind = [] if use.begun is None else [use.begun.bind]
    for handle in dict.fromkeys([*use.scene.handles, *bind]):
        value = use.scene.model.auth_value(handle)
        if value:
            put_in = f"the authValue of {handle_words(handle)} was put into the key"
            words = f"{put_in}, and the entry authorizes nothing"
            yield value_slip("authValue put in", words, value)


def told_forms(value: bytes) -> Iterator[tuple[tuple[Told, ...], bytes, bool]]:
    """Yields a value in each form, and whether only one form was applied."""
    for it in forms_of(value):
        told = tuple((f"authValue {form.name}", form.words) for form in it.forms)
        yield told, it.value, it.is_single


def worded(told: tuple[Told, ...], begin: str) -> tuple[Told, ...]:
    """Returns the description of each form, after words that say where the value was used."""
    return tuple((name, f"{begin} {words}") for name, words in told)


def formed(use: Use) -> Iterator[Slip]:
    """Yields the value in another form in the key, and also in the session key if that is made from
    the same value.
    """
    value, kdf = use.auth_value, kdf_of(use)
    for told, other, is_single in told_forms(value):
        told = worded(told, "the authValue is in the key")
        yield Slip(told, {"auth_value": other}, is_single)
        if kdf is not None and kdf.value == value:
            key = kdf._replace(value=other).key
            yield Slip(told, {"auth_value": other, "session_key": key}, is_single)


def of_others(use: Use) -> Iterator[Slip]:
    model, own = use.scene.model, use.auth_value
    those = [(it, model.auth_value(it)) for it in use.scene.past.values if it != use.handle]
    those = [(it, value) for it, value in those if value not in (b"", own)]
    for at, (handle, value) in enumerate(those):
        words = f"the key has the authValue of {handle_words(handle)}"
        yield value_slip("another's authValue", words, value, at < PAIRED_OTHERS)


# The block size of both hash algorithms, to which keys are padded with zeros; and the largest size
# that is tried.
BLOCK, MOST_PADDED = 64, 128


def zeros(use: Use) -> Iterator[Slip]:
    """Yields the value with zeros. Trailing zeros change an HMAC only if its key is longer than a
    block; leading zeros always do.
    """
    value = use.auth_value if use.takes_value else b""
    if not value:
        return
    for size in range(BLOCK - len(use.session.key) + 1, MOST_PADDED + 1):
        words = (
            f"the authValue was padded with zeros to {size} bytes: within the hash's block of {BLOCK} "
            "they do no harm, and with the session key they are longer"
        )
        yield padded(value, words, bytes.ljust, size)
    for size in range(len(value) + 1, BLOCK + 1):
        words = f"the authValue has zeros in front, to {size} bytes"
        yield padded(value, words, bytes.rjust, size)


def padded(value: bytes, words: str, pad: Callable[[bytes, int, bytes], bytes], size: int) -> Slip:
    def turn(it: Ingredients) -> Changes:
        return {"auth_value": pad(it.auth_value, size, b"\0")}

    return Slip((("zeros", words),), {"auth_value": pad(value, size, b"\0")}, turn=turn)


def mistyped(use: Use) -> Iterator[Slip]:
    """Yields the value with one typing error, in the key and in the session key."""
    kdf = kdf_of(use)
    values = {use.auth_value} if use.takes_value else set()
    for value in sorted(values | ({kdf.value} if kdf else set())):
        for other in mistypings(value):
            words = f'the authValue {bytes_words(value)} was mistyped, as "{other.decode("ascii")}"'
            changes: dict[str, Any] = {}
            if value in values:
                changes["auth_value"] = other
                yield Slip.of("authValue mistyped", words, False, **changes)
            if kdf is not None and kdf.value == value:
                changes["session_key"] = kdf._replace(value=other).key
                yield Slip.of("authValue mistyped", words, False, **changes)


# Mistakes with the session key.


def kdf_of(use: Use) -> Kdf | None:
    """Returns the parts of the session key, if there is a key and the log shows its start."""
    begun, session = use.begun, use.session
    if begun is None or not session.key:
        return None
    first = begun.nonces[0].value
    return right_kdf(session.algorithm, session.bind_auth, first, begun.nonce_caller)


def session_keys(use: Use) -> Iterator[Slip]:
    kdf = kdf_of(use)
    if kdf is None:
        yield from keys_made(use)
        return
    for told, key in slip_kdf.of_kdf(kdf):
        yield Slip((told,), {"session_key": key})
    latest = use.session.nonce_tpm
    if latest != kdf.newer:
        words = "the session key was made of the latest nonceTPM; it is of that of the start"
        key = kdf._replace(newer=latest).key
        yield Slip.of("session key, latest nonceTPM", words, session_key=key)
    words = "the session key is the authValue itself; KDFa makes it of that"
    if use.was_bound:
        words = "the key is the authValue alone, as of a session that is bound to nothing; of one that is "
        words += f"bound to {handle_words(use.authorized)} KDFa makes the key of it"
    yield Slip.of("session key without KDFa", words, session_key=kdf.value)
    for value, said in bind_values(use):
        key = kdf._replace(value=value).key
        words = f"the session key was made of {said}"
        yield Slip.of("session key, other authValue", words, session_key=key)
    for forms, value, is_single in told_forms(kdf.value):
        assert use.begun is not None
        of_bind = worded(
            forms, f"the authValue of {handle_words(use.begun.bind)} is in the session key"
        )
        formed_kdf = kdf._replace(value=value)
        yield Slip(of_bind, {"session_key": formed_kdf.key}, is_single)
        for told, key in slip_kdf.of_kdf(formed_kdf) if is_single else ():
            yield Slip((*of_bind, told), {"session_key": key}, False)


def keys_made(use: Use) -> Iterator[Slip]:
    """Yields session keys for an unbound session, whose correct key is empty."""
    begun = use.begun
    if begun is None or begun.bind != RH_NULL:
        return
    for value in dict.fromkeys((b"", use.auth_value)):
        key = right_kdf(use.session.algorithm, value, begun.nonces[0].value, begun.nonce_caller).key
        of = "the authValue" if value else "an empty authValue"
        words = (
            f"a session key was made of {of}; the session is bound to nothing, and its key is empty"
        )
        yield Slip.of("session key put in", words, session_key=key)
        if value and use.takes_value:
            yield Slip.of("session key put in", words, session_key=key, auth_value=b"")


def bind_values(use: Use) -> Iterator[tuple[bytes, str]]:
    begun = use.begun
    assert begun is not None
    own, past = use.session.bind_auth, use.scene.past.values
    said = handle_words(begun.bind)
    if own:
        yield b"", f"the empty authValue, and {said} had another one at line {begun.line}"
    for it in past.get(begun.bind, []):
        if it.value not in (b"", own):
            yield it.value, f"the authValue that {said} has since line {it.line}"
    for handle in past:
        value = use.scene.model.auth_value(handle)
        if handle != begun.bind and value not in (b"", own):
            yield value, f"the authValue of {handle_words(handle)}, and it is bound to {said}"


# Values that the user asked to try.


def tried(use: Use) -> Iterator[Slip]:
    """Yields each `--try` value in every position, and as an authorization value in each form."""
    names, kdf = use.right().names, kdf_of(use)
    for value in use.scene.tried:
        said = f"the tried value, {bytes_words(value)},"

        def slip(what: str, **changes: Any) -> Slip:
            return Slip.of("tried value", f"{said} is {what}", **changes)

        yield slip("the authValue in the key", auth_value=value)
        yield slip("the whole key", session_key=value, auth_value=b"")
        yield slip("the session key", session_key=value)
        yield slip("nonceCaller", newer=value)
        yield slip("nonceTPM", older=value)
        yield slip("the parameters in cpHash", parameters=value)
        yield slip("cpHash", cp_hash_of=lambda algorithm, text, value=value: value)
        for at, name in enumerate(names):
            others = (*names[:at], value, *names[at + 1 :])
            yield slip(f"the Name of handle {at + 1}", names=others)
            everywhere = tuple(value if it == name else it for it in names)
            yield slip("a Name, wherever it comes", names=everywhere)
        if kdf is not None:
            key = kdf._replace(value=value).key
            yield slip("the authValue of the session key", session_key=key)
            yield slip("the authValue in both keys", session_key=key, auth_value=value)
        yield from tried_forms(value, said, kdf)


def tried_forms(value: bytes, said: str, kdf: Kdf | None) -> Iterator[Slip]:
    for forms, other, _ in told_forms(value):
        told = worded(forms, "it is there")
        in_key = "tried value", f"{said} is in the key"
        yield Slip((in_key, *told), {"auth_value": other}, False)
        if kdf is not None:
            in_session_key = "tried value", f"{said} is in the session key"
            key = kdf._replace(value=other).key
            yield Slip((in_session_key, *told), {"session_key": key}, False)
