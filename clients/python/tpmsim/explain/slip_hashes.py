"""Mistakes in cpHash: another Name, another form of the Name, other parameters, or the whole
buffer.
"""

from dataclasses import replace
from itertools import product
from typing import Any, Iterator, Sequence

from tpmsim.explain import ingredients
from tpmsim.explain.forms import NAME_FORMS
from tpmsim.explain.ingredients import Use
from tpmsim.explain.slip import other_hash, Slip
from tpmsim.explain.words import ALGORITHMS, handle_words
from tpmsim.model.machine import Model
from tpmsim.model.object_rules import loaded, Object
from tpmsim.standard import digest, digest_bytes, frames, HEADER_BYTES, name_of, number
from tpmsim.standard import NUMBERED, nv, objects, sized


# The number of other entities whose Names are tried together with another mistake.
PAIRED_OTHERS = 8


def renamed(use: Use, handles: Sequence[int], names: Sequence[bytes]) -> tuple[bytes, ...]:
    """Returns the command's Names, with those of the given handles replaced."""
    others = dict(zip(handles, names))
    right = use.scene.model.names(use.command)
    return tuple(others.get(at, old) for at, old in zip(use.command.handles, right))


def name_slip(name: str, words: str, names: tuple[bytes, ...], is_paired: bool = True) -> Slip:
    return Slip.of(name, f"cpHash has {words}", is_paired, names=names)


def names(use: Use) -> Iterator[Slip]:
    handles = list(dict.fromkeys(use.command.handles))
    past = use.scene.past
    for handle in handles:
        until = past.last_change.get(handle, "?")
        for old in past.names.get(handle, [])[:-1]:
            words = f"the Name that {handle_words(handle)} had until {until}, {old.value.hex()}"
            yield name_slip("old Name", words, renamed(use, [handle], [old.value]))
    of_handles = [it for it in handles if past.names.get(it)]
    for those in groups(of_handles):
        said = "the handles instead of their Names"
        if len(those) == 1:
            said = f"the handle {those[0]:08x} instead of its Name"
        yield name_slip("handle as Name", said, renamed(use, those, [*map(name_of, those)]))
    yield from formed_names(use, handles)
    for handle in of_handles:
        yield from made_otherwise(use, handle)
    yield from names_of_others(use, handles)
    yield from sequence_handles(use)


def sequence_handles(use: Use) -> Iterator[Slip]:
    """Yields a cpHash with the handle of a sequence."""
    right = use.right().names
    those = [at for at, name in zip(use.handles, right) if not name]
    if those:
        texts = (name or name_of(at) for at, name in zip(use.handles, right))
        words = f"the handle of the sequence {those[0]:08x}; a sequence has an empty Name"
        yield name_slip("handle as Name", words, tuple(texts))


def groups(handles: list[int]) -> list[list[int]]:
    """Returns all handles as one group, and each handle as its own group."""
    alone = [[it] for it in handles]
    return [handles, *alone] if len(handles) > 1 else alone


def formed_names(use: Use, handles: list[int]) -> Iterator[Slip]:
    model = use.scene.model
    for form in NAME_FORMS:
        turned = {it: form.turn(model.name(it)) for it in handles}
        for those in groups([it for it in handles if turned[it]]):
            names = renamed(use, those, [turned[it] for it in those])
            said = " and ".join(map(handle_words, those))
            whose = f"the {'Name' if len(those) == 1 else 'Names'} of {said}"
            yield name_slip(form.name, f"{whose} {form.words}", names)


def made_otherwise(use: Use, handle: int) -> Iterator[Slip]:
    """Yields the results of wrong computations of a Name from the public area, and the Names of the
    ancestors.
    """
    held, said = use.scene.model.held(handle), handle_words(handle)
    if held is None:
        return
    public = held.public
    for name, words, value in public_names(public):
        yield name_slip(name, f"the Name of {said} {words}", renamed(use, [handle], [value]))
    if isinstance(held, Object):
        yield from above(use, handle, held)


def public_names(public: objects.Public | nv.Public) -> Iterator[tuple[str, str, bytes]]:
    own = public.name_algorithm
    other = other_hash(own)
    made = f"made by {ALGORITHMS[other]}, and its nameAlg is {ALGORITHMS[own]}"
    yield "Name by another hash", made, number(other, 2) + digest(other, public.text)
    words = "made of the public area with its size in front"
    yield "Name of a sized area", words, number(own, 2) + digest(own, sized(public.text))
    if not isinstance(public, nv.Public):
        return
    written = nv.Attribute.WRITTEN
    if public.has(written):
        words = "as it is without WRITTEN, before the first write"
        yield "Name without WRITTEN", words, public.but(cleared=written).name
    else:
        words = "as it will be with WRITTEN, after the first write"
        yield "Name with WRITTEN", words, public.but(added=written).name


def above(use: Use, handle: int, held: Object) -> Iterator[Slip]:
    said, model = handle_words(handle), use.scene.model
    hierarchy = name_of(held.hierarchy)
    words = f"the qualified name of {said}"
    yield name_slip("qualified name", words, renamed(use, [handle], [held.qualified_name]))
    parents = [(at, it) for at, it in model.objects.items() if is_parent(it, held)]
    for at, it in parents:
        words = f"the Name of {handle_words(at)}, the parent of {said}"
        yield name_slip("Name of the parent", words, renamed(use, [handle], [it.name]))
    words = f"{handle_words(held.hierarchy)}, the hierarchy of {said}, instead of its Name"
    yield name_slip("Name of the hierarchy", words, renamed(use, [handle], [hierarchy]))


def is_parent(it: Object, held: Object) -> bool:
    made = loaded(held.public, held.sensitive, held.hierarchy, it.qualified_name)
    return made.qualified_name == held.qualified_name


def names_of_others(use: Use, handles: list[int]) -> Iterator[Slip]:
    """Yields cpHashes with the Name of another existing entity."""
    model = use.scene.model
    known = [*model.objects, *model.indices]
    for handle in handles:
        for at, it in enumerate(known):
            if it != handle:
                words = f"the Name of {handle_words(it)} instead of that of {handle_words(handle)}"
                names = renamed(use, [handle], [model.name(it)])
                yield name_slip("another's Name", words, names, at < PAIRED_OTHERS)


# Other texts that a caller may have hashed.


# The size of a parameter of each kind that has a fixed size.
FIXED = {"u8": 1, "u16": 2, "u32": 4}


def parameters(use: Use) -> Iterator[Slip]:
    yield from plain_parameters(use)
    yield from last_parameters(use)
    yield from whole_buffers(use)
    for code in NUMBERED.values():
        if number(code, 4) != use.right().code:
            words = f"cpHash has the command code of {code.name}, and this is {use.code_words}"
            yield Slip.of("another command code", words, code=number(code, 4))


def last_parameters(use: Use) -> Iterator[Slip]:
    """Yields a cpHash without the last parameter, such as an offset."""
    command = NUMBERED.get(int.from_bytes(use.right().code, "big"))
    own = command.parameters if command else ()
    size = FIXED.get(own[-1].kind.value, 0) if len(own) > 1 else 0
    if size:
        words = f"cpHash was made without the last parameter, {own[-1].name}"
        yield Slip.of("last parameter left out", words, parameters=use.right().parameters[:-size])


def plain_parameters(use: Use) -> Iterator[Slip]:
    def slip(words: str, plain: bytes) -> Slip:
        return Slip.of("parameters hashed plain", words, parameters=plain)

    decrypting = ingredients.decrypting_use(use.scene)
    if decrypting is None:
        return
    plain = Model.plain_parameters(use.scene.model, use.command)
    words = "cpHash has the parameters in plain; a right one has them encrypted, as they are sent"
    yield slip(words, plain)
    for it in ingredients.mistakes(decrypting, use.command.parameters):
        yield slip(f"cpHash has the parameters in plain, and {it.words}", it.plain)


def whole_buffers(use: Use) -> Iterator[Slip]:
    """Yields cpHashes over the whole command, with the HMACs replaced by zeros or left out, or
    without the entries.
    """
    for words, text in texts_of_buffer(use):
        changes: dict[str, Any] = {"code": b"", "names": (), "parameters": text}
        yield Slip.of("whole buffer hashed", f"cpHash is over the whole buffer, {words}", **changes)


def blank_entries(use: Use) -> Iterator[tuple[str, list[frames.Entry]]]:
    """Yields the entries with the placeholders that a caller may use for an HMAC while it computes
    the HMAC: in all entries, or only in its own entry.
    """
    entries, size = use.entries, digest_bytes(use.session.algorithm)
    sizes = ("zeros", None), (f"{size} zeros", size), ("empty", 0)
    for (what, most), is_alone in product(sizes, (False, True)):
        whose = "its own HMAC" if is_alone else "its HMACs"
        yield f"{whose} being {what}", [
            it if is_alone and at != use.place else with_zeros(it, most)
            for at, it in enumerate(entries, 1)
        ]


def with_zeros(entry: frames.Entry, size: int | None) -> frames.Entry:
    return replace(entry, hmac=bytes(len(entry.hmac) if size is None else size))


def texts_of_buffer(use: Use) -> Iterator[tuple[str, bytes]]:
    right = use.right()
    code, parameters = int.from_bytes(right.code, "big"), right.parameters
    for words, entries in blank_entries(use):
        yield words, frames.buffer_of(code, use.handles, entries, parameters)
    rest = b"".join(map(name_of, use.handles)) + parameters
    words = "without its authorization area"
    yield words, use.buffer[:HEADER_BYTES] + rest
    for tag in (frames.SESSIONS, frames.NO_SESSIONS):
        yield words, frames.HEADER.pack(tag, HEADER_BYTES + len(rest), code) + rest
