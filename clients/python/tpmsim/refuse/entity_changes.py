"""Changes of the indices and the objects that a command names."""

from __future__ import annotations

import functools
from dataclasses import replace
from typing import Any, Callable, Iterator

from tpmsim.model.machine import Model
from tpmsim.model.nv_commands import bytes_of_type, Index, LARGEST
from tpmsim.model.object_rules import Object
from tpmsim.refuse.change import Asked, Change, hexed, OTHER_VALUE
from tpmsim.standard import ALG_NULL, digest, KEYEDHASH, nv, objects, RH_NULL, SHA1
from tpmsim.standard import SHA256, SYMCIPHER

# The scheme of a key for HMACs, and the words for a key with it.
SCHEMES = {ALG_NULL: "has no scheme", SHA1: "is for SHA-1", SHA256: "is for SHA-256"}


def change_index(words: str, handle: int, act: Callable[..., None], **more: Any) -> Change:
    """Returns a change of an index; `act` takes the index and `more`."""
    return Change(f"{hexed(handle)} {words}", lambda model: act(model.indices[handle], **more))


def change_object(words: str, handle: int, act: Callable[..., Object], **more: Any) -> Change:
    """Returns a change of an object; `act` takes the object and `more`, and returns another one."""

    def acted(model: Model) -> None:
        model.objects[handle] = act(model.objects[handle], **more)

    return Change(f"{hexed(handle)} {words}", acted)


# Indices.


def with_attributes(index: Index, added: int = 0, cleared: int = 0) -> None:
    """Sets and clears attributes. An index that is no longer written has no data."""
    was_written = index.public.has(nv.Attribute.WRITTEN)
    index.public = index.public.but(added=added, cleared=cleared)
    is_written = index.public.has(nv.Attribute.WRITTEN)
    if is_written != was_written:
        index.data = bytes(index.public.data_size) if is_written else b""


def toggled_index(handle: int, attribute: nv.Attribute, index: Index) -> Change:
    """Returns the change that sets an attribute, or clears it if it is set."""
    if index.public.has(attribute):
        return change_index(f"lacks {attribute.name}", handle, with_attributes, cleared=attribute)
    return change_index(f"has {attribute.name}", handle, with_attributes, added=attribute)


def typed(index: Index, kind: nv.Type) -> None:
    """Gives an index another type, with data of its size."""
    mask = nv.of_type(nv.TYPE_MASK)
    public = index.public.but(cleared=mask, added=nv.of_type(kind))
    size = public.data_size if kind == nv.Type.ORDINARY else bytes_of_type(public)
    index.public = replace(public, data_size=size)
    if index.public.has(nv.Attribute.WRITTEN):
        index.data = bytes(size)


def resized(index: Index, size: int) -> None:
    index.public = replace(index.public, data_size=size)
    index.data = index.data[:size]


def with_data(index: Index, data: bytes) -> None:
    index.data = data


def with_another_value(index: Index) -> None:
    index.auth_value = OTHER_VALUE


def index_values(handle: int, index: Index) -> Iterator[Change]:
    """Yields changes of an index that leave its Name."""

    yield change_index("has another authorization value", handle, with_another_value)
    if index.data:
        other = bytes(it ^ 0xFF for it in index.data)
        for words, data in (
            ("holds other data", other),
            ("holds zeros", bytes(len(index.data))),
            ("holds the largest value", b"\xff" * len(index.data)),
        ):
            yield change_index(words, handle, with_data, data=data)
    if index.public.kind == nv.Type.COUNTER:
        yield Change("the largest counter is at its end", counter_at_end)


def counter_at_end(model: Model) -> None:
    model.largest_counter = LARGEST


def index_names(handle: int, index: Index) -> Iterator[Change]:
    """Yields changes of an index that change its Name."""
    for attribute in nv.Attribute:
        yield toggled_index(handle, attribute, index)
    locks = nv.Attribute.WRITEDEFINE | nv.Attribute.WRITE_STCLEAR
    words = "has no attribute for a write lock"
    yield change_index(words, handle, with_attributes, cleared=locks)
    if index.public.kind == nv.Type.ORDINARY and index.public.data_size:
        for size in dict.fromkeys((index.public.data_size // 2, 0)):
            yield change_index(f"has {size} bytes", handle, resized, size=size)
    for kind in nv.Type:
        if kind != index.public.kind:
            yield change_index(f"is of type {kind.name}", handle, typed, kind=kind)
    yield from index_policies(handle, index)


def with_index_policy(index: Index, policy: bytes) -> None:
    index.public = replace(index.public, auth_policy=policy)


def index_policies(handle: int, index: Index) -> Iterator[Change]:
    """Yields changes of the policy of an index."""
    other = digest(index.public.name_algorithm, OTHER_VALUE)
    yield change_index("has another policy", handle, with_index_policy, policy=other)
    yield change_index("has no policy", handle, with_index_policy, policy=b"")


# Objects.


def toggled_object(handle: int, attribute: objects.Attribute, held: Object) -> Change:
    """Returns the change that sets an attribute, or clears it if it is set."""
    verb = "lacks" if held.public.has(attribute) else "has"
    return change_object(f"{verb} {attribute.name}", handle, toggled, attribute=attribute)


def toggled(held: Object, attribute: objects.Attribute) -> Object:
    return with_public(held, attributes=held.public.attributes ^ attribute)


def with_public(held: Object, **fields: Any) -> Object:
    """Returns an object with other fields in its public area."""
    return replace(held, public=replace(held.public, **fields))


def with_sensitive(held: Object, **fields: Any) -> Object:
    """Returns an object with other fields in its sensitive area."""
    return replace(held, sensitive=replace(held.sensitive, **fields))


def of_other_kind(held: Object) -> Object:
    """Returns an object of the other type."""
    kind = SYMCIPHER if held.public.kind == KEYEDHASH else KEYEDHASH
    return with_public(with_sensitive(held, kind=kind), kind=kind, scheme=ALG_NULL)


def object_values(handle: int) -> Iterator[Change]:
    """Yields changes of an object that leave its Name."""
    words = "has another authorization value"
    yield change_object(words, handle, with_sensitive, auth_value=OTHER_VALUE)
    yield change_object("has another seed", handle, with_sensitive, seed_value=bytes(32))
    yield change_object("is of no hierarchy", handle, replace, hierarchy=RH_NULL)


def object_names(handle: int, held: Object) -> Iterator[Change]:
    """Yields changes of an object that change its Name."""
    for attribute in objects.Attribute:
        yield toggled_object(handle, attribute, held)
    yield change_object("is of the other type", handle, of_other_kind)
    if held.public.kind == KEYEDHASH:
        for scheme, words in SCHEMES.items():
            if scheme != held.public.scheme:
                yield change_object(words, handle, with_public, scheme=scheme)
    other = digest(held.public.name_algorithm, OTHER_VALUE)
    yield change_object("has another policy", handle, with_public, auth_policy=other)
    yield change_object("has no policy", handle, with_public, auth_policy=b"")


# Both.


def values(model: Model, asked: Asked) -> Iterator[Change]:
    """Yields changes that leave Names: authorization values, data, seeds."""
    for handle in dict.fromkeys(asked.handles):
        if handle in model.indices:
            yield from index_values(handle, model.indices[handle])
        elif handle in model.objects:
            yield from object_values(handle)


def removals(model: Model, asked: Asked) -> Iterator[Change]:
    """Yields changes that remove an index or an object."""
    for handle in asked.named:
        if handle in model.indices or handle in model.objects:
            yield Change(f"{hexed(handle)} is gone", functools.partial(remove, handle=handle))


def remove(model: Model, handle: int) -> None:
    model.indices.pop(handle, None)
    model.objects.pop(handle, None)


def names(model: Model, asked: Asked) -> Iterator[Change]:
    """Yields changes that change Names: attributes, types, sizes, policies."""
    for handle in dict.fromkeys(asked.handles):
        if handle in model.indices:
            yield from index_names(handle, model.indices[handle])
        elif handle in model.objects:
            yield from object_names(handle, model.objects[handle])


def protections(model: Model, asked: Asked) -> Iterator[Change]:
    """Yields changes of whether an entity is protected against guesses."""
    for handle in dict.fromkeys(asked.handles):
        if handle in model.indices:
            yield toggled_index(handle, nv.Attribute.NO_DA, model.indices[handle])
        elif handle in model.objects:
            yield toggled_object(handle, objects.Attribute.NO_DA, model.objects[handle])
