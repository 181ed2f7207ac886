"""Explains further why a command on objects is refused."""

from tpmsim.explain import ingredients
from tpmsim.explain.past import Created
from tpmsim.explain.reason import Check, Look
from tpmsim.explain.words import handle_words
from tpmsim.model import object_rules
from tpmsim.model.general import Refusal
from tpmsim.model.parameters import Parameters
from tpmsim.model.persistent import is_persistent
from tpmsim.standard import aes, Fields, Short, trimmed


def misread(look: Look) -> None:
    """Names a mistake in the caller's encryption, if it explains an invalid inSensitive."""
    for other in ingredients.otherwise(look.scene):
        size = int.from_bytes(other.plain[:2], "big")
        try:
            parameters = Parameters(other.plain[: 2 + size])
            value, _ = parameters.structure(object_rules.read_sensitive_create)
        except Refusal:
            continue
        if len(trimmed(value)) <= look.operands["most"]:
            look.found.slip(other.name, other.words)
            return


def other_areas(look: Look) -> None:
    """Names why the private area does not fit: it is that of another object, of another parent, or of
    a parent in another hierarchy.
    """
    made, parent = look.past.created.get(look["inPrivate"]), look.object
    another_parent(look)
    if made is None:
        look.found.add("inPrivate", "no TPM2_Create of this log returned it")
    elif made.name != look.operands["public"].name:
        of = [it.line for it in look.past.created.values() if is_public_of(look, it)]
        whose = f"of the object of line {of[0]}" if of else "another object's"
        words = f"inPrivate is of the object of line {made.line}, and inPublic is {whose}"
        look.found.slip("areas of two objects", words)
    elif made.hierarchy != parent.hierarchy:
        words = f"line {made.line} created it under a parent in {handle_words(made.hierarchy)}"
        own = f"{handle_words(look.handles[0])} is in {handle_words(parent.hierarchy)}"
        look.found.slip("another hierarchy", f"{words}, and {own}")
    elif made.parent_name != parent.public.name and not look.found.slips:
        words = f"line {made.line} created it under a parent with the Name {made.parent_name.hex()}"
        look.found.slip("another parent", words)


def is_public_of(look: Look, made: Created) -> bool:
    return bool(made.name == look.operands["public"].name)


def another_parent(look: Look) -> None:
    """Names another parent that protected the private area."""
    protected, name = look.operands["protected"], look.operands["public"].name
    for handle, it in look.model.objects.items():
        if object_rules.integrity(it, protected, name) == look.operands["given"]:
            begun = look.past.begun.get(handle, 0)
            since = f"{handle_words(handle)}, which has existed since line {begun}"
            look.found.slip("another parent", f"it is right under {since}")


def inner(look: Look) -> None:
    try:
        iv = Fields(look.operands["protected"]).sized()
    except Short:
        look.found.add("iv", "cut")
        return
    look.found.add("iv", f"{iv.hex()}, {len(iv)} bytes of {aes.BLOCK}")


def no_place(look: Look) -> None:
    for it in sorted(it for it in look.model.objects if not is_persistent(it)):
        look.found.add(handle_words(it), f"since line {look.past.begun.get(it, 0)}")


CHECKS: dict[str, Check] = {
    **dict.fromkeys(("CreatePrimary/A4", "Create/A5"), misread),
    **dict.fromkeys(("CreatePrimary/A7", "Load/A6"), no_place),
    "Load/A5.other": other_areas,
    "Load/A5.content": inner,
}
