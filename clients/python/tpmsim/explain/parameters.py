"""Finds the byte at which the parameters of a command are wrong, and what was expected there (G11).
"""

from tpmsim.explain import dissection, ingredients, sentences
from tpmsim.explain.dissection import Field
from tpmsim.explain.reason import Look, Reason, RULES, Scene
from tpmsim.faults import TpmsimError
from tpmsim.model.general import Refusal
from tpmsim.model.machine import ROWS
from tpmsim.model.parameters import Parameters, Request
from tpmsim.standard import CC


class Whole(TpmsimError):
    """All parameters were parsed, and none is wrong."""


class Parsed(Parameters):
    """Parameters that are only parsed, so that the command has no effect."""

    def end(self) -> None:
        super().end()
        raise Whole


def is_well_formed(scene: Scene, plain: bytes) -> bool:
    """Returns whether the command would accept the form of these parameters."""
    request = Request(scene.command.handles, Parsed(plain), scene.locality, scene.random)
    try:
        ROWS[scene.command.code](scene.model, request)
    except Refusal:
        return False
    except Whole:
        pass
    return True


def reason(scene: Scene) -> Reason:
    at = scene.parameters_at + scene.operands["at"]
    field = field_at(scene, at)
    found = Reason(rule_of(scene, field), "")
    sentences.say(Look(scene, found), f"G11.{scene.operands['expected']}")
    wanted, had = (it.value for it in found.facts)
    place = place_words(scene, field)
    found.words = f"At byte {at} (0x{at:x}){place}: wanted {wanted}, and there is {had}."
    found.at = at
    misread(scene, found)
    return found


def field_at(scene: Scene, at: int) -> Field | None:
    """Returns the innermost field that contains a byte."""
    fields = dissection.fields_of_command(scene.buffer, scene.plain)
    those = [it for it in fields if not it.is_group and it.at <= at <= it.at + it.size]
    exact = [it for it in those if it.at == at and it.size]
    found = exact or those
    return found[-1] if found else None


def place_words(scene: Scene, field: Field | None) -> str:
    place, parameters, of = scene.place, scene.code.parameters, ""
    if 0 < place <= len(parameters):
        of = f" of parameter {place}, {parameters[place - 1].name}"
    if field is None or field.name == "left over":
        return of
    is_whole = place and parameters[place - 1].name == field.name
    return of.replace(" of", ",", 1) if is_whole else f", {field.name}{of}"


def rule_of(scene: Scene, field: Field | None) -> str:
    if scene.refused == "SIZE" or scene.name == "INSUFFICIENT":
        return f"G11/{scene.name}"
    if scene.operands.get("of_structure"):
        return "structure/SIZE"
    name = field.name if field else ""
    family = "nvPublic" if scene.code == CC.NV_DefineSpace else "public"
    is_public = scene.code == CC.TestParms or scene.place == 2 and scene.code in PUBLIC_SECOND
    of_public = [f"{family}/{it}" for it in (name, IN_PARAMETERS.get(name, ""))]
    keys = [*(of_public if is_public else []), f"{scene.code.name}/parameters"]
    return next((it for it in keys if it in RULES), "buffer/SIZE")


PUBLIC_SECOND = CC.NV_DefineSpace, CC.CreatePrimary, CC.Create, CC.Load
IN_PARAMETERS = {
    **dict.fromkeys(("scheme", "hashAlg"), "KEYEDHASH"),
    **dict.fromkeys(("symmetric", "keyBits", "mode"), "SYMCIPHER"),
}


def misread(scene: Scene, found: Reason) -> None:
    """Names a mistake in the caller's encryption, if it explains the malformed parameters."""
    use = ingredients.decrypting_use(scene)
    if use is None:
        return
    plain = scene.plain.hex() if scene.plain else ""
    found.add("decrypted", f"by session {use.entry.handle:08x}, to {plain}")
    for other in ingredients.otherwise(scene):
        if is_well_formed(scene, other.plain):
            found.slip(other.name, other.words)
            return
