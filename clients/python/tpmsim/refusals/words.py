"""What docs/table says about each refusal, and the line that names it."""

from tpmsim.explain.reason import RULES
from tpmsim.standard import HandleKind
from tpmsim.standard.rows import AnyRow, Row

# The conditions of a policy's use, by the response code that names each one, and the check of an
# entry's attributes that comes first.
CONDITIONS = {
    "ATTRIBUTES": "condition/1",
    "PCR_CHANGED": "condition/3",
    "POLICY_CC": "condition/4",
    "LOCALITY": "condition/7",
    "POLICY_FAIL": "condition/8",
}


def unavailable_key(row: AnyRow) -> str:
    """Returns the key for AUTH_UNAVAILABLE, which has other reasons for objects and for indices."""
    kind = row.command.handles[0].kind if isinstance(row, Row) else None
    if kind == HandleKind.OBJECT:
        return "G9/AUTH_UNAVAILABLE.1"
    is_of_index = kind in (HandleKind.NV_AUTH, HandleKind.NV_INDEX)
    return "G9/AUTH_UNAVAILABLE.2" if is_of_index else "condition/2"


def key_of(row: AnyRow) -> str:
    """Returns the key in rules.json of the sentence about a refusal."""
    word = row.code_name.partition("/")[0]
    word = "REFERENCE" if word.startswith("REFERENCE") else word
    keys = [f"{row.name}/{row.check}", row.check]
    if row.check == "G9":
        keys.append(
            unavailable_key(row) if word == "AUTH_UNAVAILABLE" else CONDITIONS.get(word, "")
        )
    if row.check == "G11" and "/" in row.code_name and word != "INSUFFICIENT":
        keys.append(f"{row.name}/parameters")
    keys += [f"{row.check}/{word}", f"{row.check}/{word}.1"]
    return next(it for it in keys if it in RULES)


def sentence_of(row: AnyRow) -> str:
    """Returns the sentence of docs/table about a refusal, without the response code before it."""
    return RULES[key_of(row)][0].removeprefix(f"{row.code_name} ({row.code:03X}): ")


def line_of(row: AnyRow) -> str:
    """Returns the columns of a refusal: command, check, code in hex, name of the code, kind."""
    return f"{row.name:26} {row.check:4} {row.code:3X} {row.code_name:18} {row.kind.value}"
