"""Makes calls.pyi, the types of each command and of its response, from the table of commands. An
installed package contains this file. For editors and mypy in a clone of the repository, this
command writes it to clients/python/tpmsim/caller:

    tools/python.sh clients/python/packing/call_types.py
"""

import pathlib
import re

from tpmsim.caller import short_names
from tpmsim.standard import CC, Kind, NUMBERED, Parameter
from tpmsim.standard.given import NUMBER_WORDS

# The path of the file in the package.
PLACE = "tpmsim/caller/calls.pyi"
COLUMNS = 100

HEAD = '''"""The types of calls.py. packing/call_types.py makes this file; do not change it."""

from typing import Any, Iterable, Literal, overload, Sequence

from tpmsim.caller.entries import Means, Prepared, Response, Session
from tpmsim.caller.knowledge import Knowledge
from tpmsim.standard import CC, nv, objects
from tpmsim.standard.values import Bank, Capability, Cipher, Digest, HasText, Ticket, Time

Handle = int | str | Session
Buffer = bytes | bytearray | memoryview | HasText
Selection = str | Iterable[tuple[int, Iterable[int]]]
Digests = str | Iterable[tuple[int, bytes]]

RESPONSES: dict[CC, type[Response]]
'''

NEXT_EMPTY = r"^(class .*: \.\.\.\n)\n(?=class .*: \.\.\.$)"

# The Python types that a parameter of a command accepts, by the parameter's kind.
TAKEN = {
    Kind.CODE: "int | str",
    Kind.HANDLE: "Handle",
    Kind.BUFFER: "Buffer",
    Kind.BUFFERS: "Iterable[bytes]",
    Kind.SELECTION: "Selection",
    Kind.DIGESTS: "Digests",
    Kind.CIPHER: "Cipher | str",
    Kind.HASH: "int | str",
    Kind.HIERARCHY: "Handle",
    Kind.ALGORITHMS: "str | Iterable[int]",
    Kind.BYTES: "Buffer",
}
TAKEN_BY_NAME = {"property": "int", **dict.fromkeys(NUMBER_WORDS, "int | str")}

# The Python type of a response's parameter, by the parameter's kind.
ANSWERED = {
    Kind.BUFFER: "bytes",
    Kind.BUFFERS: "list[bytes]",
    Kind.SELECTION: "list[Bank]",
    Kind.DIGESTS: "list[Digest]",
    Kind.CIPHER: "Cipher",
    Kind.ALGORITHMS: "list[int]",
    Kind.BYTES: "bytes",
    Kind.CAPABILITY: "Capability",
    Kind.TICKET: "Ticket",
    Kind.TIME: "Time",
}
STRUCTURES = {"outPublic": "objects.Public", "nvPublic": "nv.Public"}


def taken(parameter: Parameter) -> str:
    """Returns the type that a parameter of a command accepts."""
    return TAKEN_BY_NAME.get(parameter.name, TAKEN.get(parameter.kind, "int"))


def answered(parameter: Parameter) -> str:
    """Returns the type of a response's parameter when it is read as an item, as in
    `response["name"]`.
    """
    return ANSWERED.get(parameter.kind, "int")


def method(head: str, arguments: list[str], result: str) -> str:
    """Returns the text of a method, formatted as black formats it."""
    end = f") -> {result}: ..."
    joined = ", ".join(arguments)
    for text in (f"    {head}({joined}{end}", f"    {head}(\n        {joined}\n    {end}"):
        if max(map(len, text.splitlines())) <= COLUMNS:
            return text + "\n"
    lines = "".join(f"        {it},\n" for it in arguments)
    return f"    {head}(\n{lines}    {end}\n"


def response(code: CC) -> str:
    """Returns the text of the class of a command's responses."""
    parameters = code.answered_parameters
    text = f"\nclass {code.name}Response(Response):\n"
    types = {it.name: "int" for it in code.answered_handles}
    types |= {it.name: STRUCTURES.get(it.name) or answered(it) for it in parameters}
    if not types:
        return text.rstrip("\n") + " ...\n"
    for name, kind in types.items():
        text += f"    @property\n    def {name}(self) -> {kind}: ...\n"
    names: dict[str, list[str]] = {}
    for it in parameters:
        names.setdefault(answered(it), []).append(f'"{it.name}"')
    for kind, of_kind in names.items():
        text += "    @overload\n"
        text += method("def __getitem__", ["self", f"name: Literal[{', '.join(of_kind)}]"], kind)
    if parameters:
        text += "    @overload\n" + method("def __getitem__", ["self", "name: str"], "Any")
    return text


def signature(name: str, code: CC, result: str) -> str:
    """Returns the overload of a method for one command."""
    arguments = ["self", f'name: Literal["{code.name}", CC.{code.name}]']
    arguments += [f"{it.name}: Handle" for it in code.handles]
    arguments += ["/", "*", "uses: Sequence[Means] = ..."]
    arguments += [f"{it.name}: {taken(it)}" for it in code.parameters]
    return "    @overload\n" + method(f"def {name}", arguments, result)


def short(name: str, code: CC) -> str:
    """Returns the method that prepares the command with a short name."""
    defaults = short_names.DEFAULTS.get(code, {})
    types = dict.fromkeys(short_names.names_of(code), "Handle")
    types |= {it.name: taken(it) for it in code.parameters}
    in_order = [f"{it}: {types[it]}" for it in types if it not in defaults]
    named = [
        f"{it}: {types[it]}{' | None' if default is None else ''} = ..."
        for it, default in defaults.items()
    ]
    return method(f"def {name}", ["self", *in_order, "/", "*uses: Means", *named], "Prepared")


def any_command(name: str, result: str) -> str:
    """Returns the overload of a method for a command that is known only at run time."""
    arguments = ["self", "name: CC", "*those: Handle", "uses: Sequence[Means] = ..."]
    return "    @overload\n" + method(f"def {name}", [*arguments, "**arguments: Any"], result)


def stub() -> str:
    """Returns the text of calls.pyi."""
    # black leaves no line between two classes without a body.
    text = re.sub(NEXT_EMPTY, r"\1", HEAD + "".join(map(response, NUMBERED.values())), flags=re.M)
    text += "\nclass Commands(Knowledge):\n"
    text += method("def by", ["self", "uses: Sequence[Means]", "handle: int"], "Sequence[Means]")
    arguments = ["self", "code: CC", "those: Sequence[Handle]", "uses: Sequence[Means]"]
    text += method("def asked", [*arguments, "*values: Any"], "Prepared")
    text += "".join(signature("command", it, "Prepared") for it in NUMBERED.values())
    text += any_command("command", "Prepared")
    text += "".join(short(name, code) for name, code in short_names.COMMANDS.items())
    text += "\nclass Calls(Commands):\n"
    text += method("def send", ["self", "prepared: Prepared"], "Response")
    text += "".join(signature("call", it, f"{it.name}Response") for it in NUMBERED.values())
    return text + any_command("call", "Response")


if __name__ == "__main__":
    (pathlib.Path(__file__).resolve().parents[1] / PLACE).write_text(stub(), "ascii")
