"""The commands, which are called by their names in Part 3 or prepared by their short names, and a
response class for each command. All are made from the table of commands,
`tpmsim.standard.commands`. The types of each command are in calls.pyi, which packing/call_types.py
makes from the same table.
"""

import functools
from typing import Any, Callable, Sequence

from tpmsim.caller import short_names
from tpmsim.caller.entries import Means, Prepared, Response, Session
from tpmsim.caller.knowledge import Knowledge
from tpmsim.standard import CC, given, NAMED, NUMBERED, nv, objects, Short
from tpmsim.standard.command_names import NAMES
from tpmsim.standard.commands import ALL_NUMBERED, close_name

# The parameters whose bytes encode a structure: `response.outPublic` is the structure, and
# `response["outPublic"]` its bytes.
STRUCTURES: dict[str, Callable[[bytes], Any]] = {
    "outPublic": objects.Public.read,
    "nvPublic": nv.Public.read,
}


def structure(response: Response, name: str) -> Any:
    """Returns the structure that a parameter contains. Raises ValueError for a structure that the
    device does not support, such as the public area of another TPM's RSA key.
    """
    text = response[name]
    try:
        found = STRUCTURES[name](text)
        if found.text == text:
            return found
    except (Short, ValueError):
        pass
    raise ValueError(f"{name} is a structure that is not read here; its bytes are at [{name!r}]")


def attribute(name: str) -> property:
    """Returns the attribute of a response class for one parameter."""
    if name in STRUCTURES:
        return property(lambda self: structure(self, name), doc=f"{name}, as a structure.")
    return property(lambda self: self[name], doc=f"{name}.")


def response_class(code: CC) -> type[Response]:
    """Returns the class of a command's responses, such as GetRandomResponse."""
    handle = property(lambda self: self.handle, doc="The handle.")
    handles = {it.name: handle for it in code.answered_handles}
    values = {it.name: attribute(it.name) for it in code.answered_parameters}
    names = ", ".join([*handles, *values]) or "nothing"
    facts = {"__doc__": f"The response to TPM2_{code.name}: {names}.", "__module__": __name__}
    return type(f"{code.name}Response", (Response,), {**facts, **handles, **values})


RESPONSES = {code: response_class(code) for code in NUMBERED.values()}
globals().update({it.__name__: it for it in RESPONSES.values()})


def number_of(value: Any) -> Any:
    """Returns the handle of a session; returns any other value unchanged."""
    return value.handle if isinstance(value, Session) else value


def missing(number: int) -> str:
    """Returns why a command has no call."""
    if number in ALL_NUMBERED:
        return "only a device of the complete profile has this command; send its bytes with execute"
    return "tpmsim has no such command"


def named(name: str | CC) -> CC:
    """Returns the command with this name; raises TypeError if there is none."""
    if isinstance(name, CC):
        return name
    if name in NAMED:
        return NAMED[name]
    for number, other in NAMES.items():
        if name == other:
            raise TypeError(f"{name} ({number:X}): {missing(number)}")
    close = close_name(str(name), NAMED)
    hint = f"; did you mean {close}?" if close else ""
    raise TypeError(f"{name} is not a command that the device serves{hint}")


def form_of(code: CC) -> str:
    """Returns the form of a call, such as NV_Read(authHandle, nvIndex, size=, offset=)."""
    handles = [it.name for it in code.handles]
    return f"{code.name}({', '.join([*handles, *(f'{it.name}=' for it in code.parameters)])})"


class Commands(Knowledge):
    """Prepares any command by its name, or by its short name, as in `reading(index, 8)`."""

    def by(self, uses: Sequence[Means], handle: int) -> Sequence[Means]:
        """Returns the uses or, if there are none, the known authorization value of the handle."""
        return uses or [self.auth_value(handle)]

    def asked(
        self, code: CC, those: Sequence[int | str | Session], uses: Sequence[Means], *values: Any
    ) -> Prepared:
        """Prepares a command with a value for each parameter. Without `uses`, the known
        authorization value of the first handle authorizes the command, as a password.
        """
        if len(those) != len(code.handles):
            raise TypeError(f"{code.name} takes {len(code.handles)} handles")
        pairs = zip(code.handles, map(number_of, those))
        numbers = [given.handle(wanted.name, it) for wanted, it in pairs]
        if code.authorized:
            uses = self.by(uses, numbers[0])
        parameters = given.write_in_order(code, *map(number_of, values))
        return self.prepare(code, numbers, parameters, *uses)

    def command(
        self,
        name: str | CC,
        *those: int | str | Session,
        uses: Sequence[Means] = (),
        **arguments: Any,
    ) -> Prepared:
        """Prepares any command. The command and its parameters are named as in Part 3. Raises
        TypeError if there is no such command, or if a handle or a parameter is missing, and BadValue
        if one has a wrong value.
        """
        code = named(name)
        return self.asked(code, those, uses, *given.in_order(code, arguments))

    def __getattr__(self, name: str) -> Callable[..., Prepared]:
        """Returns the method that prepares the command with this short name."""
        if name not in short_names.COMMANDS:
            raise AttributeError(f"{type(self).__name__} has no {name}")
        return functools.partial(self.short, short_names.COMMANDS[name])

    def short(self, code: CC, *those: Any, **named: Any) -> Prepared:
        """Prepares a command from the arguments of its short name."""
        handles, values, uses = short_names.bound(code, those, named)
        return self.asked(code, handles, uses, *values)


class Calls(Commands):
    """Sends any command by its name."""

    def send(self, prepared: Prepared) -> Response:
        """Sends a command and returns the response."""
        raise NotImplementedError

    def call(
        self,
        name: str | CC,
        *those: int | str | Session,
        uses: Sequence[Means] = (),
        **arguments: Any,
    ) -> Response:
        """Sends any command, such as `call("NV_Read", index, index, size=8, offset=0)`, with the
        handles first. Wrong arguments raise the same exceptions as in `command`.
        """
        return self.send(self.command(name, *those, uses=uses, **arguments))


# help(Caller.call) lists the commands.
if Calls.call.__doc__:
    FORMS = "".join(f"\n            {form_of(it)}" for it in NUMBERED.values())
    Calls.call.__doc__ += (
        f"\n        The commands, with their handles and parameters:\n{FORMS}\n        "
    )
