"""Plays the exhaustive scripts on wrong Python devices, each with one error:

    wrong_made.py PROGRAM

There is a wrong device for each script. At least one response of this device must differ from that
of the program. The test prints whether a response differs. The status is 1 if none differs, or if
there is no wrong device for a script.
"""

import sys
from collections.abc import Callable
from typing import Any
from unittest import mock

from tpmsim.model import capability, general, machine, nv_commands, object_rules
from tpmsim.model.general import Answer, Command, Refusal
from tpmsim.model.machine import Model
from tpmsim.model.player import Player
from tpmsim.standard import CC, Fields, Handle, KEYEDHASH, Profile
from tests.common import places
from tests.common.made import EXHAUSTIVE
from tests.common.shims import ran

read_header, read_handles = general.read_header, general.read_handles
check_entry, unwrapped = general.check_entry, object_rules.unwrapped
authorize = Model.authorize


def any_size(fields: Fields, length: int, profile: Profile) -> tuple[int, CC]:
    fields.data = fields.data[:2] + length.to_bytes(4, "big") + fields.data[6:]
    return read_header(fields, length, profile)


def any_tag(fields: Fields, length: int, profile: Profile) -> tuple[int, CC]:
    """Treats any tag other than 8002 as 8001."""
    if fields.data[:2] != b"\x80\x02":
        fields.data = b"\x80\x01" + fields.data[2:]
    return read_header(fields, length, profile)


def other_code(fields: Fields, wanted: tuple[Handle, ...], device: Any) -> list[int]:
    """Refuses the handle of a missing entity with the response code for a handle of the wrong
    kind.
    """
    try:
        return read_handles(fields, wanted, device)
    except Refusal as refusal:
        if refusal.name.startswith("REFERENCE_H"):
            raise Refusal("VALUE/h1", refusal.check) from None
        raise


def any_attributes(*words: Any) -> None:
    try:
        check_entry(*words)
    except Refusal as refusal:
        if not refusal.name.startswith(("ATTRIBUTES", "RESERVED_BITS")):
            raise


def any_private_area(*words: Any) -> object_rules.Sensitive:
    try:
        return unwrapped(*words)
    except Refusal:
        return object_rules.Sensitive(KEYEDHASH, b"", b"", b"x")


def decrypts_first(self: Model, command: Command, locality: int) -> None:
    """Decrypts the first parameter before it checks the entries."""
    self.plain_parameters(command)
    authorize(self, command, locality)


def asserts_nothing(self: Model, request: Any) -> Answer:
    return Answer()


def nothing(*_: Any, **_more: Any) -> None:
    return None


def never(*_: Any) -> bool:
    return False


def put(into: Any, name: str, value: Callable[..., Any] | int) -> Any:
    return mock.patch.object(into, name, value)


def without_effect(code: CC) -> Any:
    return mock.patch.dict(machine.ROWS, {code: asserts_nothing})


ANY_SIZE = "any commandSize is accepted", put(general, "read_header", any_size)
ATTRIBUTES = "any attributes of entries are accepted", put(general, "check_entry", any_attributes)
DECRYPTS = "parameters are decrypted first", put(Model, "authorize", decrypts_first)
WRONG = {
    "cut_commands": ANY_SIZE,
    "bent_commands": ANY_SIZE,
    "turned_commands": ("any tag is accepted", put(general, "read_header", any_tag)),
    "cut_hmac_commands": DECRYPTS,
    "get_capability": ("63 elements at most", put(capability, "MOST_ELEMENTS", 63)),
    "order_of_session_refusals": ATTRIBUTES,
    "order_of_nv_refusals": DECRYPTS,
    "order_of_object_refusals": DECRYPTS,
    "order_of_policy_refusals": DECRYPTS,
    "private_areas": ("any private area", put(object_rules, "unwrapped", any_private_area)),
    "template_refusals": ("any public area", put(object_rules, "check_public", nothing)),
    "sealed_sizes": ("127 bytes of data at most", put(object_rules, "DATA_BYTES", 127)),
    "nv_define_space": ("any size of an index", put(nv_commands, "has_wrong_size", never)),
    "policy_handles": ("another code for a handle", put(general, "read_handles", other_code)),
    "policy_pcr": ("TPM2_PolicyPCR without effect", without_effect(CC.PolicyPCR)),
    "policy_or": ("TPM2_PolicyOR without effect", without_effect(CC.PolicyOR)),
    "policy_nv": ("TPM2_PolicyNV without effect", without_effect(CC.PolicyNV)),
}


def differs(script: bytes, printed: list[str]) -> bool:
    """Returns whether the wrong device's output for a script differs from `printed`."""
    player, wanted = Player(), iter(printed)
    for line in script.splitlines():
        if any(given != next(wanted, "") for given in player.play(line)):
            return True
    return False


def main() -> int:
    assert set(WRONG) == set(EXHAUSTIVE), "an exhaustive script has no wrong device"
    missed = 0
    for path in places.named(*sorted(WRONG)):
        words, patch = WRONG[path.stem]
        printed = ran(sys.argv[1], "run", "--trace", str(path)).output.decode("ascii").splitlines()
        with patch:
            is_found = differs(path.read_bytes(), printed)
        missed += not is_found
        print(f"{path.stem}, {words}: {'found' if is_found else 'NOT FOUND'}")
    return 1 if missed else 0


if __name__ == "__main__":
    sys.exit(main())
