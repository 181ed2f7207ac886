"""The commands of the completing layer that need no context (TPM 2.0 Library, Part 3, sections
10.3, 10.4, 15.4 and 30.3). Each function returns the bytes of the response after the header.
"""

from typing import Callable

from tpmsim.model.complete_commands import MOST_ALGORITHMS, NO_ALGORITHMS
from tpmsim.model.completion_words import refusal_words
from tpmsim.model.general import Refusal
from tpmsim.model.machine import Model, ROWS as DEVICE_ROWS
from tpmsim.model.parameters import Parameters, Request
from tpmsim.standard import CC

INCREMENTAL_SELF_TEST, GET_TEST_RESULT, HASH, TEST_PARMS = 0x142, 0x17C, 0x17D, 0x18A


def incremental_self_test(device: Model, parameters: Parameters) -> bytes:
    """Unlike a device of the complete profile, the layer also takes algorithms that the device does
    not implement.
    """
    algorithms = parameters.next()
    algorithms.take(2 * algorithms.count(MOST_ALGORITHMS))
    parameters.end()
    return NO_ALGORITHMS


Row = Callable[[Model, Parameters], bytes]


def of_device(command: CC) -> Row:
    """Returns the row with which a device of the complete profile answers a command."""

    def row(device: Model, parameters: Parameters) -> bytes:
        return DEVICE_ROWS[command](device, Request([], parameters, 0, b"")).parameters

    return row


ROWS: dict[int, tuple[Row, str]] = {
    INCREMENTAL_SELF_TEST: (incremental_self_test, "no algorithm is left to be tested"),
    GET_TEST_RESULT: (of_device(CC.GetTestResult), "all tests succeeded"),
    HASH: (of_device(CC.Hash), "the digest, and its ticket"),
    TEST_PARMS: (of_device(CC.TestParms), "the device takes these parameters"),
}


def answer(device: Model, code: int, parameters: bytes) -> tuple[bytes, str, str]:
    """Returns the response after the header, the name of the response code if the command is
    refused, and what the layer did.
    """
    row, words = ROWS[code]
    try:
        return row(device, Parameters(parameters)), "", words
    except Refusal as refusal:
        return b"", refusal.name, refusal_words(code, refusal)
