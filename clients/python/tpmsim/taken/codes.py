"""Finds response codes in texts."""

import re
from dataclasses import dataclass
from typing import Iterator

from tpmsim.standard.response_codes import base_of, BY_NAME, LAYER_SHIFT, LAYERS, MEANINGS, OF_TPM

MOST_CODES = 8
CODE_BITS = 0xFFFF

NAME = re.compile(r"(?:TPM_|TPM2_|TSS2_)?(?:RC_)?([A-Z][A-Z_]+[A-Z][0-9]?)(?:/([hps])([0-9]))?")
HEX = re.compile(r"(?:0[xX])?([0-9a-fA-F]{1,8})")
# Codes in the messages of tpm2-tools, libtss2 and Linux, which prints them in decimal.
IN_TEXT = re.compile(
    r"\bA TPM error \(([0-9]{1,10})\)|\b0[xX]([0-9a-fA-F]{2,8})\b"
    r"|\b(?:TPM_RC|TPM2_RC)_([A-Z_]+[A-Z][0-9]?)\b"
)
ABOUT_CODES = re.compile(r"(?i)error|code|fail|\brc\b|response")


@dataclass(frozen=True)
class Code:
    """A response code, and the line of the text that has it."""

    number: int
    line: int = 1

    @property
    def is_known(self) -> bool:
        """Whether the number is a code of the TPM, perhaps in a code of libtss2."""
        return self.layer in OF_TPM and (self.number & CODE_BITS == 0 or self.base in MEANINGS)

    @property
    def layer(self) -> int:
        return self.number >> LAYER_SHIFT

    @property
    def base(self) -> int:
        return base_of(self.number & CODE_BITS)


def code_of(word: str) -> Code | None:
    """Returns the code that a single word names, such as 0x98e, 98e or TPM_RC_AUTH_FAIL."""
    word = word.strip()
    named = NAME.fullmatch(word)
    if named and named[1].removeprefix("RC_") in BY_NAME:
        number = BY_NAME[named[1].removeprefix("RC_")].number
        places = {"h": 0x100, "p": 0x100, "s": 0x100, None: 0}
        more = {"h": 0, "p": 0x40, "s": 0x800, None: 0}[named[2]]
        return Code(number + more + places[named[2]] * int(named[3] or 0))
    hexadecimal = HEX.fullmatch(word)
    if hexadecimal is None:
        return None
    code = Code(int(hexadecimal[1], 16))
    return code if code.is_known or word[:2] in ("0x", "0X") and code.layer in LAYERS else None


def codes_in(text: str) -> list[Code]:
    """Returns the response codes of a text, each once."""
    alone = code_of(text)
    if alone is not None:
        return [alone]
    found = dict[int, Code]()
    for line, it in enumerate(text.split("\n"), 1):
        for code in codes_of_line(it, line):
            found.setdefault(code.number, code)
    return list(found.values())[:MOST_CODES]


def codes_of_line(text: str, line: int) -> Iterator[Code]:
    for decimal, hexadecimal, name in (it.groups() for it in IN_TEXT.finditer(text)):
        if name:
            if name in BY_NAME:
                yield Code(BY_NAME[name].number, line)
            continue
        code = Code(int(decimal) if decimal else int(hexadecimal, 16), line)
        if code.number and code.is_known and (decimal or ABOUT_CODES.search(text)):
            yield code
