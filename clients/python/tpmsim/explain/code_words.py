"""Response codes as words."""

from tpmsim.standard.response_codes import LAYERS, MEANINGS, OF_TPM, place_of
from tpmsim.taken.codes import Code, CODE_BITS


def is_refusal(code: Code) -> bool:
    """Whether it is a code with which a TPM refuses a command."""
    return code.layer in OF_TPM and code.number & CODE_BITS != 0


def title_of(code: Code) -> str:
    """Returns the name of a code, and where the fault is."""
    number = code.number & CODE_BITS
    if code.layer not in OF_TPM:
        return f"{code.number:#x} is a code of {LAYERS[code.layer]} in libtss2, and not of the TPM"
    if not number:
        return "SUCCESS (000)"
    place = place_of(number)
    return f"{MEANINGS[code.base].name} ({number:03x}){f', {place}' if place else ''}"


def meaning_of(code: Code) -> str:
    """Returns what a code means in general, as a sentence."""
    if code.layer not in OF_TPM:
        return "Its log says what failed: set TSS2_LOG=all+debug, and give that log."
    if not code.number & CODE_BITS:
        return "The TPM accepted the command."
    words = MEANINGS[code.base].words
    return f"{words[0].upper()}{words[1:]}."
