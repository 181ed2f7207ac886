"""Contexts of objects and sequence objects that were saved in a log, and why such a context can no
longer be loaded.
"""

from dataclasses import dataclass

from tpmsim.model.contexts import Binding, Fault, Head, HEAD_BYTES, read_head, ST_CLEAR
from tpmsim.model.machine import Model
from tpmsim.standard import Fields, RH_NULL


@dataclass(frozen=True)
class Saved:
    """A saved context: the line that saved it, its head (the fields before the contextBlob), and
    the values to which it is bound.
    """

    line: int
    head: Head
    proof: bytes
    binding: Binding


class Contexts:
    def __init__(self) -> None:
        self.saved: dict[bytes, Saved] = {}

    def note(self, line: int, context: bytes, model: Model, start: int) -> None:
        """Notes a context that a line saved, unless it is the context of a session."""
        try:
            head = read_head(Fields(context))
        except Fault:
            return
        bound = model.proofs[head.hierarchy], Binding.of(model, start)
        self.saved[context] = Saved(line, head, *bound)

    def why_wrong(self, context: bytes, model: Model, start: int) -> str:
        """Returns why the integrity value of a context is wrong now, as far as the log shows it."""
        saved = self.saved.get(context)
        if saved is None:
            return self.words_of_similar(context)
        now, then = Binding.of(model, start), saved.binding
        ended = "the device had a TPM Restart or a TPM Resume, and the object has stClear"
        if model.proofs[saved.head.hierarchy] != saved.proof:
            by = "a TPM Reset" if saved.head.hierarchy == RH_NULL else "TPM2_Clear"
            ended = f"{by} changed the proof of its hierarchy"
        elif now.start != then.start:
            ended = "the completing layer has started again"
        elif now.resets != then.resets:
            ended = "a TPM Reset or TPM2_Clear changed resetCount"
        elif saved.head.saved_handle != ST_CLEAR:
            return ""
        return f"Line {saved.line} saved it; since then {ended}."

    def words_of_similar(self, context: bytes) -> str:
        """Returns the line that saved a context with the same head, but with different bytes after
        the head.
        """
        head = context[:HEAD_BYTES]
        lines = [it.line for text, it in self.saved.items() if text.startswith(head)]
        return f"It differs from the context that line {lines[-1]} saved." if lines else ""
