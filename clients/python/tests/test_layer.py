"""Tests the responses of the completing layer: plays the programs of tests/library on the Python
device alone. Those tests also compare the Python device with the library.
"""

import contextlib
import io
import pathlib
import unittest
from types import ModuleType

from tests.library import contexts, saved_sequences, sequence_sessions, sequences


class Responses(unittest.TestCase):
    def check(self, program: ModuleType) -> None:
        """Compares the output of a program with its expected output."""
        path = pathlib.Path(program.__file__ or "")
        with contextlib.redirect_stdout(io.StringIO()) as printed:
            program.main()
        expected = path.with_name(f"library_{path.stem}.out").read_text("ascii")
        self.assertEqual(printed.getvalue(), expected)

    def test_contexts(self) -> None:
        self.check(contexts)

    def test_sequences(self) -> None:
        self.check(sequences)

    def test_saved_sequences(self) -> None:
        self.check(saved_sequences)

    def test_sequence_sessions(self) -> None:
        self.check(sequence_sessions)


if __name__ == "__main__":
    unittest.main()
