"""The arguments of a program whose help is one text."""

import argparse
from typing import NoReturn

from tpmsim.explain.main import Usage


class Arguments(argparse.ArgumentParser):
    """Parses arguments. A wrong argument raises Usage. With `help` the program prints its text."""

    def __init__(self, help_text: str | None) -> None:
        super().__init__(add_help=False, allow_abbrev=False)
        self.help_text = (help_text or "").strip()
        self.add_argument("-h", "--help", action="store_true")

    def error(self, message: str) -> NoReturn:
        raise Usage(message)
