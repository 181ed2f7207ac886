"""Finds the scripts of the tests and the examples. Makes those that are not there yet."""

import atexit
import functools
import os
import pathlib
import shutil
import subprocess
import sys
import tempfile

from tests.common.made import COMPLETE, EXHAUSTIVE, sources, TOP


@functools.cache
def folder() -> pathlib.Path:
    """Returns the folder of the scripts. This is TPMSIM_MADE, which the tests of a run share, or
    else a temporary folder.
    """
    told = os.environ.get("TPMSIM_MADE")
    if told:
        return pathlib.Path(told)
    made = tempfile.mkdtemp()
    atexit.register(shutil.rmtree, made)
    return pathlib.Path(made)


def make(*names: str) -> None:
    """Makes the scripts with these names in the folder. They are made in another process, where the
    Python device is never altered.
    """
    maker = str(TOP / "tests" / "common" / "made.py")
    flags = ["-S", "-B"] if sys.dont_write_bytecode else ["-S"]
    made = subprocess.run(
        [sys.executable, *flags, maker, str(folder()), *names], capture_output=True, text=True
    )
    if made.returncode:
        raise RuntimeError(made.stdout + made.stderr)


def named(*names: str) -> list[pathlib.Path]:
    """Returns the scripts with these names. The trace of a script appears in the folder last."""
    found = {it.stem: folder() / it.relative_to(TOP).with_suffix(".tpm") for it in sources(*names)}
    missing = [it for it in found if not found[it].with_suffix(".trace").exists()]
    if missing:
        make(*missing)
    return [found[it] for it in names]


def scripts(*places: str) -> list[pathlib.Path]:
    """Returns all scripts for devices of the symmetric profile, or those of some folders, such as
    tests/nv. They are sorted by their paths, but the exhaustive ones come last.
    """
    known = {str(it.parent.relative_to(TOP)): it.parent.name for it in sources()}
    wanted = places or [it for it, name in known.items() if name != COMPLETE]
    asked = [it for it in sources() if str(it.parent.relative_to(TOP)) in wanted]
    asked.sort(key=lambda it: (it.stem in EXHAUSTIVE, it))
    return named(*(it.stem for it in asked))


def script(name: str) -> pathlib.Path:
    return named(name)[0]
