"""Tests the pytest plugin, if pytest is installed, by running pytest in a new folder."""

import importlib.util
import os
import pathlib
import re
import subprocess
import sys
import tempfile
import unittest

import tpmsim
from tpmsim.device import library

TESTS = """
import pytest
from tpmsim.caller import area, BY_VALUE, Refused
from tpmsim.device import ChildDevice, KeptDevice, library, ModelDevice

def test_fresh(tpm):
    assert tpm.call("GetRandom", bytesRequested=4)["randomBytes"]

def test_saved(tpm_saved):
    tpm_saved.device.power_cycle()
    tpm_saved.start_up()
    assert tpm_saved.device.save()[:4] == b"TPMI"

def test_fails(tpm):
    tpm.call("PCR_Reset", 0)

def guess(tpm):
    index = tpm.define(area(attributes=BY_VALUE), auth=b"right")
    tpm.send(tpm.writing(index, b"8 bytes.", tpm.session()))
    tpm.send(tpm.reading(index, 8, b"wrong"))

def test_in_a_child(tpm_of):
    guess(tpm_of(ChildDevice()))

@pytest.mark.skipif(not library.is_there(), reason="there is no library")
def test_in_a_folder(tpm_of, tmp_path):
    guess(tpm_of(KeptDevice(tmp_path / "tpm")))

def test_in_python(tpm_of):
    guess(tpm_of(ModelDevice()))

def restores(tpm):
    index = tpm.define(area(attributes=BY_VALUE), auth=b"right")
    before = tpm.device.snapshot()
    for _ in range(2):
        tpm.device.refuse_next("NV_Write", "G9", "AUTH_FAIL/s1")
        with pytest.raises(Refused):
            tpm.send(tpm.writing(index, b"8 bytes."))
        tpm.device.restore(before)
    tpm.device.power_cycle()
    tpm.start_up()
    tpm.call("ReadClock")

def test_restores_model(tpm_of):
    restores(tpm_of(ModelDevice()))

@pytest.mark.skipif(not library.is_there(), reason="there is no library")
def test_restores_kept(tpm_of, tmp_path):
    restores(tpm_of(KeptDevice(tmp_path / "tpm")))
"""

# Tests that are swept, and what each run is expected to do.
SWEPT = """
import pytest
from tpmsim.caller import area, Refused
from tpmsim.standard import RH_OWNER

ONE = pytest.mark.tpm_sweep(only="NV_Read:A2")

@pytest.fixture
def index(tpm):
    made = tpm.define(area(attributes="ownerread|ownerwrite|read_stclear", size=4))
    tpm.send(tpm.writing(made, b"data", by=RH_OWNER))
    return made

def read(tpm, index):
    return tpm.send(tpm.reading(index, 4, by=RH_OWNER))["data"]

@pytest.mark.tpm_sweep(limit=9)
def test_right(tpm, index):
    assert read(tpm, index) == b"data"

@ONE
def test_succeeds(tpm, index):
    try:
        read(tpm, index)
    except Refused:
        pass

@ONE
def test_dies(tpm, index):
    try:
        read(tpm, index)
    except Refused:
        raise KeyError("lost")

@pytest.mark.tpm_sweep(only=["NV_Read:A2"], raises=KeyError)
def test_reports(tpm, index):
    test_dies(tpm, index)

@ONE
def test_hangs(tpm, index):
    while True:
        try:
            return read(tpm, index) and None
        except Refused:
            pass

@ONE
@pytest.mark.parametrize("size", [2, 4])
def test_sizes(tpm, index, size):
    assert len(tpm.send(tpm.reading(index, size, by=RH_OWNER))["data"]) == size

@pytest.mark.tpm_sweep
def test_fails(tpm):
    tpm.call("PCR_Reset", 0)

@pytest.mark.tpm_sweep
def test_without_tpm():
    pass
"""

NAME = "[1 NV_Read A2 148 NV_LOCKED]"
ENDS = re.compile("^test_it.py::(test_.*?) (PASSED|FAILED) ", re.M)
README = pathlib.Path(__file__).resolve().parents[1] / "README.md"


@unittest.skipUnless(importlib.util.find_spec("pytest"), "there is no pytest")
class Plugin(unittest.TestCase):
    def ran(self, *words, tests=TESTS):
        """Runs the tests in a new folder, and returns the run and the folder."""
        folder = pathlib.Path(self.enterContext(tempfile.TemporaryDirectory()))
        (folder / "test_it.py").write_text(tests)
        told = "-m pytest -p no:cacheprovider -p tpmsim.pytest_plugin test_it.py".split()
        given = {**os.environ, "PYTHONPATH": str(pathlib.Path(tpmsim.__file__).parents[1])}
        choices = {"cwd": folder, "env": given, "capture_output": True, "text": True}
        return subprocess.run([sys.executable, *told, *words], **choices), folder

    def test_coverage(self):
        done, _ = self.ran("--tpm-coverage=state", "-k", "in_python")
        self.assertIn("refusals of the TPM that the tests have met", done.stdout)
        self.assertRegex(done.stdout, r"\nNV_Read +0 +1/\d+\n")
        self.assertIn("\n5 commands, ", done.stdout)

    def test_coverage_of_logs_that_begin_again(self):
        for device in ("model", "kept") if library.is_there() else ("model",):
            done, _ = self.ran("--tpm-coverage=state", "-k", f"restores_{device}")
            self.assertRegex(done.stdout, r"\nNV_Write +0 +1/\d+\n")
            self.assertIn("\n6 commands, ", done.stdout)

    def test_no_coverage(self):
        done, _ = self.ran("-k", "in_python")
        self.assertNotIn("refusals of the TPM", done.stdout)

    @unittest.skipUnless(library.is_there(), "there is no library")
    def test_sweep(self):
        done, _ = self.ran("-v", "--strict-markers", tests=SWEPT)
        ends = dict(ENDS.findall(done.stdout))
        self.assertEqual(sum(it.startswith("test_right[") for it in ends), 9)
        for name, wanted in (
            ("right", "PASSED"),
            ("right[1 NV_Read G5 100 INITIALIZE]", "PASSED"),
            ("right[1 NV_Read faked 922 RETRY]", "PASSED"),
            (f"succeeds{NAME}", "FAILED"),
            (f"dies{NAME}", "FAILED"),
            ("dies", "PASSED"),
            (f"reports{NAME}", "PASSED"),
            (f"hangs{NAME}", "FAILED"),
            (f"sizes[4]{NAME}", "PASSED"),
            ("fails", "FAILED"),
        ):
            self.assertEqual(ends.get(f"test_{name}"), wanted, done.stdout)
        self.assertFalse([it for it in ends if it.startswith("test_fails[")])
        for words in (
            f"{NAME[1:-1]}: 01000001 has READLOCKED\nFINDING: success although refused\n",
            "READLOCKED, and the test raised KeyError('lost')\nFINDING: dies\n",
            "Endless('the test sent 101 commands')\nFINDING: hangs\n",
            "PytestWarning: tpm_sweep needs the fixture tpm\n",
            "PytestWarning: tpm_sweep: the test fails or skips, even unrefused\n",
        ):
            self.assertIn(words, done.stdout)

    @unittest.skipUnless(library.is_there(), "there is no library")
    def test_readme(self):
        _, _, section = README.read_text("utf-8").partition("### Sweep a test")
        done, _ = self.ran("-v", tests=section.split("```python\n")[1].split("```")[0])
        ends = dict(ENDS.findall(done.stdout))
        self.assertEqual(ends["test_define[1 NV_DefineSpace A5 14c NV_DEFINED]"], "PASSED")
        self.assertEqual(set(ends.values()), {"PASSED"}, done.stdout)

    def test_fixtures(self):
        done, folder = self.ran("--tpmsim-html", "pages")
        self.assertEqual(done.returncode, 1, done.stderr)
        for words in (
            f"{4 if library.is_there() else 3} failed, {4 if library.is_there() else 3} passed",
            "the commands that the TPM got",
            "# PCR_Reset L0 +0 A1 00000907",
            "why the TPM refused it",
            "PCR_Reset is refused: LOCALITY (907), by check A1",
            "NV_Read is refused: AUTH_FAIL/s1 (98e), by check G9",
            'authValue wanted  7269676874 "right"',
        ):
            self.assertIn(words, done.stdout)
        page = (folder / "pages" / "test_it.py_test_in_python.html").read_text("utf-8")
        self.assertIn("The password of the entry is not the authValue of", page)
