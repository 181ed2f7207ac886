"""Tests the list of all refusals, tpmsim-refusals and tpmsim-coverage."""

import contextlib
import io
import json
import pathlib
import tempfile
import unittest
from unittest import mock

from tpmsim.coverage import main as coverage
from tpmsim.coverage.met import Met
from tpmsim.coverage.report import table
from tpmsim.device import ModelDevice
from tpmsim.explain.play import Play
from tpmsim.faults import BadValue
from tpmsim.model import parameter_faults
from tpmsim.model.parameters import integer, READERS
from tpmsim.refusals import main as refusals, refusal
from tpmsim.refusals.made import is_refused, made
from tpmsim.refusals.words import sentence_of
from tpmsim.standard import CC, Fact, Profile
from tpmsim.standard.rows import all_rows, every_row, HEADER_ROWS, Kind, Row, rows_of
from tpmsim.standard.rows import name_of_code

LOG = """do Startup 0
do NV_DefineSpace OWNER pw:- - 01000001000b0002000200000008
do NV_Read OWNER 01000001 pw:- 8 0
cmd 00
"""


def said(main, *words):
    """Returns the status of a program, its output and its errors."""
    out, errors = io.TextIOWrapper(io.BytesIO(), "utf-8"), io.StringIO()
    with mock.patch("sys.stdout", out), contextlib.redirect_stderr(errors):
        status = main(*words)
    return status, out.buffer.getvalue().decode("utf-8"), errors.getvalue()


class Rows(unittest.TestCase):
    def test_of_one_command(self):
        told = [(it.check, it.code_name, it.kind.value) for it in rows_of(CC.PCR_Reset)]
        self.assertEqual(told[0], ("G5", "INITIALIZE", "state"))
        self.assertIn(("G8", "REFERENCE_S1", "session"), told)
        self.assertIn(("G11", "SIZE", "form"), told)
        self.assertEqual([it for it in told if it[0][0] == "A"][0], ("A1", "LOCALITY", "state"))

    def test_each_is_there_once(self):
        self.assertEqual(len(every_row()), len(set(every_row())))
        self.assertEqual(
            len({(it.name, it.check, it.code) for it in every_row()}), len(every_row())
        )

    def test_each_code_has_a_name_and_each_row_a_sentence(self):
        for row in every_row():
            self.assertTrue(name_of_code(row.code))
            self.assertTrue(sentence_of(row))

    def test_kinds(self):
        for row in all_rows():
            if row.kind == Kind.SESSION:
                self.assertRegex(row.code_name, "_S[12]$|/s[23]$")
            if row.is_far:
                self.assertEqual(row.kind, Kind.STATE)

    def test_a_new_parameter_gives_new_rows(self):
        """A parser that a command gets is explored, and its faults are refusals."""
        parameter_faults.parameter_faults.cache_clear()
        readers = (*READERS["get_random"], integer(4), lambda it: it.hash())
        try:
            with mock.patch.dict(READERS, get_random=readers):
                found = parameter_faults.parameter_faults(CC.GetRandom)
        finally:
            parameter_faults.parameter_faults.cache_clear()
        names = ["INSUFFICIENT/p1", "INSUFFICIENT/p2", "INSUFFICIENT/p3", "HASH/p3"]
        self.assertEqual(list(found), names)
        self.assertEqual(found["HASH/p3"], bytes(8))


class Refusals(unittest.TestCase):
    def test_is_refused_by_each_device(self):
        refused = refusal("NV_Write", "A2")
        self.assertEqual(len(refused.script), 4)
        with refused.device() as device, ModelDevice() as model:
            model.restore(refused.state)
            for it in device, model:
                self.assertEqual(it.execute(refused.buffer).response[6:10].hex(), "00000148")

    def test_that_no_script_reaches(self):
        refused = refusal("NV_Increment", "A4")
        with ModelDevice() as device:
            device.restore(refused.state)
            self.assertEqual(device.execute(refused.buffer).check, "A4")

    def test_of_the_complete_profile(self):
        refused = refusal("ClockSet", "A1")
        self.assertEqual(refused.row.kind, Kind.STATE)
        self.assertEqual(refused.script[-1], "do ClockSet OWNER pw:- 0xffffffffffffffff")
        with refused.device() as device, ModelDevice() as model:
            model.restore(refused.state)
            for it in device, model:
                self.assertEqual(it.execute(refused.buffer).check, "A1")

    def test_of_each_command_of_the_complete_profile_alone(self):
        """The model refuses each as listed. tests/python/refusals.py plays them on the program."""
        rows = [it for it in every_row() if it.profile == Profile.COMPLETE]
        names = {it.name for it in rows}
        self.assertEqual(names, {it.name for it in CC if it.has(Fact.COMPLETE_ONLY)})
        for row in rows:
            refused = made(row)
            self.assertTrue(is_refused(row, refused.before, refused.buffer), row)

    def test_scripts_of_the_complete_profile(self):
        for words, last in (
            (("Hash", "G11", "HASH/p2"), "cmd 80010000000e0000017d00000000"),
            (("IncrementalSelfTest", "A1"), "do IncrementalSelfTest 0x10"),
            (("TestParms", "G11", "MODE/p1"), "do TestParms 0025000600800000"),
        ):
            refused = refusal(*words)
            self.assertEqual(refused.script, ["do Startup 0", last])
            with ModelDevice() as model:
                model.restore(refused.state)
                self.assertEqual(model.execute(refused.buffer).check, words[1])

    def test_names(self):
        self.assertEqual(refusal("?", "G2").row, HEADER_ROWS[1])
        self.assertIsInstance(refusal("Unseal", "G6", "HANDLE/h1").row, Row)
        for words, told in (
            (("Sing", "A1"), "command takes one of Startup, "),
            (("nv_reed", "A1"), "command takes NV_Read or another name, not 'nv_reed'"),
            (("NV_Read", "A9"), "check takes one of G5, G6, "),
            (("NV_Read", "G6"), "code takes one of INSUFFICIENT/h1, "),
            (("NV_Read", "A1", "VALUE"), "code takes one of NV_AUTHORIZATION, "),
        ):
            with self.assertRaisesRegex(BadValue, f"^{told}"):
                refusal(*words)

    def test_each_is_explained(self):
        """Why each script is refused is explained. Those with wrong entries would take longest,
        since the explanation tries what could have made them. Each script begins with a power
        cycle, because a command alone is explained as on a started device.
        """
        for row in (*HEADER_ROWS, *all_rows(Profile.SYMMETRIC)):
            refused = made(row)
            if refused.far or row.check in ("G9", "G10"):
                continue
            play = Play()
            play.explains = lambda scene: scene.buffer == refused.buffer
            *_, event = play.events("\n".join(("power", *refused.script)).encode())
            self.assertEqual((event.scene.check, event.refused), (row.check, row.code_name))
            self.assertTrue(event.reason.words and event.reason.sentence)


class RefusalsProgram(unittest.TestCase):
    def test_all(self):
        status, out, _ = said(refusals.main)
        self.assertEqual((status, len(out.splitlines())), (0, len(every_row())))

    def test_of_a_kind(self):
        _, out, _ = said(refusals.main, "GetRandom", "--only", "state")
        self.assertEqual(len(out.splitlines()), 5)
        self.assertEqual(out.split()[:5], ["GetRandom", "G5", "100", "INITIALIZE", "state"])

    def test_one(self):
        _, out, _ = said(refusals.main, "PCR_Reset", "A1")
        lines = out.splitlines()
        self.assertEqual(lines[0], "do Startup 0")
        self.assertEqual(lines[1], "# line 2: PCR_Reset is refused: LOCALITY (907), by check A1")
        self.assertEqual(lines[-1], "do PCR_Reset 00000000 pw:-")

    def test_one_of_the_complete_profile(self):
        _, out, _ = said(refusals.main, "IncrementalSelfTest", "A1")
        lines = out.splitlines()
        self.assertIn("tpmsim run --complete", lines[0])
        told = "# line 2: IncrementalSelfTest is refused: VALUE/p1 (1c4), by check A1"
        self.assertEqual(lines[1:3], ["do Startup 0", told])
        self.assertEqual(lines[3], "#     The device does not implement the algorithm 0010.")
        self.assertEqual(lines[-1], "do IncrementalSelfTest 0x10")

    def test_state(self):
        with tempfile.TemporaryDirectory() as folder:
            file = pathlib.Path(folder, "state")
            status, out, _ = said(refusals.main, "Clear", "A2", "--state", str(file))
            self.assertEqual((status, file.stat().st_mode & 0o777), (0, 0o600))
            with ModelDevice() as device:
                device.restore(file.read_bytes())
            self.assertRegex(out, "^cmd 8002[0-9a-f]*\n$")

    def test_wrong(self):
        for words, told in (
            (("Clear", "A2"), "no script reaches this refusal"),
            (("Clear", "--state", "x"), "--state needs one refusal, and "),
            (("Clear", "A2", "--state", "/none/x"), "/none/x: No such file"),
            (("Clear", "--only", "x"), "argument --only: invalid choice: 'x'"),
            (("--none",), "unrecognized arguments: --none"),
        ):
            status, out, error = said(refusals.main, *words)
            self.assertEqual((status, out), (2, ""))
            self.assertTrue(error.startswith(f"tpmsim-refusals: {told}"), error)

    def test_help(self):
        for main in refusals.main, coverage.main:
            status, out, _ = said(main, "--help")
            self.assertEqual(status, 0)
            self.assertIn("\nOptions:\n", out)


class Coverage(unittest.TestCase):
    def setUp(self):
        self.folder = pathlib.Path(self.enterContext(tempfile.TemporaryDirectory()))
        self.log = self.folder / "log"
        self.log.write_text(LOG)

    def test_counts(self):
        met = Met()
        self.assertEqual(met.add(LOG.encode()), "")
        self.assertEqual(met.used, {"Startup", "NV_DefineSpace", "NV_Read"})
        self.assertEqual(met.commands, 4)
        names = sorted((it.name, it.check) for it in met.refused)
        self.assertEqual(names, [("?", "G1"), ("NV_Read", "A3")])
        self.assertFalse([it for it in met.could() if it.is_far])

    def test_commands_of_the_complete_profile(self):
        refused = refusal("ClockSet", "A1")
        with refused.device() as device:
            device.execute(refused.buffer)
            met = Met()
            met.add("".join(f"{it}\n" for it in device.trace).encode())
        self.assertEqual(list(met.refused), [refused.row])
        self.assertIn(f"1 commands, 1 of {len(CC)} kinds of commands; ", table(met, None)[-1])

    def test_commands_that_another_tpm_answers_otherwise(self):
        met = Met()
        met.add(b"do Startup 0\n# 80010000000a00000100\n")
        self.assertEqual((met.commands, met.differing), (0, 1))

    def test_table(self):
        status, out, _ = said(coverage.main, str(self.log), "--only", "state", "--never")
        self.assertEqual(out.split()[:3], ["command", "accepted", "state"])
        self.assertRegex(out, r"\nNV_Read +0 +1/\d+\n")
        self.assertIn("    never NV_Read A2 NV_LOCKED (148): ", out)
        self.assertNotIn("never NV_Read A3", out)
        self.assertEqual(status, 0)

    def test_least(self):
        told = [said(coverage.main, str(self.log), "--least", it)[0] for it in ("1", "2", "100")]
        self.assertEqual(told, [0, 1, 1])

    def test_folder(self):
        kept = self.folder / "tpm"
        kept.mkdir()
        _, _, error = said(coverage.main, str(kept))
        self.assertEqual(error, f"tpmsim-coverage: {kept} has no journal of a device\n")
        for name in "journal", "journal.1", "journal.12", "journal.new", "lock":
            (kept / name).write_text(LOG if name != "lock" else "no log")
        _, out, _ = said(coverage.main, str(kept), "--only", "state")
        self.assertIn("\n12 commands, ", out)

    def test_json(self):
        _, out, _ = said(coverage.main, str(self.log), "--json", "--only", "state")
        value = json.loads(out)
        self.assertEqual(value["kinds"]["state"]["met"], 1)
        self.assertEqual(value["accepted"], {"Startup": 1, "NV_DefineSpace": 1})
        self.assertEqual(len(value["refusals"]), value["kinds"]["state"]["of"])

    def test_page(self):
        file = self.folder / "page.html"
        said(coverage.main, str(self.log), "--html", str(file))
        page = file.read_text("utf-8")
        self.assertEqual(page.count('class="state met"'), 1)
        self.assertNotIn("http", page)

    def test_wrong(self):
        bad = self.folder / "bad"
        bad.write_text("no line\n")
        for words, told in (
            ((), "LOG is missing"),
            (("/none",), "/none cannot be read"),
            ((str(bad),), f"{bad}: line 1 is no line of a script"),
            ((str(self.log), "--least", "x"), "argument --least: invalid float value: 'x'"),
            ((str(self.log), "--html", "/none/x"), "/none/x: No such file"),
        ):
            status, out, error = said(coverage.main, *words)
            self.assertEqual((status, out), (2, ""))
            self.assertTrue(error.startswith(f"tpmsim-coverage: {told}"), error)


if __name__ == "__main__":
    unittest.main()
