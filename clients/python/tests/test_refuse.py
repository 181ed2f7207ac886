"""Tests refusals on demand: each named change brings its row, and the proved device answers."""

import contextlib
import io
import pathlib
import re
import tempfile
import unittest

from tpmsim.caller import area, Caller, Refused
from tpmsim.caller.examples import COMPLETE_EXAMPLES, EXAMPLES, INDEX, LOCKABLE, Scene
from tpmsim.device import Device, KeptDevice, ModelDevice, ServedDevice, Unsupported
from tpmsim.faults import BadValue
from tpmsim.model import state_text
from tpmsim.refusals import refusal
from tpmsim.refuse import rows_near, Unrefusable, Wanted
from tpmsim.refuse.finding import Event, found, Met
from tpmsim.standard import CC, RH_OWNER

README = pathlib.Path(__file__).resolve().parents[1] / "README.md"

# A command, a check, a code, and the words for the least change under which the example of the
# command meets this row.
CHANGES = (
    ("Startup", "G5", 0x100, "TPM2_Startup came already"),
    ("GetRandom", "G5", 0x100, "no TPM2_Startup since a power cycle"),
    ("StartAuthSession", "A4", 0x903, "all slots for sessions are taken"),
    ("CreatePrimary", "A7", 0x902, "all slots for objects are taken"),
    ("CreatePrimary", "G9", 0x9A2, "the authorization value of 40000001 is another"),
    ("PolicyRestart", "G6", 0x910, "session 03000000 is gone"),
    ("PolicyPCR", "A1", 0x128, "a PCR has changed since session 03000000 compared it"),
    ("PolicyOR", "A1", 0x1C4, "session 03000000 has another policy digest"),
    ("PolicyCommandCode", "A1", 0x1C4, "session 03000000 is for NV_UndefineSpace"),
    ("PolicyCpHash", "A2", 0x151, "session 03000000 is for another cpHash"),
    ("PolicyNvWritten", "A1", 0x1C4, "session 03000000 is for an unwritten index"),
    ("PolicyNV", "A5", 0x126, "01000001 holds other data"),
    ("FlushContext", "A2", 0x1CB, "session 03000000 is gone"),
    ("Unseal", "A1", 0x18A, "80000000 is of the other type"),
    ("Unseal", "A2", 0x182, "80000000 has SIGN"),
    ("Unseal", "G6", 0x910, "80000000 is gone"),
    ("Unseal", "G9", 0x12F, "80000000 lacks USER_WITH_AUTH"),
    ("Unseal", "G9", 0x921, "80000000 lacks NO_DA, and too many failed tries"),
    (
        *("Unseal", "G9", 0x98E),
        "80000000 lacks NO_DA, and 80000000 has another authorization value",
    ),
    ("Load", "A5", 0x1DF, "80000000 has another seed"),
    ("Load", "A6", 0x902, "all slots for objects are taken"),
    ("EvictControl", "A1", 0x285, "80000000 is of no hierarchy"),
    ("EvictControl", "A2", 0x282, "80000000 has ST_CLEAR"),
    ("EvictControl", "A5", 0x14C, "81000001 is taken"),
    ("EvictControl", "A6", 0x14B, "all persistent objects are taken"),
    ("NV_DefineSpace", "A5", 0x14C, "01000008 is defined already"),
    ("NV_DefineSpace", "A6", 0x14B, "all indices are defined"),
    ("NV_UndefineSpace", "A1", 0x149, "01000006 has PLATFORMCREATE"),
    ("NV_Read", "A1", 0x149, "01000001 lacks OWNERREAD"),
    ("NV_Read", "A2", 0x148, "01000001 has READLOCKED"),
    ("NV_Read", "A3", 0x14A, "01000001 lacks WRITTEN"),
    ("NV_Read", "A5", 0x146, "01000001 has 0 bytes"),
    ("NV_Write", "A2", 0x148, "01000001 has WRITELOCKED"),
    ("NV_Write", "A3", 0x282, "01000001 is of type COUNTER"),
    ("NV_WriteLock", "A2", 0x282, "01000005 lacks WRITE_STCLEAR"),
    ("NV_Increment", "A4", 0x146, "the largest counter is at its end"),
    ("NV_ChangeAuth", "G8", 0x918, "session 03000000 is gone"),
    ("NV_ChangeAuth", "G9", 0x128, "a PCR has changed since session 03000000 compared it"),
    ("NV_ChangeAuth", "G9", 0x907, "session 03000000 is for locality 1"),
    ("NV_ChangeAuth", "G9", 0x982, "session 03000000 is a trial session"),
    ("NV_ChangeAuth", "G9", 0x9A4, "session 03000000 is for NV_UndefineSpace"),
    ("DictionaryAttackLockReset", "G9", 0x921, "lockoutAuth is disabled"),
    ("Clear", "A1", 0x120, "TPM2_Clear is disabled"),
)


def prepared(name, device):
    """Returns the caller and the example of a command, on a device with what it needs."""
    scene = Scene.on(device)
    return scene.tpm, EXAMPLES[CC[name]](scene)


class Changes(unittest.TestCase):
    def test_each_change_brings_its_row(self):
        for name, check, code, words in CHANGES:
            with self.subTest(f"{name} {check} {code:03x}"), Device() as device:
                _, example = prepared(name, device)
                event, wanted = Event(example.buffer()), Wanted(check, code)
                change = found(bytes(device.snapshot()), event, wanted)
                self.assertEqual((change.words, change.met), (words, Met(check, code)))
                device.restore(change.text)
                answered = device.execute(example.buffer())
                self.assertEqual(answered.check, check)
                self.assertEqual(answered.response[6:10].hex(), f"{code:08x}")

    def test_on_a_device_of_the_complete_profile(self):
        with refusal("ClockSet", "A1").device() as device:
            example = COMPLETE_EXAMPLES[CC.ClockSet](Scene(Caller(device), device.power_cycle))
            device.refuse_next("ClockSet", "A1")
            self.assertEqual(device.execute(example.buffer()).check, "A1")
            change = found(bytes(Device().snapshot()), Event(example.buffer()), Wanted("G4"))
            self.assertEqual((change.words, change.met), ("", Met("G4", 0x143)))

    def test_each_row_near_is_one_that_the_device_meets(self):
        count = 0
        with Device() as device:
            for code, example in EXAMPLES.items():
                device.restore(Device().snapshot())
                buffer = prepared(code.name, device)[1].buffer()
                for change in rows_near(bytes(device.snapshot()), Event(buffer)):
                    device.restore(change.text)
                    answered = device.execute(buffer)
                    met = Met(answered.check, int.from_bytes(answered.response[6:10], "big"))
                    self.assertEqual((met, code), (change.met, code), change.words)
                    count += 1
        self.assertGreaterEqual(count, 180)

    def test_a_change_leaves_a_state_that_a_device_can_be_in(self):
        with Device() as device:
            _, example = prepared("NV_Read", device)
            for change in rows_near(bytes(device.snapshot()), Event(example.buffer())):
                self.assertIsNone(state_text.fault_of(change.text), change.words)


class RefuseNext(unittest.TestCase):
    def test_readme(self):
        """The README's example runs, and prints what its comments say."""
        _, _, section = README.read_text("utf-8").partition("## Refusals on demand")
        code, printed = section.split("```python\n")[1].split("```")[0], io.StringIO()
        with contextlib.redirect_stdout(printed):
            exec(code, {})
        self.assertEqual(printed.getvalue().splitlines(), re.findall(r"  # (.*)", code))

    def test_the_device_stays_changed(self):
        for made in Device, ModelDevice:
            with self.subTest(made.__name__), made() as device:
                tpm, _ = prepared("NV_Read", device)
                device.refuse_next("NV_Read", "A2")
                self.assertEqual(tpm.call("GetRandom", bytesRequested=2).randomBytes[2:], b"")
                with self.assertRaises(Refused) as refused:
                    tpm.send(tpm.reading(INDEX, 4, by=RH_OWNER))
                self.assertEqual(
                    (refused.exception.name, refused.exception.check), ("NV_LOCKED", "A2")
                )
                self.assertIn("readlocked", tpm.call("NV_ReadPublic", INDEX).nvPublic.words)
                with self.assertRaises(Refused):
                    tpm.send(tpm.reading(INDEX, 4, by=RH_OWNER))
                self.assertTrue(device.trace[0].startswith("# state "))

    def test_other_commands_are_as_they_were(self):
        with Device(seed=b"one") as changed, Device(seed=b"one") as other:
            changed.refuse_next("Unseal", "G6")
            for device in changed, other:
                prepared("NV_Read", device)
            self.assertEqual(changed.snapshot(), other.snapshot())
            self.assertEqual(changed.trace, other.trace)

    def test_a_code_selects_one_of_several(self):
        for code, name in (
            ("LOCKOUT", "LOCKOUT"),
            (0x98E, "AUTH_FAIL"),
            ("AUTH_FAIL/s1", "AUTH_FAIL"),
        ):
            with self.subTest(code), Device() as device:
                tpm, example = prepared("Unseal", device)
                device.refuse_next("Unseal", "G9", code)
                with self.assertRaises(Refused) as refused:
                    tpm.send(example)
                self.assertEqual(refused.exception.name, name)

    def test_in_order(self):
        with Device() as device:
            tpm, _ = prepared("NV_Read", device)
            device.refuse_next("NV_ReadPublic", "G6")
            device.refuse_next("NV_Write", "A2")
            with self.assertRaises(Refused) as refused:
                tpm.send(tpm.writing(LOCKABLE, b"8 bytes.", by=RH_OWNER))
            self.assertEqual(refused.exception.check, "A2")
            with self.assertRaises(Refused) as refused:
                tpm.call("NV_ReadPublic", LOCKABLE)
            self.assertEqual(refused.exception.check, "G6")

    def test_what_cannot_be_refused_is_said_and_not_executed(self):
        with Device() as device:
            tpm, _ = prepared("NV_Read", device)
            before = device.snapshot()
            device.refuse_next("GetRandom", "G11")
            with self.assertRaisesRegex(
                Unrefusable, "^GetRandom cannot be refused by G11 here: it meets ok, and none of "
            ):
                tpm.call("GetRandom", bytesRequested=2)
            self.assertEqual(device.snapshot(), before)
            tpm.call("GetRandom", bytesRequested=2)

    def test_no_such_refusal(self):
        for command, check, code in (
            ("NV_Forget", "A2", None),
            ("NV_Read", "A7", None),
            ("NV_Read", "A2", "LOCKOUT"),
        ):
            with self.subTest(f"{command} {check}"), Device() as device:
                self.assertRaises(BadValue, device.refuse_next, command, check, code)

    def test_a_snapshot_before_leads_back(self):
        with Device() as device:
            tpm, example = prepared("Unseal", device)
            before = device.snapshot()
            device.refuse_next("Unseal", "G6")
            with self.assertRaises(Refused):
                tpm.send(example)
            device.restore(before)
            self.assertTrue(tpm.send(example)["outData"])

    def test_an_hmac_session_covers_the_name(self):
        """An attribute is in the Name, so that the HMAC is wrong first: this is said."""
        with Device() as device:
            tpm = Caller(device)
            tpm.start_up()
            index = tpm.define(area(attributes="authread|authwrite"), auth=b"pin")
            session = tpm.session()
            tpm.send(tpm.writing(index, b"8 bytes.", session))
            device.refuse_next("NV_Read", "A2")
            with self.assertRaises(Unrefusable):
                tpm.send(tpm.reading(index, 8, session))

    def test_a_kept_device(self):
        with tempfile.TemporaryDirectory() as folder, KeptDevice(folder) as device:
            tpm, _ = prepared("NV_Read", device)
            device.refuse_next("NV_Read", "A3")
            with self.assertRaises(Refused) as refused:
                tpm.send(tpm.reading(INDEX, 4, by=RH_OWNER))
            self.assertEqual(refused.exception.check, "A3")

    def test_a_device_without_a_state_text(self):
        device = ServedDevice.__new__(ServedDevice)
        with self.assertRaises(Unsupported):
            device.refuse_next("NV_Read", "A2")


if __name__ == "__main__":
    unittest.main()
