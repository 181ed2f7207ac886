"""Tests tpmsim-sweep: small clients that do one thing wrong, and what is reported about each."""

import contextlib
import functools
import io
import json
import os
import pathlib
import signal
import socket
import subprocess
import sys
import tempfile
import unittest
from unittest import mock

from programs import PATIENCE
from tpmsim.caller import area, Caller
from tpmsim.device import Device, DeviceEnded, KeptDevice, library, ServedDevice
from tpmsim.device import SimulatorDevice, SwtpmDevice
from tpmsim.refuse.finding import Event, Met
from tpmsim.standard import RH_OWNER
from tpmsim.sweep import main
from tpmsim.sweep.findings import Finding
from tpmsim.sweep.refusals import FAKED, Only, planned, Refusal, refusals_of
from tpmsim.sweep.runs import has_ended, run, Settings
from tpmsim.sweep.server import Server
from tpmsim.sweep.tpm import SweptTpm

# The first lines of each client. It ends with status 3 if a command is refused elsewhere.
BEGIN = """
import os, signal, sys, time
from tpmsim.caller import Caller, Refused
from tpmsim.device import ServedDevice
tpm = Caller(ServedDevice(os.environ["TPMSIM_SOCKET"], 3600))
def read():
    return tpm.send(tpm.reading(0x01000001, 4, by=0x40000001))["data"]
try:
    session = tpm.session()
    try:
        read()
    except Refused as refused:
        pass
"""

END = """
    tpm.call("FlushContext", flushHandle=session.handle)
except Refused:
    sys.exit(3)
"""

# What each client does when its TPM2_NV_Read is refused, and what is found.
CLIENTS = {
    "right": ("        tpm.call('FlushContext', flushHandle=session.handle); sys.exit(1)", []),
    "dies": (
        "        os.kill(os.getpid(), signal.SIGABRT)",
        [Finding.DIES, Finding.LEAVES_SESSION],
    ),
    "hangs": ("        open(os.environ['HANGS'], 'w').close(); time.sleep(3600)", [Finding.HANGS]),
    "succeeds": (
        "        tpm.call('FlushContext', flushHandle=session.handle); sys.exit(0)",
        [Finding.SUCCEEDS],
    ),
    "goes on": (
        "        tpm.call('GetRandom', bytesRequested=2)",
        [Finding.SUCCEEDS, Finding.GOES_ON],
    ),
    "leaves": ("        sys.exit(1)", [Finding.LEAVES_SESSION]),
}


def client(name):
    """Returns the words of a client that reads an index within a session."""
    act, _ = CLIENTS[name]
    rest = "    tpm.call('GetRandom', bytesRequested=2)\n" if name == "goes on" else ""
    text = BEGIN.replace("        pass", act)
    if name == "goes on":
        text = text.replace(act, "        pass")
    return sys.executable, "-c", text + rest + END


def state():
    """Returns the state text of a device with an index."""
    with Device(seed=b"sweep") as device:
        tpm = Caller(device)
        tpm.start_up()
        index = tpm.define(area(0x01000001, "ownerread|ownerwrite|read_stclear", size=4))
        tpm.send(tpm.writing(index, b"data", by=RH_OWNER))
        return bytes(device.snapshot())


def said(place, request):
    """Sends bytes to a port, and returns the answer that came until the connection's end."""
    with socket.create_connection(place) as connection:
        connection.sendall(request)
        connection.shutdown(socket.SHUT_WR)
        return b"".join(iter(lambda: connection.recv(4096), b""))


def told(place, *numbers):
    """Sends numbers to a port of Microsoft's simulator, and returns the answer."""
    return said(place, b"".join(it.to_bytes(4, "big") for it in numbers))


def settings(words):
    return Settings(tuple(words), state(), PATIENCE)


def main_of(*words):
    """Runs the program, in which a busy machine ends no client by default; returns its status, its
    output and its errors.
    """
    if "--" in words and "--timeout" not in words:
        words = "--timeout", PATIENCE, *words
    output, errors = io.StringIO(), io.StringIO()
    with contextlib.redirect_stdout(output), contextlib.redirect_stderr(errors):
        status = main.main(*map(str, words))
    return status, output.getvalue(), errors.getvalue()


@unittest.skipUnless(library.is_there(), "there is no library")
class Sweeps(unittest.TestCase):
    def setUp(self):
        self.folder = pathlib.Path(self.enterContext(tempfile.TemporaryDirectory()))
        self.text = self.folder / "state"
        self.text.write_bytes(state())
        self.hangs = self.folder / "hangs"
        package = pathlib.Path(main.__file__).parents[2]
        environment = {"PYTHONPATH": str(package), "HANGS": str(self.hangs)}
        self.enterContext(mock.patch.dict(os.environ, environment))

    def swept(self, name, *more):
        """Returns the status of a sweep of a client whose TPM2_NV_Read is refused by A2, and the
        report.
        """
        words = "--from", self.text, "--only", "NV_Read:A2", "--json", *more, "--", *client(name)
        status, output, errors = main_of(*words)
        self.assertEqual(errors, "")
        return status, json.loads(output)

    def has_ended(self, process, seconds):
        """Waits until a client ends or says that it hangs, however busy the machine is."""
        self.assertEqual(seconds, 45)
        while not (ended := has_ended(process, 0.01)) and not self.hangs.exists():
            pass
        return ended

    def test_each_fault_of_a_client_is_found_by_name(self):
        self.enterContext(mock.patch("tpmsim.sweep.runs.has_ended", self.has_ended))
        for name, (_, wanted) in CLIENTS.items():
            with self.subTest(name):
                self.hangs.unlink(missing_ok=True)
                status, found = self.swept(name, "--timeout", 45)
                self.assertEqual([it["check"] for it in found["runs"]], ["A2"])
                self.assertEqual(found["runs"][0]["findings"], [it.value for it in wanted])
                self.assertEqual(found["unrefused"]["findings"], [])
                self.assertEqual(status, 1 if wanted else 0)

    def test_the_time_after_which_a_client_hangs(self):
        words = sys.executable, "-c", "input()"
        with subprocess.Popen(words, stdin=subprocess.PIPE) as process:
            self.assertFalse(has_ended(process.pid, 0.01))
            process.stdin.write(b"\n")
            process.stdin.close()
            self.assertTrue(has_ended(process.pid, PATIENCE))

    def test_the_run_without_a_refusal_is_unchanged(self):
        words = sys.executable, "-c", BEGIN.replace("pass", "raise") + "    print(read())" + END
        ran = run(settings(words), keeps=True)
        self.assertEqual((ran.status, ran.output), (0, b"b'data'\n"), ran.errors)
        self.assertEqual(ran.names, ["StartAuthSession", "NV_Read", "NV_Read", "FlushContext"])
        self.assertEqual({it.met for it in ran.sent}, {Met("ok", 0)})
        self.assertEqual(ran.left, frozenset())
        again = run(settings(words))
        self.assertEqual((again.output, again.sent), (ran.output, ran.sent))

    def test_each_planned_refusal_is_met(self):
        ran = run(settings(client("right")), keeps=True)
        refusals = planned(ran.events, [], None)
        self.assertGreater(len(refusals), 15)
        for refusal in refusals[::5]:
            done = run(settings(client("right")), refusal)
            self.assertEqual(done.trouble, "", refusal)
            self.assertEqual(done.sent[refusal.at].met, refusal.met, refusal)

    def test_what_the_change_placed_is_not_left_by_the_client(self):
        refusal = Refusal(0, "StartAuthSession", Met("A4", 0x903))
        ran = run(settings(client("right")), refusal)
        self.assertEqual((ran.status, ran.left, ran.trouble), (3, frozenset(), ""))

    def test_a_name_is_another_from_the_start(self):
        """An HMAC covers the Name, so that the index is locked before the client reads its Name."""
        text = BEGIN.replace(
            "tpm.reading(0x01000001, 4, by=0x40000001)", "tpm.reading(0x01000001, 4, session)"
        ).replace("    try:", "    tpm.call('NV_ReadPublic', 0x01000001)\n    try:", 1)
        knows = "    tpm.auth_values[0x01000001] = b'pin'\n"
        text = text.replace("        pass", "        sys.exit(4)") + END
        text = text.replace("    tpm.call('NV_ReadPublic'", f"{knows}    tpm.call('NV_ReadPublic'")
        with Device(seed=b"sweep") as device:
            tpm = Caller(device)
            tpm.start_up()
            public = area(0x01000001, "authread|authwrite|read_stclear", size=4)
            index = tpm.define(public, auth=b"pin")
            tpm.send(tpm.writing(index, b"data", b"pin"))
            self.text.write_bytes(bytes(device.snapshot()))
        words = "--from", self.text, "--only", "NV_Read:A2", "--", sys.executable, "-c", text
        _, output, errors = main_of(*words)
        self.assertEqual(errors, "")
        self.assertIn("NV_Read A2 148 NV_LOCKED: 01000001 has READLOCKED from the start\n", output)
        self.assertIn("    status 4\n", output)

    def test_another_client_is_not_refused(self):
        refusal = Refusal(0, "NV_Read", Met("A2", 0x148))
        ran = run(settings(client("right")), refusal)
        self.assertEqual(ran.trouble, "the client sent StartAuthSession, and not NV_Read")
        ran = run(settings(client("right")), Refusal(9, "NV_Read", Met("A2", 0x148)))
        self.assertEqual(ran.trouble, "the client did not send this command")

    def test_text_and_page(self):
        page = self.folder / "page.html"
        words = "--from", self.text, "--only", "NV_Read", "--limit", "2", "-j", "2"
        status, output, _ = main_of(*words, "--html", page, "--", *client("leaves"))
        self.assertEqual(status, 1)
        self.assertIn("2 NV_Read G6 28b HANDLE/h2: 01000001 is gone\n    status 1\n", output)
        self.assertIn("    FINDING: leaves a session loaded\n", output)
        self.assertTrue(output.endswith("findings: 2 leaves a session loaded\n"), output)
        self.assertEqual(page.read_text("utf-8").count('<tr class="found">'), 2)

    def test_a_session_left_without_a_refusal_is_found(self):
        words = sys.executable, "-c", BEGIN.partition("    try:")[0] + "except Refused: sys.exit(1)"
        status, output, _ = main_of("--limit", "1", "--", *words)
        self.assertEqual(status, 1)
        self.assertIn("    FINDING: leaves a session loaded: 02000000\n", output)

    def test_a_device_in_a_folder_stays_as_it_is(self):
        with KeptDevice(self.folder / "tpm") as kept:
            kept.restore(self.text.read_bytes())
            before = kept.snapshot()
            words = "--state", self.folder / "tpm", "--only", "NV_Read:A2", "--", *client("right")
            self.assertEqual(main_of(*words)[0], 0)
            self.assertEqual(kept.snapshot(), before)

    def test_each_run_in_its_own_copy(self):
        (self.folder / "work").mkdir()
        (self.folder / "work" / "given").write_text("given")
        text = BEGIN + "    assert os.listdir() == ['given']; open('made', 'w').close()\n" + END
        words = "--copy", self.folder / "work", "--from", self.text, "--limit", "3", "-j", "2"
        _, output, errors = main_of(*words, "--", sys.executable, "-c", text)
        self.assertEqual(errors, "")
        self.assertIn("3 runs with a refusal", output)
        self.assertEqual(os.listdir(self.folder / "work"), ["given"])

    def test_what_a_client_leaves_running_is_ended(self):
        path = str(self.folder / "open")
        os.mkfifo(path)
        reader = os.open(path, os.O_RDONLY | os.O_NONBLOCK)
        self.addCleanup(os.close, reader)
        text = f"import os, signal\nos.open({path!r}, os.O_WRONLY)\nchild = os.fork()\n"
        text += "if not child: signal.pause()\nprint(child)"
        self.assertGreater(int(run(settings((sys.executable, "-c", text))).output), 0)
        os.set_blocking(reader, True)
        self.assertEqual(os.read(reader, 1), b"", "no process has the file open any more")

    def test_an_interrupt_ends_the_sweep(self):
        # The sweep awaits a client that hangs. A shell's background job ignores interrupts, so that
        # the test might ignore them too.
        words = sys.executable, "-m", "tpmsim.sweep.main", "--from", str(self.text)
        words = *words, "--only", "NV_Read", "--timeout", str(PATIENCE), "--", *client("hangs")
        heed = functools.partial(signal.signal, signal.SIGINT, signal.SIG_DFL)
        with subprocess.Popen(words, stdout=subprocess.PIPE, preexec_fn=heed) as process:
            first = process.stdout.readline()
            process.send_signal(signal.SIGINT)
            said = process.stdout.read()
        self.assertEqual((process.returncode, first[:11]), (130, b"unrefused: "))
        self.assertLess(said.count(b"\n"), 10)

    def test_wrong_use(self):
        for words, said in (
            ((), "there is no COMMAND after --"),
            (("--", "true"), "the command sends nothing to the TPM"),
            (("--", "false"), "the command ends with status 1, even unrefused"),
            (("--", "/nowhere"), "/nowhere: No such file or directory"),
            (("--jobs", "0", "--", "true"), "argument -j/--jobs: '0' is no number from 1 on"),
            (("--only", "NV_Forget", "--", "true"), "argument --only: command takes "),
            (("--only", "NV_Read:A9", "--", "true"), "argument --only: check takes one of G5, "),
            (("--state", self.folder, "--", "true"), "contains no device"),
            (("--state", ".", "--from", ".", "--", "true"), "--state and --from name two devices"),
            (("--from", __file__, "--", "true"), f"{__file__} is no state text: Magic"),
            (("--copy", "/nowhere", "--", "true"), "/nowhere is no folder"),
        ):
            with self.subTest(words):
                status, output, errors = main_of(*words)
                self.assertEqual((status, output), (2, ""))
                self.assertTrue(errors.startswith("tpmsim-sweep: "), errors)
                self.assertIn(said, errors)

    def test_a_page_that_cannot_be_written_is_found_before_the_runs(self):
        words = "--from", self.text, "--html", "/nowhere/page", "--", *client("right")
        status, output, errors = main_of(*words)
        self.assertEqual((status, output), (2, ""))
        self.assertEqual(errors, "tpmsim-sweep: /nowhere/page: No such file or directory\n")

    def test_help(self):
        self.assertEqual(main_of("-h"), main_of("--help"))
        status, output, _ = main_of("--help")
        self.assertEqual(status, 0)
        self.assertTrue(output.startswith("Usage: tpmsim-sweep [OPTION]... -- COMMAND"))
        for finding in Finding:
            self.assertIn(f"\n  {finding.value} ", output)


# A client that reads an index twice in an HMAC session, which covers its Name. It ends with the
# number of the check that refused it, or with a signal.
READS_TWICE = """
import os, signal, sys
from tpmsim.caller import Caller, Refused
from tpmsim.device import ServedDevice
tpm = Caller(ServedDevice(os.environ["TPMSIM_SOCKET"], 3600))
print(tpm.call("NV_ReadPublic", 0x01000001).nvPublic.words)
tpm.auth_values[0x01000001] = b"pin"
session = tpm.session()
for place in 1, 2:
    try:
        tpm.send(tpm.reading(0x01000001, 4, session))
    except Refused as refused:
        if "kill" in sys.argv:
            os.kill(os.getpid(), signal.SIGKILL)
        print(f"{place}: {refused.code}")
        sys.exit(7)
"""


@unittest.skipUnless(library.is_there(), "there is no library")
class Demands(unittest.TestCase):
    def setUp(self):
        self.folder = pathlib.Path(self.enterContext(tempfile.TemporaryDirectory()))
        self.text = self.folder / "state"
        with Device(seed=b"sweep") as device:
            tpm = Caller(device)
            tpm.start_up()
            public = area(0x01000001, "authread|authwrite|read_stclear", size=4)
            tpm.send(tpm.writing(tpm.define(public, auth=b"pin"), b"data", b"pin"))
            self.text.write_bytes(bytes(device.snapshot()))

    def ran(self, *words, client=READS_TWICE, more=()):
        """Runs the program; returns its status, its output and its errors."""
        program = sys.executable, "-m", "tpmsim.sweep.main", "--from", str(self.text)
        words = "--timeout", PATIENCE, *words
        environment = {**os.environ, "PYTHONPATH": str(pathlib.Path(main.__file__).parents[2])}
        words = *program, *map(str, words), "--", sys.executable, "-c", client, *more
        done = subprocess.run(words, env=environment, capture_output=True, text=True, check=False)
        return done.returncode, done.stdout.splitlines()[1:], done.stderr

    def test_one_refusal(self):
        for words, place, said in (
            ("NV_Read:G6", 1, "3 NV_Read G6 18b HANDLE/h1: 01000001 is gone"),
            ("NV_Read:G9:LOCKOUT:2", 2, "4 NV_Read G9 921 LOCKOUT: too many failed tries"),
            (
                "NV_Read:faked:TESTING:2",
                2,
                "4 NV_Read faked 90a TESTING: the command is not executed",
            ),
        ):
            with self.subTest(words):
                status, output, errors = self.ran("--refuse", words)
                self.assertEqual(errors, f"tpmsim-sweep: refused {said}\n")
                self.assertEqual((status, len(output), output[0][0]), (7, 1, str(place)))

    def test_the_status_after_a_signal(self):
        self.assertEqual(self.ran("--refuse", "NV_Read:G6", more=["kill"])[0], 128 + 9)

    def test_from_the_start(self):
        """The Name has the attribute: only from the start, the client knows the changed Name."""
        status, output, errors = self.ran("--refuse", "NV_Read:A2")
        self.assertEqual((status, output), (125, []))
        self.assertIn("nothing was refused: NV_Read cannot be refused by A2 here", errors)
        self.assertTrue(errors.endswith("; with --from-start it can be\n"), errors)
        saved = self.folder / "saved"
        words = "--refuse", "NV_Read:A2:2", "--from-start", "--save", saved
        status, output, errors = self.ran(*words)
        self.assertEqual((status, output), (125, ["1: NV_LOCKED"]))
        self.assertIn("nothing was refused: the client sent only 1 of 2 NV_Read\n", errors)
        status, output, errors = self.ran("--refuse", "NV_Read:A2", *words[2:])
        self.assertEqual((status, output), (7, ["1: NV_LOCKED"]))
        said = "3 NV_Read A2 148 NV_LOCKED: 01000001 has READLOCKED from the start"
        self.assertEqual(errors, f"tpmsim-sweep: refused {said}\n")
        self.assertEqual(saved.stat().st_mode & 0o777, 0o600)
        with KeptDevice(self.folder / "tpm") as kept:
            kept.restore(saved.read_bytes())
            public = Caller(kept).call("NV_ReadPublic", 0x01000001).nvPublic
            self.assertIn("readlocked", public.words)

    def test_what_a_device_is_from_the_start(self):
        words = "--refuse", "NV_Read:G9:LOCKOUT", "--from-start"
        status, output, errors = self.ran(*words)
        self.assertEqual((status, output), (7, ["1: LOCKOUT"]), errors)
        self.assertIn("LOCKOUT: too many failed tries from the start\n", errors)
        status, _, errors = self.ran("--refuse", "NV_Read:A4", "--from-start")
        self.assertEqual(status, 125)
        self.assertIn("no change at the start makes NV_Read meet A4", errors)

    def test_a_client_that_does_not_send_the_command(self):
        for words, said in (
            (["NV_Write:A2"], "the client sent no NV_Write, but NV_ReadPublic StartAuthSession"),
            (["NV_Read:G5:3"], "the client sent only 2 of 3 NV_Read"),
            (["NV_Read:G5:3", "--from-start"], "the client sent only 2 of 3 NV_Read"),
        ):
            status, _, errors = self.ran("--refuse", *words)
            self.assertEqual(status, 125)
            self.assertIn(f"tpmsim-sweep: nothing was refused: {said}", errors)

    def test_wrong_use(self):
        for words, said in (
            (["--refuse", "NV_Forget:A2"], "--refuse: command takes NV_Read or "),
            (["--refuse", "NV_Read:A9"], "--refuse: check takes one of G5, "),
            (["--refuse", "NV_Read:G9:NV_LOCKED"], "--refuse: code takes one of ATTRIBUTES/s1"),
            (["--refuse", "NV_Read"], "--refuse: a refusal takes NAME:CHECK[:CODE][:N], such as"),
            (["--refuse", "NV_Read:A2:0"], "--refuse: a refusal takes NAME:CHECK[:CODE][:N]"),
            (["--refuse", "NV_Read:faked:OK"], "--refuse: code takes one of RETRY, YIELDED, TEST"),
            (["--refuse", "NV_Read:A2", "--json"], "--refuse makes one run, without --only"),
            (["--from-start"], "--from-start and --save need --refuse"),
            (["--refuse", "NV_Read:A2", "--save", "x"], "--save needs --from-start"),
        ):
            with self.subTest(words):
                status, output, errors = main_of(*words, "--", "true")
                self.assertEqual((status, output), (2, ""))
                self.assertIn(said, errors)


class Plans(unittest.TestCase):
    def test_only_and_limit(self):
        with Device() as device:
            Caller(device).start_up()
            events = [
                (bytes(device.snapshot()), Event(bytes.fromhex(it)))
                for it in ("80010000000c0000017b0004", "80010000000a00000181")
            ]
        every = planned(events, [], None)
        self.assertEqual([it.name for it in every], ["GetRandom"] * 6 + ["ReadClock"] * 6)
        self.assertEqual(planned(events, [], 3), every[:3])
        self.assertEqual(planned(events, [Only.of("ReadClock")], None), every[6:])
        self.assertEqual(planned(events, [Only.of("ReadClock:G5")], None), every[6:7])
        self.assertEqual([it.met.code for it in every if it.is_faked], [*FAKED, *FAKED])
        start = events[0][0]
        self.assertEqual(every[0], next(refusals_of(0, start, *events[0])))
        capability = Event(bytes.fromhex("8001000000160000017a000000060000010000000001"))
        codes = [it.met.code for it in refusals_of(0, start, start, capability) if it.is_faked]
        self.assertEqual(codes, [0x922, 0x908, 0x90A])


@unittest.skipUnless(library.is_there(), "there is no library")
class Served(unittest.TestCase):
    def test_a_unix_socket_and_the_protocol_of_swtpm(self):
        tpm = SweptTpm(state())
        self.addCleanup(tpm.close)
        with Server(tpm.execute, tpm.power_cycle) as server:
            places = ("127.0.0.1", server.port), ("127.0.0.1", server.port + 1)
            with ServedDevice(server.path, PATIENCE) as one, SwtpmDevice(
                *places, PATIENCE
            ) as other:
                Caller(one).call("GetRandom", bytesRequested=2)
                other.locality = 3
                Caller(other).call("PCR_Extend", 17, digests="sha256:" + "00" * 32)
                other.power_cycle()
                Caller(other).start_up()
            cut = socket.create_connection(places[0])
            cut.sendall(b"\x80\x01\x00\x00")
            cut.close()
            with ServedDevice(server.path, PATIENCE) as one:
                Caller(one).call("ReadClock")
        self.assertEqual(
            [it.name for it in tpm.sent], ["GetRandom", "PCR_Extend", "Startup", "ReadClock"]
        )
        self.assertFalse(os.path.exists(server.path))

    def test_the_protocol_of_the_simulator(self):
        tpm = SweptTpm(state())
        self.addCleanup(tpm.close)
        with Server(tpm.execute, tpm.power_cycle) as server:
            places = [("127.0.0.1", server.simulator_port + it) for it in (0, 1)]
            with SimulatorDevice("127.0.0.1", server.simulator_port, PATIENCE) as device:
                caller = Caller(device)
                caller.call("GetRandom", bytesRequested=2)
                device.locality = 3
                caller.call("PCR_Extend", 17, digests="sha256:" + "00" * 32)
                device.power_cycle()
                caller.start_up()
            self.assertEqual(told(places[0], 15, 1), bytes.fromhex("000000010000000500000000"))
            for place, *numbers in ((places[0], 5), (places[1], 99), (places[1], 21)):
                self.assertEqual(told(place, *numbers)[:3], bytes(3), "the connection ends")
            self.assertEqual(told(places[1], 2), bytes(4))
            command = bytes.fromhex("00000008" "00" "0000000a" "80010000000a00000181")
            self.assertEqual(said(places[0], command), bytes(8), "there is no power")
            self.assertEqual(told(places[1], 1), bytes(4))
            far = command[:4] + b"\5" + command[5:]
            self.assertEqual(said(places[0], far)[10:14].hex(), "00000907")
            self.assertEqual(said(places[0], command)[10:14].hex(), "00000100")
        names = ["GetRandom", "PCR_Extend", "Startup", "ReadClock"]
        self.assertEqual([it.name for it in tpm.sent], names)

    def test_a_fault_ends_the_client_and_is_raised(self):
        def fails(buffer, locality):
            raise ZeroDivisionError

        with self.assertRaises(ZeroDivisionError), Server(fails, lambda: None) as server:
            with ServedDevice(server.path, PATIENCE) as device, self.assertRaises(DeviceEnded):
                device.execute(bytes(10))


if __name__ == "__main__":
    unittest.main()
