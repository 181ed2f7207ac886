"""Tests a device that is served with --log:

    python3 logged.py PROGRAM COUNT
    python3 logged.py PROGRAM --full FOLDER

The responses that a caller received must agree with the output of `tpmsim run` for the first image
and the log, and with the explanation of the log. The first form tests sessions, indices, a lockout
and restarts; a log that is cut; and COUNT kills. The second form tests a log in a folder on a disk
that gets full.
"""

import contextlib
import pathlib
import random
import shutil
import sys
import threading

from tpmsim.caller import BY_OWNER, BY_VALUE, Caller, HERE, Refused, area, counter, sealed
from tpmsim.device import DeviceEnded, ServedDevice
from tpmsim.explain.play import Play
from tpmsim.standard import AES, RH_OWNER
from tpmsim.standard.objects import Attribute
from client import connected
from tests.common.shims import begun, end, ended, fail, FILE, ran, serving, WELL

MOST_CONNECTIONS = 4294967295
LINES_OF_A_HEAD, LINES_OF_AN_ENTRY = 2, 5
CUTS = 12
LEAST = 20
LIVES = 0.005, 0.05
INDEX, COUNTER = 0x0100_0001, 0x0100_0002


class Run:
    """A run of the program on the current image, with its own log."""

    def __init__(self, program, name, connections, *options, folder=""):
        self.program, self.log = program, pathlib.Path(folder, f"{name}.log")
        self.start = pathlib.Path(f"{name}.start")
        shutil.copy("image", self.start)
        words = [*serving("/dev/urandom"), str(connections), "--log", str(self.log), *options]
        self.process = begun([program, *words])

    def played(self, log):
        """Returns the responses that `tpmsim run` prints for a log, on a copy of the run's first
        image.
        """
        shutil.copy(self.start, "played")
        printed = ran(self.program, "run", "--image", "played", str(log)).output
        return [bytes.fromhex(line) for line in printed.decode("ascii").split()]

    def check(self, responses):
        if self.played(self.log) != responses:
            fail(f"{self.log} is played otherwise than it was answered")
        events = list(Play().events(self.log.read_bytes()))
        if [it.response for it in events] != responses or any(it.differences for it in events):
            fail(f"{self.log} is explained otherwise than it was answered")
        if self.log.stat().st_mode & 0o7777 != 0o600:
            fail(f"{self.log} is not its owner's alone")


def refused(code, tpm, prepared):
    try:
        tpm.send(prepared)
    except Refused as refusal:
        if refusal.name != code:
            fail(f"{refusal}, and not {code}")
    else:
        fail(f"a command was not refused: {code}")


def use_sessions(tpm):
    tpm.start_up()
    tpm.send(tpm.change_auth(RH_OWNER, b"owner", b""))
    session = tpm.session(RH_OWNER, cipher=AES)
    tpm.send(tpm.change_auth(RH_OWNER, b"other", session.decrypting))
    tpm.call("GetRandom", uses=[session.encrypting], bytesRequested=9)
    tpm.send(tpm.change_auth(RH_OWNER, b"", tpm.session()))


def use_indices(tpm):
    tpm.start_up()
    tpm.define(area(INDEX, BY_VALUE | BY_OWNER), auth=b"value")
    tpm.send(tpm.writing(INDEX, b"8 bytes.", tpm.session(INDEX)))
    tpm.send(tpm.reading(INDEX, 8))
    tpm.define(counter(COUNTER))
    for _ in range(5):
        tpm.send(tpm.incrementing(COUNTER))


def use_lockout(tpm):
    tpm.start_up()
    template = sealed(attributes=HERE | Attribute.USER_WITH_AUTH)
    handle = tpm.create_primary(template, data=b"x", user_auth=b"pin")
    for _ in range(3):
        refused("AUTH_FAIL", tpm, tpm.unsealing(handle, b""))
    refused("LOCKOUT", tpm, tpm.unsealing(handle))


def draw(tpm):
    tpm.call("GetRandom", bytesRequested=20)


def count_on(tpm, *others):
    """Starts the device. Then calls `others` and increments the counter again and again, until the
    device ends.
    """
    with contextlib.suppress(DeviceEnded):
        tpm.start_up()
        while True:
            for use in others:
                use(tpm)
            tpm.send(tpm.incrementing(COUNTER))


def answered(*parts):
    """Calls the functions `parts` one after another, each with a caller on a new connection.
    Returns all responses.
    """
    responses = []
    for part in parts:
        connected("socket").close()
        with ServedDevice("socket") as device:
            part(Caller(device))
            responses += [event.response for event in device.events]
    return responses


def check_uses(program, *options):
    """Uses a device in three runs, each with its own log. Returns the last run and its responses."""
    for use in (use_sessions, use_indices, use_lockout):
        run = Run(program, "_".join([use.__name__, *options]), 4, *options)
        responses = answered(use, draw)
        end(run.process)
        run.check(responses)
        pathlib.Path("socket").unlink(missing_ok=True)
    return run, responses


def check_cut(run, responses, chance):
    """If a log is truncated at any offset, its entries before that offset stay valid."""
    text = run.log.read_bytes()
    lines = text.splitlines(keepends=True)
    ends = [
        sum(map(len, lines[:count]))
        for count in range(LINES_OF_A_HEAD + LINES_OF_AN_ENTRY, len(lines) + 1, LINES_OF_AN_ENTRY)
    ]
    if len(ends) != len(responses) or ends[-1] != len(text):
        fail(f"{run.log} has {len(ends)} entries, and not {len(responses)}")
    for _ in range(CUTS):
        size = chance.randrange(len(text))
        pathlib.Path("cut").write_bytes(text[:size])
        whole = sum(end <= size for end in ends)
        if run.played("cut")[:whole] != responses[:whole]:
            fail(f"{run.log}, of which {size} bytes are left, is played otherwise")


def check_killed(program, number, chance):
    """After a kill the log contains each answered command, and at most one more."""
    run = Run(program, f"killed_{number}", MOST_CONNECTIONS)
    timer = threading.Timer(chance.uniform(*LIVES), run.process.kill)

    def until_killed(tpm):
        timer.start()
        count_on(tpm, draw)

    responses = answered(until_killed)
    ended(run.process)
    played = run.played(run.log)
    if played[: len(responses)] != responses or len(played) > len(responses) + 1:
        fail(f"{run.log}, whose device was killed, has not what was answered")


def check_full(program, folder, *options):
    """If a disk gets full, the log and the image still contain all answered commands."""
    run = Run(program, "_".join(["full", *options]), 2, *options, folder=folder)
    responses = answered(count_on)
    end(run.process, FILE)
    if run.played(run.log)[: len(responses)] != responses or len(responses) < LEAST:
        fail(f"{run.log}, whose disk is full, has not what was answered")
    run.log.unlink()
    again = Run(program, "_".join(["again", *options]), 2, folder=folder)
    [*_, number] = answered(lambda tpm: (tpm.start_up(), tpm.send(tpm.reading(COUNTER, 8))))
    end(again.process)
    again.log.unlink()
    # One of the responses is that of TPM2_Startup. `check_uses` has made five increments before.
    more = int.from_bytes(number[16:24], "big") - 5 - (len(responses) - 1)
    label = " ".join(options) or "no option"
    print(f"{label}: commands that are in the image and were not answered: {more}")


def main():
    program = sys.argv[1]
    if ran(program, "run", "--image", "image", "-") != WELL:
        fail("no image is made")
    if sys.argv[2] == "--full":
        check_uses(program)
        shutil.copy("use_lockout.start", "image")
        check_full(program, sys.argv[3])
        shutil.copy("use_lockout.start", "image")
        check_full(program, sys.argv[3], "--save-each")
        return
    chance = random.Random(sys.argv[2])
    check_uses(program, "--save-each")
    shutil.copy("use_sessions_--save-each.start", "image")
    check_cut(*check_uses(program), chance)
    shutil.copy("use_lockout.start", "image")
    for number in range(int(sys.argv[2])):
        check_killed(program, number, chance)
    print("all is in the log that was answered, and is played again")


if __name__ == "__main__":
    main()
