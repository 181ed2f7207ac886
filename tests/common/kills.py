"""Kills a served device at random moments, and checks its image after each kill:

    python3 kills.py PROGRAM COUNT SEED          prints whether all checks succeeded
    python3 kills.py PROGRAM COUNT SEED counts   also prints how often kills hit each stage

The test works in the current folder. The device has two indices: a counter, and an index of 8
bytes. Each connection reads both, increments the counter, and writes the counter's new number to
the other index. Therefore both always contain the number of connections that the device has had.

After a client has read all responses, it closes its sending side, and reads to the end of the
stream. Only then is the device saved. Therefore a client cannot know that the device was saved,
until a later connection is answered, or the program ends by itself.

The image must contain the device after the last connection that is known to have ended. If the
client had closed the next connection before the kill, the image may instead contain the device
after that one.
"""

import collections
import contextlib
import hashlib
import pathlib
import random
import shutil
import socket
import sys
import threading
import time

from tpmsim.caller import area, BY_OWNER, Caller, CLEAR, counter, Refused
from tpmsim.device import DeviceEnded, ServedDevice
from tpmsim.standard import RH_OWNER
from tests.common.shims import begun, ended, Ending, serving, WELL

LONGEST_LIVES = [0.005, 0.05]
DIGEST_SIZE = 32
COUNTER, NUMBER = 0x0100_0002, 0x0100_0003
MOST_CONNECTIONS = 4294967295


class Wrong(Exception):
    """A wrong result of the program."""


class Client(Caller):
    """A caller with its own connection."""

    def number(self):
        """Returns the number of connections that the device has had. Checks that both indices
        contain it.
        """
        counter, number = (
            int.from_bytes(self.send(self.reading(it, 8, by=RH_OWNER))["data"], "big")
            for it in (COUNTER, NUMBER)
        )
        if counter != number:
            raise Wrong(f"the counter is {counter}, and the number {number}")
        return counter

    def more(self, number):
        """Adds one to the values of both indices."""
        self.send(self.incrementing(COUNTER, by=RH_OWNER))
        self.send(self.writing(NUMBER, (number + 1).to_bytes(8, "big"), by=RH_OWNER))

    def close(self):
        client = self.device.data.socket
        client.shutdown(socket.SHUT_WR)
        if client.recv(1):
            raise Wrong("there was more than the responses")
        client.close()


def serves(program, connections):
    return begun([program, *serving("/dev/zero"), str(connections)])


def connected(process):
    """Connects a client as soon as the socket exists, and sends TPM2_Startup(CLEAR), even if the
    device is started. Returns None if the program has ended.
    """
    while process.poll() is None:
        try:
            client = Client(ServedDevice("socket"))
        except (FileNotFoundError, ConnectionRefusedError):
            time.sleep(0.0005)
        else:
            client.device.execute(client.starting(CLEAR).buffer())
            return client
    return None


def ends_so(process, wanted):
    given = ended(process)
    if given != wanted:
        raise Wrong(f"a run ended with {given}")


@contextlib.contextmanager
def one_connection(program):
    """Serves one connection. The run must then end well."""
    process = serves(program, 1)
    client = connected(process)
    yield client
    client.close()
    ends_so(process, WELL)


def serve(process, known):
    """Serves connections as long as the program runs. After each step, yields the last number that
    is known to be saved, and whether the next number may be saved too.
    """
    may_be_saved = False
    while client := connected(process):
        # This connection was answered, so the previous one has ended.
        known, may_be_saved = known + may_be_saved, False
        yield known, may_be_saved
        number = client.number()
        if number != known:
            raise Wrong(f"{number} connections, and not {known}, in a run that goes on")
        client.more(number)
        may_be_saved = True
        yield known, may_be_saved
        client.close()


def until_killed(program, known, life):
    """Serves connections until the program is killed. Returns the last values that `serve` yielded,
    and whether a connection was answered.
    """
    process, killed = serves(program, MOST_CONNECTIONS), threading.Event()

    def kill():
        killed.set()
        process.kill()

    timer = threading.Timer(life, kill)
    timer.start()
    may_be_saved, started = False, False
    try:
        for known, may_be_saved in serve(process, known):
            started = True
    except (DeviceEnded, ConnectionResetError, BrokenPipeError):
        if not killed.is_set():
            raise Wrong("a connection failed that was not killed") from None
    finally:
        timer.join()
        ends_so(process, Ending(-9))
    return known, may_be_saved, started


def looked_at(program):
    """Checks that the image of a killed run has the right digest and can be opened. Returns the
    number of connections in it.
    """
    image = pathlib.Path("image").read_bytes()
    if hashlib.sha256(image[:-DIGEST_SIZE]).digest() != image[-DIGEST_SIZE:]:
        raise Wrong("the image is not whole")
    ends_so(serves(program, 0), WELL)
    with one_connection(program) as client:
        return client.number()


def killed(program, known, life, counts):
    """Makes a run that is killed, and checks the image. Returns the number of connections in the
    image.
    """
    first = known
    known, may_be_saved, started = until_killed(program, known, life)
    left = list(pathlib.Path().glob(".[0-9]*"))
    for folder in left:
        shutil.rmtree(folder)
    counts["unserved"] += not started
    counts["image.new"] += pathlib.Path("image.new").exists()
    counts["folder"] += bool(left)
    number = looked_at(program)
    if number not in range(known, known + may_be_saved + 1):
        raise Wrong(f"{number} connections are in the image, and {known} had ended")
    counts["saved"] += number > known
    counts["lost"] += may_be_saved and number == known
    counts["connections"] += number - first
    return number


def main():
    program, count, seed, *rest = sys.argv[1:]
    lives, counts, known = random.Random(int(seed)), collections.Counter(), 1
    with one_connection(program) as client:
        client.define(counter(COUNTER, BY_OWNER))
        client.define(area(NUMBER, BY_OWNER))
        client.more(0)
    for kill in range(1, int(count) + 1):
        life = lives.uniform(0, lives.choice(LONGEST_LIVES))
        try:
            known = killed(program, known, life, counts)
        except (Refused, Wrong) as wrong:
            sys.exit(f"kill {kill} of seed {seed}: {wrong}")
    print(f"{count} kills: each image opened, none older than the last connection that had ended")
    if rest:
        print(
            f"{counts['connections']} connections are in the last image. {counts['unserved']} kills"
            f" fell before the first one was answered. Of the last connection of a run, closed but"
            f" not known to have ended, {counts['saved']} were saved and {counts['lost']} not."
            f" {counts['image.new']} kills left image.new, {counts['folder']} a folder."
        )


main()
