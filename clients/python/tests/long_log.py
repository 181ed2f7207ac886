"""Writes a log of at least COUNT common commands: `long_log.py COUNT`. One command in twenty has a
wrong HMAC.
"""

import contextlib
import random
import sys

from tpmsim.caller import area, BY_VALUE, Caller, counter, FIRST, hmac_key, Refused, wrong
from tpmsim.device import ModelDevice
from tpmsim.standard import AES, RH_OWNER, SE_POLICY, SHA256, XOR

PCRS = 0, 1, 4, 7, 11, 16


class Usual:
    """A caller with an index, a counter, a key and two sessions."""

    def __init__(self, seed):
        self.pick = random.Random(seed)
        self.device = ModelDevice(seed=b"%d" % seed)
        self.tpm = Caller(self.device, self.pick.randbytes)
        self.tpm.start_up()
        self.index = self.tpm.define(area(FIRST, BY_VALUE), auth=b"value")
        self.counter = self.tpm.define(counter(FIRST + 1))
        self.key = self.tpm.create_primary(hmac_key(), data=b"key", user_auth=b"pin")
        self.plain = self.tpm.session(cipher=AES)
        self.bound = self.tpm.session(RH_OWNER, cipher=XOR)
        self.kinds = 3 * [self.measure] + 2 * [self.write] + [self.compute, self.count, self.draw]
        self.kinds += [self.policy, self.slip]

    def measure(self):
        self.tpm.send(self.tpm.event(self.pick.randbytes(8), b"", pcr=self.pick.choice(PCRS)))

    def write(self):
        self.tpm.send(self.tpm.writing(self.index, self.pick.randbytes(8), self.plain.decrypting))

    def compute(self):
        self.tpm.send(self.tpm.hmac(self.key, self.pick.randbytes(20), SHA256, self.plain))

    def count(self):
        self.tpm.send(self.tpm.incrementing(self.counter))

    def draw(self):
        self.tpm.call("GetRandom", uses=[self.bound.encrypting], bytesRequested=16)

    def policy(self):
        session = self.tpm.session(kind=SE_POLICY)
        self.tpm.send(self.tpm.pcrs(session, [(SHA256, [7, 11])]))
        self.tpm.send(self.tpm.flush(session))

    def slip(self):
        if self.pick.random() >= 0.5:
            with contextlib.suppress(Refused):
                self.tpm.send(wrong(self.tpm.hmac(self.key, b"text", SHA256, self.plain)))


def main(count):
    usual = Usual(7)
    while sum(it.startswith(("do ", "cmd ")) for it in usual.device.trace) < count:
        for _ in range(50):
            usual.pick.choice(usual.kinds)()
    print("\n".join(usual.device.trace))


if __name__ == "__main__":
    main(int(sys.argv[1]))
