"""A device that is stopped while it has a bound and an unbound HMAC session, a policy session,
objects, contexts of the completing layer, and a dynamic launch. This module also prepares the
commands that the device must accept when it continues.
"""

from tests.swtpm.called import Called
from tpmsim.caller import area, Caller, sealed, storage_key
from tpmsim.caller.entries import Prepared
from tpmsim.standard import command, number, RH_OWNER, SE_POLICY, SHA256
from tpmsim.standard.objects import Attribute

SAVE, LOAD = 0x162, 0x161
INDEX, BANKS = 0x01000001, [(SHA256, [10])]
BY_POLICY = Attribute.FIXED_TPM | Attribute.FIXED_PARENT | Attribute.NO_DA


def succeeded(device: Called, buffer: bytes) -> bytes:
    """Executes a command, which must succeed. Returns the response without its header."""
    response = device.execute(buffer).response
    if any(response[6:10]):
        raise ValueError(f"{buffer.hex()} is answered {response.hex()}")
    return response[10:]


class LeftDevice:
    """A device with sessions, objects and contexts. `loads` are the commands that load the
    contexts. With an older library no context of an object is saved, because later libraries have a
    different format for such contexts.
    """

    def __init__(self, device: Called, is_older: bool = False) -> None:
        self.tpm = tpm = Caller(device)
        tpm.start_up()
        for step in ("start", "data 6b65726e656c", "end"):
            device.done(f"hash {step}", f"Hash_{step.split()[0].capitalize()}")
        tpm.send(tpm.change_auth(RH_OWNER, b"owner", b""))
        tpm.define(area(INDEX), auth=b"index")
        tpm.send(tpm.event(b"event", b"", pcr=10))
        parent = tpm.create_primary(storage_key())
        contexts = [] if is_older else [succeeded(device, command(SAVE, number(parent, 4)))]
        self.data = self.sealed_under(parent)
        tpm.send(tpm.flush(parent))
        self.bound, self.free = tpm.session(RH_OWNER), tpm.session()
        contexts += [succeeded(device, command(SAVE, number(self.free.handle, 4)))]
        self.judged = tpm.session(kind=SE_POLICY)
        self.write(b"at first")
        tpm.send(tpm.pcrs(self.judged, BANKS))
        self.loads = [command(LOAD, it) for it in contexts]

    def sealed_under(self, parent: int) -> int:
        trial = self.tpm.trial()
        self.tpm.send(self.tpm.pcrs(trial, BANKS))
        digest = self.tpm.send(self.tpm.get_digest(trial))["policyDigest"]
        self.tpm.send(self.tpm.flush(trial))
        area = sealed(attributes=BY_POLICY, auth_policy=digest)
        return self.tpm.load(parent, self.tpm.create(parent, area, data=b"secret"))

    def writing(self, data: bytes) -> Prepared:
        return self.tpm.writing(INDEX, data, self.bound, by=RH_OWNER)

    def write(self, data: bytes) -> None:
        self.tpm.send(self.writing(data))

    def buffers(self) -> list[bytes]:
        """Returns the commands that must succeed next, in this order."""
        last = self.tpm.unsealing(self.data, self.judged), self.tpm.reset(self.free)
        writing, unsealing, resetting = (it.buffer() for it in (self.writing(b"goes on."), *last))
        return [writing, unsealing, *self.loads, resetting]
