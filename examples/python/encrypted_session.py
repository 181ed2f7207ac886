"""A session that is bound to the owner encrypts a secret on its way to the TPM. The owner's
authorization value is not sent at all. An eavesdropper learns neither the secret nor this value,
and cannot send the same bytes again successfully.
"""

from tpmsim.caller import area, BY_OWNER, Caller, Refused
from tpmsim.device import Answered, Device, Transport
from tpmsim.standard import AES, RH_OWNER

SECRET, OWNER = b"a secret of 24 bytes, ok", b"the owner's value"


class Way:
    """A connection to a TPM, with an eavesdropper."""

    def __init__(self, device: Transport) -> None:
        self.device, self.heard = device, b""

    def execute(self, buffer: bytes) -> Answered:
        answered = self.device.execute(buffer)
        self.heard += buffer + answered.response
        return answered

    def told(self, what: bytes) -> str:
        return "heard" if what in self.heard else "not heard"


with Device() as device:
    tpm = Caller(device)
    tpm.start_up()
    tpm.call("HierarchyChangeAuth", RH_OWNER, newAuth=OWNER)
    tpm.auth_values[RH_OWNER] = OWNER

    way = tpm.device = Way(device)
    index = tpm.define(area(attributes=BY_OWNER, size=len(SECRET)), tpm.session(bind=RH_OWNER))
    session = tpm.session(bind=RH_OWNER, cipher=AES)
    tpm.send(tpm.writing(index, SECRET, session.decrypting, by=RH_OWNER))
    read = tpm.reading(index, len(SECRET), session.encrypting, by=RH_OWNER)
    print("Read:", tpm.send(read)["data"].decode())
    print("The secret was", way.told(SECRET))
    print("The owner's value was", way.told(OWNER))
    print("Sent again: refused by", way.execute(read.buffer()).check)

    tpm.auth_values[RH_OWNER] = b"a guess"
    guess = tpm.session(bind=RH_OWNER, cipher=AES)
    try:
        tpm.send(tpm.reading(index, len(SECRET), guess.encrypting, by=RH_OWNER))
    except Refused as refused:
        print("By a guess:", refused)
