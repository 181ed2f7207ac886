"""Stops a running device, and continues it in other processes. Afterwards its sessions, objects and
contexts must still be usable:

    resumed.py CALLER LIBRARY FOLDER
"""

import sys

from tests.swtpm.called import Called
from tests.swtpm.left_device import LeftDevice, succeeded

caller, library, folder = sys.argv[1:]
device = Called(caller, library, folder, TPMSIM_COMPLETE="1")
device.on()
left = LeftDevice(device)
for turn in range(3):
    device.resume()
    left.write(b"turn %3d" % turn)
    print("the bound session authorizes, and its answer has the right HMAC")
    if turn < 2:
        # The context of the unbound session comes first: a saved session cannot be used.
        succeeded(device, left.loads[1 - turn])
        print("a context is loaded")
    print(left.tpm.send(left.tpm.reading(0x01000001, 8, left.free))["data"])
print(left.tpm.send(left.tpm.unsealing(left.data, left.judged))["outData"])
for line in ("established", "hash data 61"):
    print(*device.told(line, ("TpmEstablished", "Hash_Data")))
device.say("off")
device.on()
left.tpm.start_up()
code = device.execute(left.loads[0]).response[6:10].hex()
print(f"a context from before the power was off: {code}")
device.end()
