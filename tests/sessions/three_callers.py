"""Scripts in which three callers use one device. The first caller measures into PCR 10 and reads it.
The second one unseals data with a policy on PCR 10. The third one writes an NV index in an HMAC
session, and sends one command again. callers_in_turn.py, callers_in_reverse_turn.py and
callers_one_after_another.py make these scripts.

The response to each command depends on the commands that were accepted before it. After each
command, the device is compared with the state that its history determines. The response to
TPM2_PCR_Read is compared too.
"""

import copy

from tpmsim.caller import area, HERE, sealed, storage_key
from tpmsim.model.history import History
from tpmsim.standard import CC, digest, digests, policy, RH_NULL, RH_OWNER, selection, SHA256
from tpmsim.standard.nv import Attribute
from tpmsim.standard.objects import Attribute as ObjectAttribute
from tests.common.script import Script, told_head
from tests.common.script_caller import ScriptCaller

CHOSEN = [(SHA256, [10])]
SECRET = b"the secret"
EXTENDED = digest(SHA256, bytes(64))
AUTH_POLICY = policy.after_pcr(SHA256, bytes(32), selection(*CHOSEN), digest(SHA256, EXTENDED))
ONCE_WRITTEN = Attribute.AUTHREAD | Attribute.AUTHWRITE


class Stage:
    """A script of several callers, and the history of the device."""

    def __init__(self, name, told):
        self.script, self.history = Script(name, told_head(told)), History()
        self.script.device.tell = self.history.add
        self.callers = [ScriptCaller(self.script) for _ in range(3)]
        for number, caller in enumerate(self.callers, 1):
            caller.nonces = 1000 * number

    def check(self):
        differences = list(self.history.differences(self.script.device))
        assert not differences, differences

    def sends(self, caller, what, prepared):
        """Sends a command that may be refused."""
        device = copy.deepcopy(self.script.device)
        device.tell = lambda event: None
        refused = device.execute(prepared.buffer(), 0, self.script.random).refused
        if refused:
            caller.fails(f"{what}: {refused}", prepared)
        else:
            caller.does(what, prepared)


def extending(caller, handle):
    return caller.prepare(CC.PCR_Extend, [handle], digests((SHA256, bytes(32))), b"")


def measuring(stage, caller):
    """Extends PCR 10 with zeros and reads it; later extends it again."""
    yield caller.says("The first caller extends PCR 10 by zeros: SUCCESS", extending(caller, 10))
    for _ in range(2):
        reading = caller.prepare(CC.PCR_Read, [], selection(*CHOSEN))
        response = caller.says("The first caller reads PCR 10: SUCCESS", reading)
        assert response.endswith(stage.history.pcrs.values[SHA256][10])
        yield
        on_null = "The first caller extends TPM_RH_NULL, which changes nothing"
        yield caller.says(f"{on_null}: SUCCESS", extending(caller, RH_NULL))
    yield caller.says("The first caller extends PCR 10 again: SUCCESS", extending(caller, 10))


def unsealing(stage, caller):
    """Tries to unseal data whose policy requires the value that PCR 10 has after it has been
    extended once with zeros.
    """
    parent = caller.create_primary("The second caller makes a storage key", RH_OWNER, storage_key())
    yield
    template = sealed(attributes=HERE | ObjectAttribute.NO_DA, auth_policy=AUTH_POLICY)
    made = caller.create("The second caller creates sealed data", parent, template, data=SECRET)
    yield
    handle = caller.load("The second caller loads them", parent, made)
    yield
    session = caller.policy("The second caller starts a policy session")
    yield
    stage.sends(caller, "The second caller asserts PCR 10 as it is", caller.pcrs(session, CHOSEN))
    yield
    stage.sends(caller, "The second caller asks for the data", caller.unsealing(handle, session))
    yield


def replaying(stage, caller):
    """Writes an index in a session, and sends the same buffer once more."""
    public = area(attributes=ONCE_WRITTEN)
    index = caller.define("The third caller defines an index", public, auth=b"a")
    yield
    first = caller.writing(index, bytes(8))
    yield caller.does("The third caller writes the index once, by the password", first)
    session = caller.start("The third caller starts an HMAC session")
    yield
    writing = caller.writing(index, b"8 bytes.", session)
    yield caller.does("The third caller writes in the session", writing)
    yield caller.fails("The third caller sends the same buffer again: AUTH_FAIL/s1", writing)
    yield caller.says("The third caller flushes the session: SUCCESS", caller.flush(session))


PLAYS = measuring, unsealing, replaying


def interleaved(plays, is_in_turn):
    """Yields after each command. Either each caller sends one command in turn, or each sends all
    its commands before the next caller.
    """
    if not is_in_turn:
        for play in plays:
            yield from play
        return
    left = list(plays)
    while left:
        for play in list(left):
            if next(play, StopIteration) is StopIteration:
                left.remove(play)
            yield


def script_of_three(name, told, order=(0, 1, 2), is_in_turn=True):
    """Returns the script of the callers in this order. `name` is the name of the module of the
    script's program, and `told` is its docstring.
    """
    stage = Stage(name, told)
    stage.script.startup()
    plays = [PLAYS[it](stage, stage.callers[it]) for it in order]
    for _ in interleaved(plays, is_in_turn):
        stage.check()
    return stage.script
