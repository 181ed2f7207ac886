"""What the commands' own checks refuse, A1 to A7: for each of them a command that is refused, after
what makes it so.
"""

from tpmsim.caller.entries import Prepared
from tpmsim.caller.examples import adjusting_rate, setting_clock, testing
from tpmsim.caller.knowledge import STATE
from tpmsim.refusals.own_indices import OF_INDICES
from tpmsim.refusals.own_objects import OF_OBJECTS
from tpmsim.refusals.own_sessions import OF_SESSIONS
from tpmsim.refusals.stage import Stage
from tpmsim.refusals.ways import far, LAST, Ways
from tpmsim.standard import ALG_NULL, CC, RH_LOCKOUT, RH_PLATFORM, SHA256


def cleared(stage: Stage) -> Prepared:
    stage.tpm.send(stage.tpm.clear_control(RH_PLATFORM, 1))
    return stage.example()


OF_DEVICE: Ways = {
    (CC.Startup, "A1"): lambda stage: stage.tpm.starting(STATE),
    (CC.GetCapability, "A1"): lambda stage: stage.tpm.capability(0, 0, 1),
    (CC.GetCapability, "A2"): lambda stage: stage.tpm.capability(1, 0x0400_0000, 1),
    (CC.IncrementalSelfTest, "A1"): lambda stage: testing(stage, ALG_NULL),
    (CC.ClockSet, "A1"): lambda stage: setting_clock(stage, LAST),
    (CC.ClockRateAdjust, "A1"): lambda stage: adjusting_rate(stage, 4),
    (CC.PCR_Extend, "A1"): lambda stage: stage.tpm.command(
        "PCR_Extend", 17, digests=[(SHA256, bytes(32))]
    ),
    (CC.PCR_Extend, "A2"): far,
    (CC.PCR_Event, "A1"): lambda stage: stage.tpm.event(b"event", b"", pcr=17),
    (CC.PCR_Event, "A2"): far,
    (CC.PCR_Reset, "A1"): lambda stage: stage.tpm.reset(b"", pcr=0),
    (CC.PCR_Reset, "A2"): far,
    (CC.Clear, "A1"): cleared,
    (CC.Clear, "A2"): far,
    (CC.ClearControl, "A1"): lambda stage: stage.tpm.clear_control(RH_LOCKOUT, 0),
}

OWN: Ways = {**OF_DEVICE, **OF_SESSIONS, **OF_OBJECTS, **OF_INDICES}
