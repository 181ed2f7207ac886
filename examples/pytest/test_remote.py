"""Tests a device that the CI system has started for the job."""

import os

import pytest
from tpmsim.caller import Caller, Refused
from tpmsim.device import ServedDevice, SimulatorDevice


@pytest.fixture
def remote():
    if "TPMSIM_SOCKET" in os.environ:
        device = ServedDevice(os.environ["TPMSIM_SOCKET"])
    elif "TPMSIM_PORT" in os.environ:
        device = SimulatorDevice(os.environ["TPMSIM_HOST"], int(os.environ["TPMSIM_PORT"]))
    else:
        pytest.skip("no device was started for the job")
    with device:
        caller = Caller(device)
        try:
            caller.start_up()
        except Refused as refused:
            assert refused.name == "INITIALIZE"  # it is started already
        yield caller


def test_random_bytes(remote):
    assert len(remote.call("GetRandom", bytesRequested=16)["randomBytes"]) == 16
