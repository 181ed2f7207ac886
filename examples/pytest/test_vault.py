"""Tests the vault. Each test gets its own device from the fixture `tpm`."""

import pytest
from tpmsim.caller import Refused

import vault

SECRET, PIN = b"8 bytes.", b"7391"


def test_the_pin_opens(tpm):
    vault.store(tpm, SECRET, PIN)
    assert vault.fetch(tpm, len(SECRET), PIN) == SECRET


def test_another_pin_is_refused(tpm):
    vault.store(tpm, SECRET, PIN)
    with pytest.raises(Refused) as refused:
        vault.fetch(tpm, len(SECRET), b"1234")
    assert refused.value.code == "AUTH_FAIL/s1"


def test_wrong_pins_lock_it(tpm):
    vault.store(tpm, SECRET, PIN)
    for _ in range(3):
        with pytest.raises(Refused):
            vault.fetch(tpm, len(SECRET), b"1234")
    with pytest.raises(Refused) as refused:
        vault.fetch(tpm, len(SECRET), PIN)
    assert refused.value.name == "LOCKOUT"
    tpm.device.wait(3_600_000)
    assert vault.fetch(tpm, len(SECRET), PIN) == SECRET
