"""Makes nv_locks.tpm. Locks: WRITEDEFINE permanently locks a written index against writing.
WRITE_STCLEAR and READ_STCLEAR lock an index until the next TPM2_Startup(CLEAR), and CLEAR_STCLEAR
makes it unwritten then.
"""

import contextlib
from functools import partial

from tests.common.vocabulary import area, bits, BY_OWNER, CLEAR, extended, FIRST, NvAttribute
from tests.common.vocabulary import RH_OWNER, SECOND, Teller

DEFINE, WRITE_CLEAR = NvAttribute.WRITEDEFINE, NvAttribute.WRITE_STCLEAR
READ_CLEAR, CLEARED = NvAttribute.READ_STCLEAR, NvAttribute.CLEAR_STCLEAR
WRITTEN, WRITE_LOCKED = NvAttribute.WRITTEN, NvAttribute.WRITELOCKED
READ_LOCKED = NvAttribute.READLOCKED
DATA = b"8 bytes."

tpm = Teller(__name__, __doc__)
start = tpm.power_cycle


def write(what="TPM2_NV_Write", index=FIRST):
    tpm(what).writing(index, DATA, by=RH_OWNER)


def write_lock(what="TPM2_NV_WriteLock"):
    tpm(what).write_locking(FIRST, by=RH_OWNER)


def read_lock(what="TPM2_NV_ReadLock"):
    tpm(what).read_locking(FIRST, by=RH_OWNER)


def not_read(words="TPM2_NV_Read: NV_LOCKED"):
    tpm(words).reading(FIRST, 8, by=RH_OWNER)


not_written = partial(write, "TPM2_NV_Write: NV_LOCKED")
without_data = partial(not_read, "TPM2_NV_Read: NV_UNINITIALIZED")
read = partial(tpm.read, "TPM2_NV_Read", FIRST, DATA, by=RH_OWNER)


def takes(*steps):
    for step in steps:
        step()


def is_now(what, cleared=0):
    tpm.is_now(what, FIRST, cleared=cleared)


def define(attributes, make=area):
    names = " and ".join(it.name for it in NvAttribute if it & attributes)
    tpm.define(f"With {names or 'none of these'}", make(FIRST, BY_OWNER | attributes))


@contextlib.contextmanager
def defined(attributes, make=area):
    define(attributes, make)
    yield
    tpm("The index is undefined").undefining(FIRST)


tpm.chapter("Which locks an index allows: neither attribute affects the other lock.")
for attributes in (0, CLEARED, READ_CLEAR, READ_CLEAR | CLEARED):
    with defined(attributes):
        write_lock("TPM2_NV_WriteLock: ATTRIBUTES/h2")
for attributes in (0, CLEARED, DEFINE, WRITE_CLEAR, DEFINE | WRITE_CLEAR):
    with defined(attributes):
        read_lock("TPM2_NV_ReadLock: ATTRIBUTES/h2")

tpm.chapter("WRITEDEFINE.")
for more in (0, WRITE_CLEAR):
    with defined(DEFINE | more):
        takes(write, write_lock)
        is_now("The index has WRITELOCKED")
        takes(not_written, read)
        write_lock("TPM2_NV_WriteLock again")
        start()
        is_now("The index is locked after a start, too")
        takes(not_written, read)

tpm.chapter("WRITEDEFINE, locked before it is written: only until the next start.")
with defined(DEFINE):
    takes(write_lock, not_written, without_data, start)
    is_now("The index is not locked any more", WRITE_LOCKED)
    takes(write, start)
    is_now("An index that was not locked is not locked")
    write("TPM2_NV_Write again")

tpm.chapter("WRITE_STCLEAR.")
for before in ([write], []):
    with defined(WRITE_CLEAR):
        takes(*before, write_lock, not_written, start)
        is_now("After a start the index is not locked", WRITE_LOCKED)
        takes(write, read)

tpm.chapter("READ_STCLEAR.")
with defined(READ_CLEAR):
    read_lock("TPM2_NV_ReadLock before it is written")
    is_now("The index has READLOCKED")
    not_read("TPM2_NV_Read: that it is locked is found before that it is not written: NV_LOCKED")
    write("TPM2_NV_Write, which this lock does not mind")
    not_read()
    read_lock("TPM2_NV_ReadLock again")
    start()
    is_now("After a start it is open", READ_LOCKED)
    takes(read, read_lock, not_read)

tpm.chapter("Both locks, and each lock without the other.")
with defined(WRITE_CLEAR | READ_CLEAR):
    takes(write, read_lock, write_lock, not_read, not_written, start)
    is_now("After a start neither lock is set", WRITE_LOCKED | READ_LOCKED)
    takes(write_lock, read, start)
    is_now("After a start", WRITE_LOCKED)
    takes(read_lock, write)

tpm.chapter("CLEAR_STCLEAR: the data go with each start.")
for make, change, name in (
    (area, lambda: tpm.writing(FIRST, DATA, by=RH_OWNER), "TPM2_NV_Write"),
    (bits, lambda: tpm.setting(FIRST, 5, by=RH_OWNER), "TPM2_NV_SetBits"),
    (extended, lambda: tpm.extending(FIRST, DATA, by=RH_OWNER), "TPM2_NV_Extend"),
):
    with defined(CLEARED, make):
        tpm.does(name, change())
        start()
        is_now("The index is not written", WRITTEN)
        without_data()
        tpm.does(name, change())
        is_now("The index is written")

tpm.chapter("A partial write before the start has no effect on the next first write.")
with defined(CLEARED):
    tpm("TPM2_NV_Write of two bytes").writing(FIRST, b"ab", by=RH_OWNER)
    start()
    tpm("TPM2_NV_Write at 6").writing(FIRST, b"yz", offset=6, by=RH_OWNER)
    tpm.read("TPM2_NV_Read", FIRST, b"\xff" * 6 + b"yz", by=RH_OWNER)

tpm.chapter(
    "CLEAR_STCLEAR with WRITEDEFINE: the index is not written any more, so it is not locked."
)
with defined(CLEARED | DEFINE):
    takes(write, write_lock, not_written, start)
    is_now("The index has neither WRITTEN nor WRITELOCKED", WRITTEN | WRITE_LOCKED)
    write()

tpm.chapter("An index with all these attributes.")
with defined(CLEARED | DEFINE | WRITE_CLEAR | READ_CLEAR):
    takes(write, write_lock, read_lock, not_written, not_read, start)
    is_now("The index is as it was defined", WRITTEN | WRITE_LOCKED | READ_LOCKED)
    takes(without_data, write, read)

tpm.chapter("TPM2_Startup clears the locks, not the power cycle.")
with defined(WRITE_CLEAR | READ_CLEAR | CLEARED):
    takes(write, write_lock, tpm.power)
    tpm("TPM2_NV_ReadPublic: INITIALIZE").index_public(FIRST)
    start()
    is_now("After two power cycles and a start", WRITTEN | WRITE_LOCKED)
    write()
    tpm("TPM2_Startup(CLEAR) on a device that is started: INITIALIZE").starting(CLEAR)
    is_now("Changes nothing")

tpm.chapter("A lock affects only one index.")
define(WRITE_CLEAR | READ_CLEAR)
tpm.define("Another index", area(SECOND, BY_OWNER | WRITE_CLEAR | READ_CLEAR))
takes(write, write_lock, read_lock)
write("TPM2_NV_Write of the other", SECOND)
tpm.read("TPM2_NV_Read of it", SECOND, DATA, by=RH_OWNER)
takes(not_written, not_read)
tpm("TPM2_NV_UndefineSpace of what is locked").undefining(FIRST)
define(WRITE_CLEAR | READ_CLEAR)
is_now("The index is not locked when it is defined again")
takes(write, read)
