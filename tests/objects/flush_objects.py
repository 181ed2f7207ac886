"""Makes flush_objects.tpm. TPM2_FlushContext removes a transient object from the device. There are
eight slots, 80000000 to 80000007; an object gets the lowest free one.
"""

from dataclasses import replace

from tests.common.vocabulary import CC, command, frames, hmac_key, number, RH_NULL, RH_OWNER, sealed
from tests.common.vocabulary import storage_key, Teller

FIRST, PLACES = 0x8000_0000, 8
NEEDLESS = "The storage key, which nothing under it needs any more"

tpm = Teller(__name__, __doc__)


def is_at(place, handle):
    assert handle == FIRST + place


ABSENT = (0x8000_0000, 0x8000_0007, 0x8000_0008, 0x8000_0010, 0x8001_0000, 0x80FF_FFFF)
tpm.says("While there is no object: HANDLE/p1", *map(tpm.flush, ABSENT))
case = "A persistent object is not flushed: VALUE/p1"
tpm.says(case, *map(tpm.flush, (0x8100_0000, 0x81FF_FFFF)))
parent = tpm.create_primary("A storage key, 80000000", RH_OWNER, storage_key())
made = tpm.create("TPM2_Create of sealed data", parent, sealed(), data=b"secret")
for place in range(1, PLACES):
    is_at(place, tpm.load("" if place > 1 else "The object is loaded seven times", parent, made))
tpm("A ninth object: OBJECT_MEMORY").primary(RH_OWNER, storage_key())
tpm.says("Numbers past the eight: HANDLE/p1", *map(tpm.flush, ABSENT[2:]))
said = tpm("With sessions (tag 8002): AUTH_CONTEXT")
said.raw(command(CC.FlushContext, frames.area(frames.entry()) + number(parent, 4), frames.SESSIONS))
tpm.raw("Three bytes of a handle: INSUFFICIENT/p1", command(CC.FlushContext, b"\x80\0\0"))
tpm.raw("A byte after it: SIZE", command(CC.FlushContext, number(parent, 4) + b"\0"))

tpm.chapter("In any order. The lowest place that is free is taken first.")
for places in ((7,), (0,), (3, 1), (2, 5, 4), (6, 0, 7)):
    for place in places:
        words = f"8000000{place}" if place else NEEDLESS
        tpm.flush_objects(words, FIRST + place)
        tpm("Once more: HANDLE/p1").flush(FIRST + place)
        tpm("The object no longer exists: REFERENCE_H0").public(FIRST + place)
    for place in sorted(places):
        said = tpm(f"TPM2_CreatePrimary: it is 8000000{place}")
        is_at(place, said.create_primary(RH_NULL, hmac_key(), data=b"key"))
    tpm("There is no free slot: OBJECT_MEMORY").primary(RH_NULL, hmac_key(), data=b"key")

tpm.chapter("All of them.")
tpm.flush_objects("From the last to the first", *range(FIRST + 7, FIRST - 1, -1))
tpm.says("There is none: HANDLE/p1", *map(tpm.flush, range(FIRST, FIRST + PLACES)))
tpm.chapter("A refused command removes no object, and takes no place.")
parent = tpm.create_primary("A storage key, 80000000", RH_OWNER, storage_key())
tpm("TPM2_CreatePrimary by a wrong password: BAD_AUTH/s1").primary(RH_OWNER, sealed(), b"x")
said = tpm("TPM2_Load with another private area: INTEGRITY/p1")
said.loading(parent, replace(made, private=bytes(60)))
tpm("80000001 is not there: REFERENCE_H0").public(FIRST + 1)
is_at(1, tpm.load("TPM2_Load takes it", parent, made))
tpm.unseal("TPM2_Unseal", FIRST + 1, b"secret")
