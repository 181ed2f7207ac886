"""Makes nv_secret.tpm. A secret of 32 bytes, such as the key of a disk, is stored in an NV index
that a password protects. The boot loader asks for the password, reads the secret through a session
that encrypts it, and locks the index: nobody can read it again before the next start, even with the
password.
"""

import hashlib

from tpmsim.caller import area, Use
from tpmsim.standard import CC, CONTINUE_SESSION, DECRYPT, ENCRYPT, frames, RH_OWNER
from tpmsim.standard.nv import Attribute
from tests.common.teller import Example

SECRET_INDEX = 0x0100_0020
SECRET = hashlib.sha256(b"the volume key of a disk").digest()
PASSWORD = b"correct horse"
DECRYPTS, ENCRYPTS = CONTINUE_SESSION | DECRYPT, CONTINUE_SESSION | ENCRYPT

tpm = Example(__name__, __doc__)


def start():
    tpm.power_cycle()
    tpm.publics[SECRET_INDEX] = tpm.publics[SECRET_INDEX].but(cleared=Attribute.READLOCKED)


def bound_session(what):
    return tpm.start(what, bind=SECRET_INDEX, aes=True)


tpm.chapter("PROVISIONING, once.")
tpm.startup()
tpm(
    'Where nobody listens, the owner sets ownerAuth to "cradle" (TPM2_HierarchyChangeAuth with the '
    "empty password)"
).does(tpm.change_auth(RH_OWNER, b"cradle", b""))
owner = tpm(
    "TPM2_StartAuthSession of an HMAC session that is bound to TPM_RH_OWNER, with AES-128 in mode "
    "CFB. The session key is derived from both nonces and from ownerAuth, which is not sent"
).start(bind=RH_OWNER, aes=True)
public = area(
    SECRET_INDEX,
    Attribute.OWNERWRITE | Attribute.AUTHREAD | Attribute.WRITEALL | Attribute.READ_STCLEAR,
    size=len(SECRET),
)
assert public.attributes == 0x8004_1002
tpm(
    "TPM2_NV_DefineSpace of 01000020 with OWNERWRITE, AUTHREAD, WRITEALL and READ_STCLEAR "
    "(attributes 80041002), 32 bytes, and the password as its authorization value, which the "
    "session encrypts. The owner can write the index, and the password authorizes reading it"
).define(public, Use(owner, DECRYPTS), auth=PASSWORD)
tpm(
    "TPM2_NV_Write of the secret by the owner, also encrypted. From now on the index has the "
    "attribute WRITTEN, and therefore another Name"
).does(tpm.writing(SECRET_INDEX, SECRET, Use(owner, DECRYPTS), by=RH_OWNER))
said = tpm("TPM2_NV_Write of a part, although WRITEALL requires the whole: NV_RANGE")
said.fails(tpm.writing(SECRET_INDEX, SECRET[:16], Use(owner, DECRYPTS), by=RH_OWNER))
said = tpm("TPM2_NV_Read by the owner, although the index has no OWNERREAD: NV_AUTHORIZATION")
said.fails(tpm.reading(SECRET_INDEX, len(SECRET), owner, by=RH_OWNER))
tpm("TPM2_FlushContext of the session").flush(owner)

tpm.chapter("THE NEXT START. The boot loader asks for the password.")
start()
tpm(
    "TPM2_NV_ReadPublic. From the public area the boot loader computes the Name, on which the "
    "hmacs depend"
).is_now(SECRET_INDEX)
tpm.auth_values[SECRET_INDEX] = b"battery staple"
session = bound_session(
    "Somebody mistypes the password. TPM2_StartAuthSession succeeds, because the password is not "
    "sent. But the device derives the session key from the right password"
)
tpm(
    "TPM2_NV_Read with a wrong hmac. The index has no NO_DA, so it is protected against guesses: "
    "AUTH_FAIL/s1"
).fails(tpm.reading(SECRET_INDEX, len(SECRET), Use(session, ENCRYPTS)))
tpm("TPM2_FlushContext of the session").flush(session)
tpm.auth_values[SECRET_INDEX] = PASSWORD
session = bound_session(
    "With the right password, TPM2_StartAuthSession of the session 02000000, which is bound to the "
    "index, and has AES"
)
read = tpm.reading(SECRET_INDEX, len(SECRET), Use(session, ENCRYPTS))
answer = tpm(
    "TPM2_NV_Read of 32 bytes, with the attributes continueSession and encrypt. The response has "
    "0020 and 32 bytes that only the two sides can decrypt. Its hmac shows that the device sent "
    "them"
).does(read)
assert answer[2:] == SECRET and SECRET not in tpm.last.response
tpm.fails("Somebody who listened sends the same buffer again: AUTH_FAIL/s1", read)
tpm(
    "TPM2_NV_ReadLock in the session. It sets READLOCKED, and so changes the Name. Then the "
    "session is no longer bound to the index, and the password is part of the key of the "
    "response's hmac"
).does(tpm.read_locking(SECRET_INDEX, session))

tpm.chapter("AFTER THE BOOT LOADER nobody can read the secret.")
tpm.fails("TPM2_NV_Read in the session: NV_LOCKED", tpm.reading(SECRET_INDEX, len(SECRET), session))
tpm.fails(
    "TPM2_NV_Read with the right password: NV_LOCKED",
    tpm.reading(SECRET_INDEX, len(SECRET), PASSWORD),
)
tpm.fails("TPM2_NV_Read of one byte: NV_LOCKED", tpm.reading(SECRET_INDEX, 1, PASSWORD))
tpm.is_now("TPM2_NV_ReadPublic: the index has READLOCKED", SECRET_INDEX)
said = tpm("TPM2_Startup without a power cycle does not unlock the index: INITIALIZE")
said.raw(frames.command(CC.Startup, frames.number(0, 2)))
tpm(
    "Nobody can write or remove the index without ownerAuth (TPM2_NV_Write and "
    "TPM2_NV_UndefineSpace with the empty password): BAD_AUTH/s1"
).fails(tpm.writing(SECRET_INDEX, bytes(32), b"", by=RH_OWNER), tpm.undefining(SECRET_INDEX, b""))

tpm.chapter("ANOTHER START. Because of READ_STCLEAR, the index is unlocked again.")
start()
tpm.is_now("TPM2_NV_ReadPublic", SECRET_INDEX)
session = bound_session("TPM2_StartAuthSession of a session that is bound to the index")
tpm.read("TPM2_NV_Read of the secret", SECRET_INDEX, SECRET, Use(session, ENCRYPTS))
tpm("TPM2_NV_ReadLock, with which the session ends").read_locking(SECRET_INDEX, Use(session, 0))
tpm.fails("The session no longer exists: REFERENCE_S0", tpm.reading(SECRET_INDEX, 32, session))
tpm.fails("The index is locked: NV_LOCKED", tpm.reading(SECRET_INDEX, 32, PASSWORD))
