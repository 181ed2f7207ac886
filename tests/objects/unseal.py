"""Makes unseal.tpm. TPM2_Unseal returns the data of a sealed object, if the object authorizes the
command.
"""

from tests.common.steps import aes_key, PROTECTED, RESTRICTED_KEY, Steps
from tests.common.vocabulary import ALG_NULL, CC, HERE, hmac_key, ObjectAttribute, sealed, SHA1
from tests.common.vocabulary import storage_key

tpm = Steps(__name__, __doc__)
refused = tpm.says

tpm.refuses_others(tpm.unsealing)
parent = tpm.owned("A storage key", storage_key())

tpm.chapter("Data of all sizes.")
for size in (1, 15, 16, 17, 127, 128):
    data = bytes(range(size))
    made = tpm.create(f"{size} bytes: TPM2_Create", parent, sealed(), data=data)
    with tpm.loaded("TPM2_Load", parent, made) as handle:
        tpm.unseal("TPM2_Unseal", handle, data)
        tpm.unseal("Once more", handle, data)

tpm.chapter("Authorization by the value.")
for what, value, passwords, wrong in (
    ("The empty value", b"", (b"", b"\0", bytes(32)), (b"\1", b"\0\1")),
    ('"pin"', b"pin", (b"pin", b"pin\0", b"pin" + bytes(29)), (b"", b"pi", b"pin1", b"\0pin")),
    ('"pin" and two zeros', b"pin\0\0", (b"pin", b"pin\0"), (b"", b"pin\0\1")),
    ('"p", a zero and "n"', b"p\0n", (b"p\0n", b"p\0n\0"), (b"p", b"p\0", b"pn")),
    ("32 bytes", b"p" * 32, (b"p" * 32,), (b"p" * 31, b"")),
):
    made = tpm.create(f"{what}: TPM2_Create", parent, sealed(), user_auth=value, data=b"secret")
    with tpm.loaded("TPM2_Load", parent, made) as handle:
        said = tpm("TPM2_Unseal by it, also with zeros after it: SUCCESS")
        said.says(*(tpm.unsealing(handle, it) for it in passwords))
        refused("By others: BAD_AUTH/s1", *(tpm.unsealing(handle, it) for it in wrong))
made = tpm.create("Without noDA", parent, sealed(attributes=PROTECTED), data=b"secret")
with tpm.loaded("TPM2_Load", parent, made) as handle:
    tpm("TPM2_Unseal by another: AUTH_FAIL/s1").unsealing(handle, b"pin")
    tpm.unseal("By the empty one", handle, b"secret")
said, no_value = tpm("Without userWithAuth, and without a policy"), HERE | ObjectAttribute.NO_DA
handle = said.below(parent, sealed(attributes=no_value), user_auth=b"pin", data=b"secret")
session = tpm.start("An HMAC session")
policy = tpm.policy("A policy session")
case = "Nothing authorizes it: the right password, and a wrong one: AUTH_UNAVAILABLE"
refused(case, tpm.unsealing(handle, b"pin"), tpm.unsealing(handle, b"nip"))
tpm("A session does not authorize either: AUTH_UNAVAILABLE").unsealing(handle, session)
tpm("Of either type: AUTH_UNAVAILABLE").unsealing(handle, policy)
tpm.needs_entries(CC.Unseal, handle)
tpm.flush_objects("The object is flushed", handle)

tpm.chapter("Objects other than sealed data are refused.")
for what, public, data, outcome in (
    ("A storage key", storage_key(), b"", "TYPE/h1"),
    ("With nameAlg SHA-1", storage_key(SHA1), b"", "TYPE/h1"),
    ("An AES key", aes_key(), bytes(16), "TYPE/h1"),
    ("An HMAC key", hmac_key(), b"key", "ATTRIBUTES/h1"),
    ("With scheme NULL", hmac_key(scheme=ALG_NULL), b"key", "ATTRIBUTES/h1"),
    ("A restricted one", RESTRICTED_KEY, b"key", "ATTRIBUTES/h1"),
):
    with tpm.held(what, public, user_auth=b"a", data=data) as handle:
        refused("TPM2_Unseal by another value: BAD_AUTH/s1", tpm.unsealing(handle, b"b"))
        refused(f"By the right password: {outcome}", tpm.unsealing(handle))
        refused("With a byte after: SIZE", tpm.unsealing(handle).but(parameters=b"\0"))
