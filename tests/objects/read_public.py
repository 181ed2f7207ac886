"""Makes read_public.tpm. TPM2_ReadPublic returns an object's public area; its Name, which is
nameAlg and the hash of that area; and its qualified Name, which depends on the Names of all objects
above it. It needs no authorization.
"""

from tests.common.steps import Steps
from tests.common.vocabulary import CC, command, digest, hmac_key, number, RH_NULL, RH_OWNER, sealed
from tests.common.vocabulary import SHA1, SHA256, storage_key

tpm = Steps(__name__, __doc__, starts=False)

tpm("Before TPM2_Startup: INITIALIZE").public(0x8000_0000)
tpm.startup()
transient = (0x8000_0000, 0x8000_0007, 0x8000_0008, 0x80FF_FFFF)
persistent = (0x8100_0000, 0x81FF_FFFF)
tpm.refuses_others(tpm.public, 0xFFFF_FFFF, transient=transient, persistent=persistent)
tpm.raw("Three bytes of a handle: INSUFFICIENT/h1", command(CC.ReadPublic, b"\x80\0\0"))

tpm.chapter("Qualified names: of a primary object, of its child, and of that one's child.")
for hierarchy, name in ((RH_OWNER, "TPM_RH_OWNER"), (RH_NULL, "TPM_RH_NULL")):
    qualified = number(hierarchy, 4)
    handles = [tpm.create_primary(f"A storage key in {name}", hierarchy, storage_key())]
    for algorithm, what in (
        (SHA1, "A storage key under it, with nameAlg SHA-1"),
        (SHA256, "A storage key under that key, with nameAlg SHA-256"),
    ):
        handles.append(tpm.below(f"{what}: TPM2_Create", handles[-1], storage_key(algorithm)))
    ranks = (SHA256, "The first"), (SHA1, "The second"), (SHA256, "The third")
    for handle, (algorithm, what) in zip(handles, ranks):
        public, answered = tpm.read_public(f"{what}: TPM2_ReadPublic", handle)
        qualified = number(algorithm, 2) + digest(algorithm, qualified + public.name)
        assert answered == qualified
    tpm.flush_objects("The objects are flushed", *handles)

tpm.chapter("Faults in the command.")
key = tpm.owned('An HMAC key, whose value is "a"', hmac_key(), user_auth=b"a", data=b"key")
whole = tpm.public(key)
tpm.says("A byte after the handle: SIZE", whole.but(parameters=b"\0"))
tpm("A password, as it needs none: HANDLE/s1").public(key, b"a")
session, other = tpm.start("A session", aes=True), tpm.start("Another session")
tpm.read_public("TPM2_ReadPublic with both", key, session, other)
tpm.read_public("With outPublic encrypted", key, session.encrypting)
said = tpm("There is no parameter to decrypt: ATTRIBUTES/s1")
said.refused(tpm.public(key, session).but_entry(1, attributes=0x21))
stranger = tpm.owned("Another object", sealed(), data=b"secret")
bound = tpm.start("A session that is bound to the HMAC key", bind=key)
case = "With its hmac, which has the Name of the HMAC key in it, for the other object: BAD_AUTH/s1"
tpm.refused(case, tpm.public(key, bound).but(handles=[stranger]))
tpm.read_public("For the right one", key, bound)
tpm.flush_objects("Both objects are flushed", key, stranger)
tpm.says("The objects no longer exist: REFERENCE_H0", tpm.public(key), tpm.public(stranger))
