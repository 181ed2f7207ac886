"""Makes hierarchy_change_auth.tpm. TPM2_HierarchyChangeAuth changes the authorization value of a
hierarchy or of TPM_RH_LOCKOUT. The old value authorizes the command.
"""

from tests.common.steps import AUTHORIZED
from tests.common.vocabulary import CC, command, frames, number, RH_ENDORSEMENT, RH_LOCKOUT, RH_NULL
from tests.common.vocabulary import RH_OWNER, RH_PLATFORM, SHA1, sized, Teller, Use

tpm = Teller(__name__, __doc__, starts=False)
change = tpm.change_auth


def owners(parameters):
    """Returns a TPM2_HierarchyChangeAuth of TPM_RH_OWNER with these parameters, authorized with
    ownerAuth.
    """
    return tpm.prepare(CC.HierarchyChangeAuth, [RH_OWNER], parameters, b"owner")


tpm("Before TPM2_Startup: INITIALIZE").change_auth(RH_OWNER, b"abc", b"")
tpm.startup()

tpm.chapter(
    "Each of the four handles, with passwords. Every authorization value is empty at first."
)
for handle, name, new in AUTHORIZED:
    # The script lockout_authorization tests wrong values for TPM_RH_LOCKOUT.
    tried = handle != RH_LOCKOUT
    if tried:
        tpm(f'{name} by the password "x": BAD_AUTH/s1').change_auth(handle, new, b"x")
    tpm.accepted(f'{name} by the empty password, to "{new.decode()}"', change(handle, new, b""))
    if tried:
        tpm("The empty password once more: BAD_AUTH/s1").change_auth(handle, new, b"")
    tpm.accepted("By the new password, to the same value", change(handle, new, new))
said = tpm("The value of another entity does not authorize: BAD_AUTH/s1")
others = (RH_OWNER, b"endorsement"), (RH_ENDORSEMENT, b"owner"), (RH_PLATFORM, b"lockout")
said.says(*(change(handle, b"x", value) for handle, value in others))

tpm.chapter("Handles and parameters that are refused.")
others = RH_NULL, 0, 0x8000_0000, 0x8100_0000, 0x0100_0000, 0x0200_0000, frames.RS_PW
case = "TPM_RH_NULL, whose value stays empty, PCR 0, an object, an NV index and a session: VALUE/h1"
tpm.says(case, *(change(it, b"", b"") for it in others))
tpm.raw("No handle: INSUFFICIENT/h1", command(CC.HierarchyChangeAuth, b"", frames.SESSIONS))
said = tpm("No sessions (tag 8001): AUTH_MISSING")
said.raw(command(CC.HierarchyChangeAuth, number(RH_OWNER, 4) + sized(b"abc")))
said = tpm("No newAuth, half of its size field, and a truncated newAuth: INSUFFICIENT/p1")
said.says(*map(owners, (b"", b"\0", b"\0\x03ab", b"\0\x20" + bytes(31))))
said = tpm("A newAuth of 33 bytes, letters or zeros, whole or truncated: SIZE/p1")
long = b"a" * 33, bytes(33), b"owner" + bytes(28)
said.says(*map(owners, map(sized, long)), owners(b"\0\x21"))
tpm.says("A byte after newAuth: SIZE", owners(sized(b"abc") + b"\0"))
tpm("None of these commands changed the value").change_auth(RH_OWNER, b"owner", b"owner")

tpm.chapter("Sizes, and trailing zeros, which do not count.")
longest = b"0123456789abcdef" * 2
tpm.accepted("32 bytes", change(RH_OWNER, longest, b"owner"))
tpm("By its first 31 bytes: BAD_AUTH/s1").change_auth(RH_OWNER, b"owner", longest[:31])
tpm.accepted('By all of them, to "abc" and 29 zeros', change(RH_OWNER, b"abc" + bytes(29), longest))
tpm.accepted('By "abc", to "abc" again', change(RH_OWNER, b"abc", b"abc"))
tpm.accepted('By "abc" and a zero, to "a", a zero and "c"', change(RH_OWNER, b"a\0c", b"abc\0"))
said = tpm('By "ac", and by a zero and "a": BAD_AUTH/s1')
said.says(*(change(RH_OWNER, b"", it) for it in (b"ac", b"\0a")))
tpm.accepted(
    "By that value, to 32 zeros, which are the empty value", change(RH_OWNER, bytes(32), b"a\0c")
)
tpm.accepted("By the empty password, to one zero", change(RH_OWNER, b"\0", b""))
tpm.accepted('By two zeros, to "owner"', change(RH_OWNER, b"owner", b"\0\0"))

tpm.chapter(
    "In a session that is bound to the entity, the key of the command's hmac lacks the "
    "authorization value. The key of the response's hmac contains the new value, since the binding "
    "has ended."
)
for handle, name, old in AUTHORIZED:
    session = tpm.start(f"TPM2_StartAuthSession: bound to {name}", bind=handle)
    tpm(f'{name} to "new"').change_auth(handle, b"new", session)
    said = tpm('Now with "new" in the command\'s key, to "newer"|which is in the response\'s key')
    said.change_auth(handle, b"newer", session)
    said = tpm("Back to the first value, which the response's key does not contain")
    said.change_auth(handle, old, session)
    said = tpm("The session is bound again|even if the value stays the same")
    said.change_auth(handle, old + b"\0", session)
    said = tpm(
        "To the empty value, in a session that ends|and the response's key contains no value"
    )
    said.change_auth(handle, b"", Use(session, 0))
    tpm.accepted("By the empty password, to the first value", change(handle, old, b""))

tpm.chapter("Sessions that are not bound to the entity.")
unbound = tpm.start("TPM2_StartAuthSession: bound to nothing, of SHA-1", algorithm=SHA1)
to_owner = tpm.start("TPM2_StartAuthSession: bound to TPM_RH_OWNER", bind=RH_OWNER)
for session, words in ((unbound, "The first"), (to_owner, "The second")):
    said = tpm(f'{words} on TPM_RH_PLATFORM, from "platform" to "p"')
    said.change_auth(RH_PLATFORM, b"p", session)
    tpm("Back to the earlier value").change_auth(RH_PLATFORM, b"platform", session)
said = tpm("A password changes ownerAuth, while a session is bound to TPM_RH_OWNER")
said.accepted(change(RH_OWNER, b"another", b"owner"))
said = tpm('The session needs "another" in the key, and sets "owner" again')
said.change_auth(RH_OWNER, b"owner", to_owner)
tpm("Then the session needs no value in the key").change_auth(RH_OWNER, b"owner", to_owner)

tpm.chapter("An empty key and an empty hmac, if the key does not stay empty.")
tpm.accepted("ownerAuth is empty", change(RH_OWNER, b"", b"owner"))
said = tpm('An empty hmac of the unbound session, to "owner", is answered by an empty one')
said.change_auth(RH_OWNER, b"owner", unbound)
tpm("If the key becomes empty, the response still has an hmac").change_auth(RH_OWNER, b"", unbound)
said = tpm('A computed hmac of the empty key, to "owner", is answered by one of the new key')
said.change_auth(RH_OWNER, b"owner", Use(unbound, shows_empty_key=True))

tpm.chapter("What a power cycle and a TPM Reset leave unchanged.")
tpm.power()
tpm.auth_values[RH_PLATFORM] = b""
tpm.startup()
said = tpm("platformAuth is now empty, so its old value fails: BAD_AUTH/s1")
said.change_auth(RH_PLATFORM, b"platform", b"platform")
tpm.accepted("TPM_RH_PLATFORM by the empty password", change(RH_PLATFORM, b"platform", b""))
for handle, name, value in AUTHORIZED:
    tpm.accepted(f"{name} by its value", change(handle, value, value))
