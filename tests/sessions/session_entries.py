"""Makes session_entries.tpm. Entries of sessions in an authorization area: the faults that are
refused before any HMAC is compared. They are checked entry by entry, and the first fault of an
entry counts.
"""

from tests.common.vocabulary import CC, CONTINUE_SESSION, DECRYPT, ENCRYPT, Entry, frames, number
from tests.common.vocabulary import RH_OWNER, RS_PW, SHA256, sized, Teller, Use

STAYS = CONTINUE_SESSION
BOTH = DECRYPT | ENCRYPT

tpm = Teller(__name__, __doc__)

refused = tpm.refused


def entry(session, attributes=STAYS, nonce=b"", hmac=b""):
    return Entry(session if isinstance(session, int) else session.handle, nonce, attributes, hmac)


def with_entries(code, handles, parameters):
    """Returns a function that makes the command with the entries passed to it, without
    computing HMACs.
    """
    prepared = tpm.prepare(code, handles, parameters)
    return lambda *entries: prepared.but(entries=list(entries))


def second(*entries):
    return right.but(entries=right.entries + list(entries))


reset = with_entries(CC.PCR_Reset, [16], b"")
extend = with_entries(CC.PCR_Extend, [16], frames.digests((SHA256, bytes(32))))
event = with_entries(CC.PCR_Event, [16], sized(b"abc"))
read = with_entries(CC.PCR_Read, [], frames.selection((SHA256, [0])))
random = with_entries(CC.GetRandom, [], number(4, 2))
start = with_entries(CC.StartAuthSession, *frames.start_auth_session(bytes(16)))
change = with_entries(CC.HierarchyChangeAuth, [RH_OWNER], sized(b"abc"))

plain = tpm.start("Session 02000000, bound to TPM_RH_OWNER, which cannot encrypt", RH_OWNER)
aes = tpm.start("Session 02000001, bound to it, which can", RH_OWNER, aes=True)
more = tpm.start("Session 02000002, bound to it, which can", RH_OWNER, aes=True)
password = entry(RS_PW)

tpm.chapter("The entries of these sessions have no hmac, which is wrong: they have keys.")
refused("The first on PCR 16: BAD_AUTH/s1", reset(entry(plain)))
refused("After a password: BAD_AUTH/s2", reset(password, entry(plain)))
case = "After a password and a right hmac: BAD_AUTH/s3"
refused(case, tpm.prepare(CC.PCR_Reset, [16], b"", b"", aes, plain).but_entry(3, hmac=b""))

tpm.chapter("A nonce or an hmac of 33 bytes, of a session too.")
case = "In the first entry: SIZE/s1"
refused(case, reset(entry(plain, nonce=bytes(33))), reset(entry(plain, hmac=bytes(33))))
refused("In the second: SIZE/s2", reset(password, entry(plain, nonce=bytes(33))))
refused("In the third: SIZE/s3", reset(password, entry(plain), entry(aes, hmac=bytes(33))))

tpm.chapter("A session that does not exist.")
case = "The next number, and far ones: REFERENCE_S0"
refused(case, *(reset(entry(it)) for it in (0x0200_0003, 0x0200_0010, 0x0200_0100, 0x02FF_FFFF)))
case = "A policy session with the number of an HMAC session: REFERENCE_S0"
refused(case, reset(entry(0x0300_0000)), random(entry(0x0300_0001)))
case = "As the second entry: REFERENCE_S1"
refused(case, reset(password, entry(0x0200_0003)), reset(entry(plain), entry(0x0300_0000)))
refused(
    "As the third: REFERENCE_S2",
    reset(password, entry(plain), entry(0x0200_0003)),
    random(entry(plain), entry(aes), entry(0x0300_0000)),
)

tpm.chapter("A session that occurs twice, or a password that authorizes nothing.")
case = "In the first two entries: HANDLE/s2"
refused(case, reset(entry(plain), entry(plain)), random(entry(plain), entry(plain)))
case = "In the first and the third, and in the second and the third: HANDLE/s3"
refused(
    case, reset(entry(plain), entry(aes), entry(plain)), reset(password, entry(plain), entry(plain))
)
refused("A password after a session: HANDLE/s2", reset(entry(plain), password))
case = "After a session, with nothing to authorize: HANDLE/s2"
refused(case, random(entry(plain), password))

tpm.chapter("Attributes.")
case = "Reserved ones, bit 3 and 4: RESERVED_BITS/s1"
refused(case, *(reset(entry(plain, it)) for it in (0x08, 0x10, 0x18, 0x09, 0xFF)))
refused("In the second entry: RESERVED_BITS/s2", reset(password, entry(aes, 0x18)))
case = "auditExclusive, auditReset and audit (bits 1, 2 and 7), as there are no audit sessions"
refused(
    f"{case}: ATTRIBUTES/s1", *(reset(entry(plain, it)) for it in (0x02, 0x04, 0x80, 0x81, 0x87))
)
case = "In the second entry: ATTRIBUTES/s2"
refused(case, reset(password, entry(aes, 0x80)), random(entry(plain), entry(aes, 0x02)))
refused("In the third: ATTRIBUTES/s3", random(entry(plain), entry(aes), entry(more, 0x04)))
refused(
    "decrypt (bit 5), but the first parameter is no sized buffer: TPM2_PCR_Reset, "
    "TPM2_PCR_Extend, TPM2_PCR_Read and TPM2_GetRandom: ATTRIBUTES/s1",
    *(command(entry(aes, DECRYPT)) for command in (reset, extend, read, random)),
)
refused(
    "encrypt (bit 6), but the first answer is no sized buffer: TPM2_PCR_Reset, "
    "TPM2_PCR_Extend, TPM2_PCR_Event, TPM2_PCR_Read and TPM2_HierarchyChangeAuth: ATTRIBUTES/s1",
    *(command(entry(aes, ENCRYPT)) for command in (reset, extend, event, read, change)),
)
case = "Both, but only one of them is allowed: TPM2_PCR_Event and TPM2_GetRandom: ATTRIBUTES/s1"
refused(case, event(entry(aes, BOTH)), random(entry(aes, BOTH)))
case = "decrypt and encrypt on a password: ATTRIBUTES/s1"
refused(case, change(entry(RS_PW, DECRYPT)), change(entry(RS_PW, ENCRYPT)))
case = "A second session that decrypts: ATTRIBUTES/s2"
refused(case, event(entry(aes, DECRYPT), entry(more, DECRYPT)))
refused(
    "The same after a password: ATTRIBUTES/s3",
    event(password, entry(aes, DECRYPT), entry(more, DECRYPT)),
    start(entry(plain), entry(aes, BOTH), entry(more, DECRYPT)),
)
refused(
    "A second session that encrypts: ATTRIBUTES/s2",
    random(entry(aes, ENCRYPT), entry(more, ENCRYPT)),
    start(entry(aes, BOTH), entry(more, ENCRYPT)),
)
case = "A second that does both, while the first encrypts: ATTRIBUTES/s2"
refused(case, start(entry(aes, ENCRYPT), entry(more, BOTH)))

tpm.chapter("decrypt or encrypt in a session that cannot.")
case = "decrypt, TPM2_PCR_Event and TPM2_HierarchyChangeAuth: SYMMETRIC/s1"
refused(case, event(entry(plain, DECRYPT)), change(entry(plain, DECRYPT | STAYS)))
refused("encrypt, TPM2_GetRandom: SYMMETRIC/s1", random(entry(plain, ENCRYPT)))
refused("Both, TPM2_StartAuthSession: SYMMETRIC/s1", start(entry(plain, BOTH)))
case = "As the second entry: SYMMETRIC/s2"
refused(case, event(password, entry(plain, DECRYPT)), event(entry(aes), entry(plain, DECRYPT)))
case = "As the third: SYMMETRIC/s3"
refused(case, start(entry(aes, DECRYPT), entry(more), entry(plain, ENCRYPT)))

tpm.chapter(
    "The order within an entry: one fault after the other is repaired. The command is "
    "TPM2_PCR_Event with a right entry before."
)
right = tpm.event(b"abc", aes)
case = "33 bytes of nonce, a handle that is no session's: SIZE/s2"
refused(case, second(entry(0x8000_0000, 0xFF, nonce=bytes(33))))
refused(
    "A second entry with a handle that is not a session: VALUE/s2", second(entry(0x8000_0000, 0xFF))
)
refused("A session that does not exist: REFERENCE_S1", second(entry(0x0200_0009, 0xFF)))
case = "A session that occurs twice, and a password: HANDLE/s2"
refused(case, second(entry(aes, 0xFF)), second(entry(RS_PW, 0xFF)))
refused("All attributes: RESERVED_BITS/s2", second(entry(plain, 0xFF)))
refused("All but the reserved ones: ATTRIBUTES/s2", second(entry(plain, 0xE7)))
refused("decrypt and encrypt, of which one may not be: ATTRIBUTES/s2", second(entry(plain, BOTH)))
refused("decrypt in a session that cannot: SYMMETRIC/s2", second(entry(plain, DECRYPT)))
case = "A wrong hmac, but the first entry's is wrong too, as it is not of two entries' nonces"
refused(f"{case}: BAD_AUTH/s1", second(entry(more, DECRYPT)))
refused("The second entry's wrong hmac alone: BAD_AUTH/s2", second(entry(more, STAYS)))

tpm.chapter("The order of entries: all of the first comes before the second.")
case = "The last fault of the first entry, and the first of the second: SYMMETRIC/s1"
refused(case, event(entry(plain, DECRYPT), entry(0x8000_0000, 0xFF, nonce=bytes(33))))
case = "The second entry's faults come before the third entry's: SYMMETRIC/s2"
refused(case, event(entry(aes), entry(plain, DECRYPT), entry(aes, 0xFF, nonce=bytes(33))))
cut = frames.entry(plain.handle, bytes(33)) + frames.entry(aes.handle)[:-1]
four = (frames.entry(plain.handle, bytes(33)), *3 * [frames.entry(aes.handle)])
said = tpm("But an entry that is cut comes before them all, and so does a fourth: AUTHSIZE")
said.raw(
    *(frames.on_handle(CC.PCR_Reset, 16, b"", entries) for entries in ((cut,), four)), fresh=True
)

tpm.accepted("No session was changed by a refusal: the right entry alone", right)
tpm("The other two sessions").event(b"abc", plain, more)
said = tpm("The three of them, decrypting and in another order")
said.event(b"abc", more, Use(aes, DECRYPT | STAYS), plain)
