"""Makes sealed_sizes.tpm. Sealed data of up to 128 bytes, which a session encrypts in transit:
inSensitive of TPM2_Create, inPrivate of TPM2_Load, outData of TPM2_Unseal, and the buffer and the
response of TPM2_HMAC.
"""

from tests.common.steps import Steps
from tests.common.vocabulary import ALG_NULL, CC, CONTINUE_SESSION, DECRYPT, ENCRYPT, HASHES
from tests.common.vocabulary import hmac_key, mac, number, sealed, SHA1, SHA256, sized, storage_key
from tests.common.vocabulary import Use

IN, OUT = CONTINUE_SESSION | DECRYPT, CONTINUE_SESSION | ENCRYPT

tpm = Steps(__name__, __doc__)
parent = tpm.owned('A storage key, whose value is "parent"', storage_key(), user_auth=b"parent")

for algorithm, hash_name in reversed(HASHES):
    tpm.chapter(f"AES sessions with {hash_name}.")
    data = bytes(range(128))
    said = tpm('TPM2_Create of 128 bytes, whose value is "pin"')
    handle = said.below(parent, sealed(algorithm), user_auth=b"pin", data=data)
    session = tpm.start("A session with AES", algorithm=algorithm, aes=True)
    prepared = tpm.unsealing(handle, session.encrypting)
    said = tpm(
        "TPM2_Unseal authorized by it, with encrypt: the answer is 0080, and 128 bytes that are "
        "not those that were sealed: SUCCESS"
    )
    response = said.raw(prepared.buffer(), fresh=True)
    assert response[14:16] == number(128, 2) and data[:4] not in response
    _, answer = tpm.received(prepared, response)
    assert answer == sized(data)
    tpm.unseal("In plain, by the same session", handle, data, session)

    bound = tpm.start(
        "A session that is bound to the object", bind=handle, algorithm=algorithm, aes=True
    )
    tpm.unseal("TPM2_Unseal by it, with encrypt", handle, data, bound.encrypting)
    unrelated = tpm.start("A session that is bound to the parent", bind=parent, aes=True)
    tpm.unseal(
        "In addition to the one that authorizes", handle, data, session, unrelated.encrypting
    )
    tpm.unseal("With a password", handle, data, b"pin", unrelated.encrypting)
    for size in (1, 16, 17, 127):
        said = tpm(f"{size} bytes: TPM2_Create, with inSensitive encrypted")
        part = data[:size]
        small = said.create(parent, sealed(), session.decrypting, user_auth=b"pin", data=part)
        said = tpm("TPM2_Load, with inPrivate encrypted")
        with said.loaded(parent, small, session.decrypting) as again:
            tpm.unseal("TPM2_Unseal, encrypted", again, part, session.encrypting)

    tpm.chapter("129 bytes.")
    tpm("In plain: SIZE/p1").child(parent, sealed(), data=bytes(129))
    tpm("Encrypted: SIZE/p1").child(parent, sealed(), session.decrypting, data=bytes(129))
    with tpm.breaking(encrypted=lambda use, handle, parameters: parameters):
        tpm(
            "128 bytes that are said to be encrypted, and are not: they are read as something "
            "else: SIZE/p1"
        ).child(parent, sealed(), session.decrypting, data=data)
    whole = tpm.child(parent, sealed(), data=data).parameters
    said, cut = tpm("inSensitive is cut, and encrypted: INSUFFICIENT/p1"), (0, 1, 2, 133)
    said.refused(*(tpm.prepare(CC.Create, [parent], whole[:it], session.decrypting) for it in cut))

    tpm.chapter("Both ways at once.")
    case = "TPM2_Create with inSensitive and outPrivate encrypted by the session that authorizes"
    made = tpm.create(case, parent, sealed(), Use(session, IN | OUT), user_auth=b"pin", data=data)
    said = tpm("TPM2_Load with inPrivate and name encrypted by another")
    with said.loaded(parent, made, session, Use(unrelated, IN | OUT)) as again:
        tpm.unseal("TPM2_Unseal", again, data, bound.encrypting, session)
    said = tpm("inSensitive by one, outPrivate by another, and a third authorizes")
    key = said.below(parent, storage_key(), session, unrelated.decrypting, bound.encrypting)
    tpm.flush_objects("The object is flushed", key)
    said = tpm("TPM2_CreatePrimary with inSensitive and outPublic encrypted")
    first = said.owned(sealed(), Use(session, IN | OUT), user_auth=b"pin", data=data)
    second = tpm.owned("In plain it is the same object", sealed(), user_auth=b"pin", data=data)
    assert tpm.names[first] == tpm.names[second]
    tpm.flush_objects("Both objects are flushed", first, second)

    tpm.chapter("TPM2_HMAC, with what it takes and what it answers encrypted.")
    template, text = hmac_key(algorithm, scheme=ALG_NULL), b"a text of some length"
    key = tpm.owned("A key", template, user_auth=b"k", data=b"key")
    for what, use in (("buffer alone", IN), ("outHMAC alone", OUT), ("Both", IN | OUT)):
        _, answer = tpm.accepted(what, tpm.hmac(key, text, SHA256, Use(session, use)))
        assert answer == sized(mac(SHA256, b"key", text))
    said = tpm("An empty buffer")
    _, answer = said.accepted(tpm.hmac(key, b"", SHA1, session, Use(unrelated, IN | OUT)))
    assert answer == sized(mac(SHA1, b"key", b""))
    tpm.read_public("TPM2_ReadPublic with outPublic encrypted", key, session.encrypting)
    tpm.flush_objects("All but the parent are flushed", key, handle)
    tpm.flushes("A session is flushed", session, bound, unrelated)

tpm.chapter("What cannot be encrypted.")
plain = tpm.start("A session without AES")
aes = tpm.start("One with AES", aes=True)
handle = tpm.owned("Sealed data", sealed(), data=b"secret")
said = tpm("TPM2_Unseal, encrypted by the one without: SYMMETRIC/s1")
said.refused(tpm.unsealing(handle, plain).but_entry(1, attributes=OUT))
said = tpm("TPM2_Unseal has no parameter to decrypt: ATTRIBUTES/s1")
said.refused(tpm.unsealing(handle, aes).but_entry(1, attributes=IN))
said = tpm("Encrypted twice: ATTRIBUTES/s2")
said.refused(tpm.unsealing(handle, aes.encrypting, plain).but_entry(2, attributes=OUT))
tpm.refused("By a password: ATTRIBUTES/s1", tpm.unsealing(handle).but_entry(1, attributes=OUT))
