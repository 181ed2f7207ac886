"""Makes hmac_keys.tpm. TPM2_HMAC computes the HMAC of a buffer with an HMAC key. The hash
algorithm is that of the key's scheme; if the scheme is NULL, the command names the hash algorithm.
"""

from tests.common.steps import aes_key, RESTRICTED_KEY, Steps
from tests.common.vocabulary import ALG_NULL, CC, HASHES, hmac_key, mac, number, RH_NULL, sealed
from tests.common.vocabulary import SHA1, SHA256, sized, storage_key

tpm = Steps(__name__, __doc__)
refused = tpm.says


def is_hmac(what, handle, key, data, asked, algorithm):
    _, answer = tpm.accepted(what, tpm.hmac(handle, data, asked))
    assert answer == sized(mac(algorithm, key, data))


def by_sha256(handle):
    return tpm.hmac(handle, b"text", SHA256)


tpm.refuses_others(by_sha256)

tpm.chapter("Keys and texts of RFC 2202 and RFC 4231, which give HMACs of SHA-1 and SHA-256.")
CASES = (
    (1, b"\x0b" * 20, b"Hi There"),
    (2, b"Jefe", b"what do ya want for nothing?"),
    (3, b"\xaa" * 20, b"\xdd" * 50),
    (4, bytes(range(1, 26)), b"\xcd" * 50),
    (6, b"\xaa" * 80, b"Test Using Larger Than Block-Size Key - Hash Key First"),
)
for case, key, data in CASES:
    said = tpm(f"The key of case {case}, with scheme NULL")
    with said.held(hmac_key(scheme=ALG_NULL), hierarchy=RH_NULL, data=key) as handle:
        is_hmac("TPM2_HMAC with SHA-1", handle, key, data, SHA1, SHA1)
        is_hmac("With SHA-256", handle, key, data, SHA256, SHA256)

tpm.chapter("The scheme, and the hash algorithm that the command names.")
for scheme, name in HASHES:
    for name_algorithm, hash_name in HASHES:
        said = tpm(f"A key of HMAC with {name}, whose nameAlg is {hash_name}")
        template = hmac_key(name_algorithm, scheme=scheme)
        with said.held(template, user_auth=b"a", data=b"key") as handle:
            is_hmac("Its own", handle, b"key", b"text", scheme, scheme)
            is_hmac("TPM_ALG_NULL, for its own", handle, b"key", b"text", ALG_NULL, scheme)
            other = SHA256 if scheme == SHA1 else SHA1
            refused("The other: VALUE/p2", tpm.hmac(handle, b"text", other))
key = tpm.owned("A key of scheme NULL", hmac_key(scheme=ALG_NULL), user_auth=b"a", data=b"key")
refused("TPM_ALG_NULL: VALUE/p2", tpm.hmac(key, b"text", ALG_NULL))

tpm.chapter("Sizes, and what cannot be read.")
is_hmac("An empty buffer", key, b"key", b"", SHA256, SHA256)
is_hmac("1,024 bytes", key, b"key", bytes(1024), SHA1, SHA1)
whole = by_sha256(key)


def cut(words, *parameters):
    refused(words, *(whole.but(parameters=it) for it in parameters))


words = "1,025 bytes, whole and cut: SIZE/p1"
cut(words, sized(bytes(1025)) + number(SHA256, 2), number(1025, 2), b"\xff\xff\0")
cut("A buffer that is cut, and half a size: INSUFFICIENT/p1", number(1024, 2) + bytes(1023), b"\0")
cut("No hashAlg, and half of one: INSUFFICIENT/p2", sized(b"text"), sized(b"text") + b"\0")
words = "hashAlg is neither SHA-1 nor SHA-256 nor TPM_ALG_NULL: SHA-384, HMAC, none: HASH/p2"
refused(words, *(tpm.hmac(key, b"text", it) for it in (0x000C, 0x0005, 0, 0xFFFF)))
cut("A byte after it: SIZE", whole.parameters + b"\0")
tpm.needs_entries(CC.HMAC, key, whole.parameters)
refused("By another value: BAD_AUTH/s1", tpm.hmac(key, b"text", SHA256, b"b"))
tpm.flush_objects("The object is flushed", key)

tpm.chapter("Not every object is a key for it.")
for what, public, data, outcome in (
    ("A storage key", storage_key(), b"", "TYPE/h1"),
    ("An AES key that signs", aes_key(), bytes(16), "TYPE/h1"),
    ("A restricted key, whatever its scheme is", RESTRICTED_KEY, b"key", "ATTRIBUTES/h1"),
    ("Sealed data", sealed(), b"secret", "KEY/h1"),
    ("With nameAlg SHA-1", sealed(SHA1), b"secret", "KEY/h1"),
):
    with tpm.held(what, public, data=data) as handle:
        words = f"TPM2_HMAC, whatever is named: {outcome}"
        refused(words, *(tpm.hmac(handle, b"text", it) for it in (SHA256, SHA1, ALG_NULL)))
        refused("But what cannot be read: HASH/p2", tpm.hmac(handle, b"text", 0))
