"""Makes object_vectors.tpm: objects, each byte of which is computed here, step by step.

    tools/python.sh tests/objects/object_vectors.py

The program uses hashlib and hmac, and aes.py for the cipher, but not object_rules.py. It contains
its own copy of the equations for objects, each on its own line, with the numbers of one example. It
compares the script's responses, which the Python device computes, with the results. If it is run as
above, it prints each step.
"""

import hashlib
import hmac

from tpmsim.standard import aes, CC, command, entry, number, on_handle, RH_OWNER, selection, sized
from tests.common.script import Script

# The device of a script is manufactured with the random bytes 00 to ff. They are eight pieces of 32
# bytes: the seeds of the owner's, the endorsement, the platform and the null hierarchy, followed by
# the proofs of these hierarchies.
OWNER_SEED, OWNER_PROOF = bytes(range(0x00, 0x20)), bytes(range(0x80, 0xA0))
OWNER = number(RH_OWNER, 4)
SHA256_NUMBER = bytes.fromhex("000B")


def sha256(*texts):
    return hashlib.sha256(b"".join(texts)).digest()


def hmac_sha256(key, *texts):
    return hmac.new(key, b"".join(texts), hashlib.sha256).digest()


def kdfa(key, label, u, v, bits):
    """Computes KDFa: SP 800-108 in counter mode with HMAC-SHA-256."""
    given, block = b"", 1
    while len(given) < bits // 8:
        given += hmac_sha256(key, number(block, 4), label, b"\0", u, v, number(bits, 4))
        block += 1
    return given[: bits // 8]


def step(name, value):
    if __name__ == "__main__":
        print(f"{name:34} {value.hex()}")
    return value


def creation(kind, name, above, outside_info):
    """Returns the part of the response that is about the creation: the creation data (with no PCRs,
    and with locality 0, which is bit 0), their hash, and the ticket. `above` contains the parent's
    algorithm, Name and qualified name.
    """
    algorithm, *names = above
    data = selection() + sized(sha256(b"")) + b"\x01" + algorithm
    data += b"".join(map(sized, (*names, outside_info)))
    data_hash = step(f"{kind} creationHash", sha256(data))
    digest = step(f"{kind} ticket digest", hmac_sha256(OWNER_PROOF, b"\x80\x21", name, data_hash))
    return sized(data) + sized(data_hash) + b"\x80\x21" + OWNER + sized(digest)


script = Script(
    "tests.objects.object_vectors",
    "A primary storage key of TPM_RH_OWNER and sealed data under it. Each number of them is "
    "computed by the program that wrote this script, step by step.",
)
script.startup()

# The primary key. inSensitive: the value "owner key", and no data. inPublic: a SYMCIPHER (0025);
# SHA-256 (000B); attributes fixedTPM, fixedParent, sensitiveDataOrigin, userWithAuth, noDA,
# restricted and decrypt (00030472); no policy; AES-128 in mode CFB (0006 0080 0043); empty unique.
in_sensitive = sized(b"owner key") + sized(b"")
template = bytes.fromhex("0025 000B 00030472 0000 0006 0080 0043 0000")
of_template, of_sensitive = sha256(template), sha256(in_sensitive)
derived = kdfa(OWNER_SEED, b"PRIMARY", of_template, of_sensitive, 8 * (32 + 16))
seed_value, key = step("primary seedValue", derived[:32]), step("primary key", derived[32:])
unique = step("primary unique", sha256(seed_value, key))
public = template[:-2] + sized(unique)
name = step("primary Name", SHA256_NUMBER + sha256(public))
qualified_name = step("primary qualified name", SHA256_NUMBER + sha256(OWNER, name))

# A primary object has no parent, so its creation data name the hierarchy instead.
created = creation("primary", name, (bytes.fromhex("0010"), OWNER, OWNER), b"first")

given = sized(in_sensitive) + sized(template)
words = 'TPM2_CreatePrimary of a storage key, whose value is "owner key": SUCCESS'
creating = on_handle(CC.CreatePrimary, RH_OWNER, given + sized(b"first") + selection())
answer = script.command(words, creating)
assert answer[10:14] == number(0x8000_0000, 4)
assert answer[18:-5] == sized(public) + created + sized(name)
answer = script.command("TPM2_ReadPublic: SUCCESS", command(CC.ReadPublic, number(0x8000_0000, 4)))
assert answer[10:] == sized(public) + sized(name) + sized(qualified_name)

# Data that is sealed under the key, and created with the random bytes 40, 41, 42, ... These bytes
# become the seed, and then the first block of the cipher. The attributes are fixedTPM, fixedParent,
# userWithAuth and noDA (00000452). The scheme is NULL. The two zeros at the end of the
# authorization value are removed.
random = bytes(range(0x40, 0x40 + 64))
data = b"what is sealed"
in_sensitive = sized(b"pin\0\0") + sized(data)
template = bytes.fromhex("0008 000B 00000452 0000 0010 0000")
parent_seed, above = seed_value, (SHA256_NUMBER, name, qualified_name)
seed_value, iv = random[:32], random[32:48]
unique = step("sealed unique", sha256(seed_value, data))
public = template[:-2] + sized(unique)
name = step("sealed Name", SHA256_NUMBER + sha256(public))
qualified_name = step("sealed qualified name", SHA256_NUMBER + sha256(above[2], name))
sensitive = bytes.fromhex("0008") + sized(b"pin") + sized(seed_value) + sized(data)
step("sealed TPMT_SENSITIVE", sensitive)
storage_key = step("STORAGE key", kdfa(parent_seed, b"STORAGE", name, b"", 128))
protected = sized(iv) + aes.cfb_encrypt(storage_key, iv, sized(sensitive))
integrity_key = step("INTEGRITY key", kdfa(parent_seed, b"INTEGRITY", b"", b"", 256))
integrity = step("sealed integrity", hmac_sha256(integrity_key, protected, name))
private = step("sealed private area", sized(integrity) + protected)

created = creation("sealed", name, above, b"")


def by_password(code, handle, parameters, password=b"owner key"):
    return on_handle(code, handle, parameters, [entry(hmac=password)])


script.chapter("The random bytes are 40, 41, 42 and so on.")
script.entropy(random)
given = sized(in_sensitive) + sized(template) + sized(b"") + selection()
words = 'TPM2_Create of sealed data, whose value is "pin": SUCCESS'
answer = script.command(words, by_password(CC.Create, 0x8000_0000, given))
assert answer[14:-5] == sized(private) + sized(public) + created
loading = by_password(CC.Load, 0x8000_0000, sized(private) + sized(public))
answer = script.command("TPM2_Load: SUCCESS", loading)
assert answer[10:14] == number(0x8000_0001, 4) and answer[18:-5] == sized(name)
answer = script.command("TPM2_ReadPublic: SUCCESS", command(CC.ReadPublic, number(0x8000_0001, 4)))
assert answer[10:] == sized(public) + sized(name) + sized(qualified_name)
answer = script.command("TPM2_Unseal: SUCCESS", by_password(CC.Unseal, 0x8000_0001, b"", b"pin"))
assert answer[14:-5] == sized(data)
