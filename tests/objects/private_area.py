"""Makes private_area.tpm. TPM2_Load accepts only unchanged private areas. The generated script
private_areas.tpm changes every byte, and forges private areas.
"""

from tpmsim.caller import Made
from tests.common.steps import Steps
from tests.common.vocabulary import flipped, HASHES, sealed, SHA1, storage_key

tpm = Steps(__name__, __doc__)

for algorithm, hash_name in HASHES:
    parent = tpm.owned(f"A storage key with nameAlg {hash_name}", storage_key(algorithm))
    made = tpm.create("TPM2_Create of a byte", parent, sealed(SHA1), data=b"x")
    for what, private in (
        ("TPM2_Load, with a bit changed in the integrity value", flipped(made.private, 2)),
        ("With a bit changed in the encrypted part", flipped(made.private)),
        ("Without the last byte", made.private[:-1]),
        ("With a byte more", made.private + b"\0"),
    ):
        changed = Made(private, made.public, b"")
        tpm.says(f"{what}: INTEGRITY/p1", tpm.loading(parent, changed))
    handle = tpm.load("As it is", parent, made)
    tpm.unseal("TPM2_Unseal", handle, b"x")
    tpm.flush_objects("Both objects are flushed", handle, parent)
