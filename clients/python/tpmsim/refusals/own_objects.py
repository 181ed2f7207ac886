"""What the own checks of the commands on objects refuse."""

from typing import Any, Callable

from tpmsim.caller.entries import Made, Prepared
from tpmsim.caller.examples import PERSISTENT
from tpmsim.caller.templates import HERE, hmac_key, OPEN, sealed, storage_key, STORES, template
from tpmsim.refusals.stage import Stage
from tpmsim.refusals.ways import LONG_AUTH, sent_twice, SHORT, Way, Ways
from tpmsim.standard import CC, KEYEDHASH, RH_OWNER, RH_PLATFORM, SHA1, SHA256, SYMCIPHER
from tpmsim.standard.objects import Attribute, Public

# Templates with one fault.
FIXED = Attribute.FIXED_TPM | OPEN
WRONG_POLICY = sealed(auth_policy=SHORT)
WRONG_ATTRIBUTES = sealed(attributes=FIXED)
WRONG_SCHEME = template(KEYEDHASH, SHA256, HERE | OPEN, scheme=SHA256)
SHORT_DIGESTS = sealed(SHA1)
CIPHER = template(SYMCIPHER, SHA256, HERE | OPEN | STORES)


def created(code: CC, public: Public, **more: Any) -> Way:
    """TPM2_CreatePrimary or TPM2_Create of an object with a fault."""

    def way(stage: Stage) -> Prepared:
        handle = RH_OWNER if code == CC.CreatePrimary else stage.storage()
        return stage.tpm.creation(code, handle, public, **more)

    return way


def created_refusals(code: CC, first: int) -> Ways:
    """Returns the refusals of templates, whose checks are numbered from `first` on."""
    ways = (
        created(code, WRONG_POLICY, data=b"data"),
        created(code, WRONG_ATTRIBUTES, data=b"data"),
        created(code, WRONG_SCHEME, data=b"key"),
        created(code, SHORT_DIGESTS, data=b"data", user_auth=LONG_AUTH),
        created(code, storage_key(), data=b"data"),
        created(code, CIPHER, data=SHORT),
    )
    return {(code, f"A{at}"): way for at, way in enumerate(ways, first)}


def loaded(public: Public) -> Way:
    """TPM2_Load with a public area that has a fault, and any private area."""

    def way(stage: Stage) -> Prepared:
        parent = stage.storage()
        return stage.tpm.loading(parent, Made(b"", public, b""))

    return way


def full_of_objects(stage: Stage) -> None:
    """Makes objects until all slots are used."""
    while stage.device.model.free_objects():
        stage.sealed_data()


def loaded_too_many(stage: Stage) -> Prepared:
    example = stage.example()
    full_of_objects(stage)
    return example


def made_too_many(stage: Stage) -> Prepared:
    full_of_objects(stage)
    return stage.example()


def below_sealed(stage: Stage) -> Prepared:
    """The example, with sealed data as the parent."""
    return stage.example().but(handles=[stage.sealed_data()])


def unsealing(make: Callable[[Stage], int]) -> Way:
    """TPM2_Unseal of another object."""
    return lambda stage: stage.tpm.unsealing(make(stage))


def mac_by(make: Callable[[Stage], int]) -> Way:
    """TPM2_HMAC with another object."""
    return lambda stage: stage.tpm.hmac(make(stage), b"data", SHA256)


def restricted_key(stage: Stage) -> int:
    public = hmac_key(attributes=HERE | OPEN | Attribute.RESTRICTED)
    return stage.tpm.create_primary(public, data=b"key")


def other_hash(stage: Stage) -> Prepared:
    return stage.tpm.hmac(stage.key(), b"data", SHA1)


def of_platform(stage: Stage) -> Prepared:
    key = stage.tpm.create_primary(storage_key(), hierarchy=RH_PLATFORM)
    return stage.tpm.evicting(RH_OWNER, key, PERSISTENT)


def until_reset(stage: Stage) -> Prepared:
    attributes = HERE | OPEN | STORES | Attribute.ST_CLEAR
    key = stage.tpm.create_primary(storage_key(attributes=attributes))
    return stage.tpm.evicting(RH_OWNER, key, PERSISTENT)


def platform_handle(stage: Stage) -> Prepared:
    return stage.tpm.evicting(RH_OWNER, stage.storage(), PERSISTENT | 0x80_0000)


def other_persistent(stage: Stage) -> Prepared:
    stage.tpm.send(stage.example())
    return stage.tpm.evicting(RH_OWNER, PERSISTENT, PERSISTENT + 1)


def evicted_too_many(stage: Stage) -> Prepared:
    key = stage.storage()
    for at in range(16):
        stage.tpm.send(stage.tpm.evicting(RH_OWNER, key, PERSISTENT + at))
    return stage.tpm.evicting(RH_OWNER, key, PERSISTENT + 16)


OF_OBJECTS: Ways = {
    **created_refusals(CC.CreatePrimary, 1),
    (CC.CreatePrimary, "A7"): made_too_many,
    (CC.Create, "A1"): below_sealed,
    **created_refusals(CC.Create, 2),
    (CC.Load, "A1"): below_sealed,
    (CC.Load, "A2"): loaded(WRONG_POLICY),
    (CC.Load, "A3"): loaded(WRONG_ATTRIBUTES),
    (CC.Load, "A4"): loaded(WRONG_SCHEME),
    (CC.Load, "A5"): loaded(sealed()),
    (CC.Load, "A6"): loaded_too_many,
    (CC.Unseal, "A1"): unsealing(Stage.storage),
    (CC.Unseal, "A2"): unsealing(Stage.key),
    (CC.HMAC, "A1"): mac_by(Stage.storage),
    (CC.HMAC, "A2"): mac_by(restricted_key),
    (CC.HMAC, "A3"): mac_by(Stage.sealed_data),
    (CC.HMAC, "A4"): other_hash,
    (CC.EvictControl, "A1"): of_platform,
    (CC.EvictControl, "A2"): until_reset,
    (CC.EvictControl, "A3"): platform_handle,
    (CC.EvictControl, "A4"): other_persistent,
    (CC.EvictControl, "A5"): sent_twice,
    (CC.EvictControl, "A6"): evicted_too_many,
}
