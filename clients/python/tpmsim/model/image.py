"""The image of what a device keeps without power: bytes from which another device can be opened.

It starts with a magic word, a version and the total length, and ends with the SHA-256 of everything
before. The body contains the fields of docs/table in their order. The image of a device of the
symmetric profile starts with TPMI, and is written in version 2, which has the limits on NV indices
before the body. Version 1, with fixed limits, is also read. The image of a device of the complete
profile starts with TPMC, and has one version, with the body of TPMI's version 2.
"""

from dataclasses import dataclass
from typing import Container, Mapping, TypeVar

from tpmsim.faults import TpmsimError
from tpmsim.model import nv_commands, object_rules, persistent, protection, state
from tpmsim.model.general import Refusal
from tpmsim.model.machine import Model
from tpmsim.model.parameters import Parameters
from tpmsim.model.protection import Lockout
from tpmsim.standard import aes, digest, DIGEST_BYTES, digest_bytes, Fields, number, nv, Profile
from tpmsim.standard import RH_ENDORSEMENT, RH_LOCKOUT, RH_NULL, RH_OWNER, RH_PLATFORM, SHA1, SHA256
from tpmsim.standard import Short, sized, trimmed
from tpmsim.standard.aes_tables import encrypt_block

T = TypeVar("T")

MAGIC, COMPLETE_MAGIC = b"TPMI", b"TPMC"
HEAD_BYTES, DIGEST_AT_END = 10, 32

# The hierarchies in the order of the body, those that may have persistent objects, and the hash
# algorithms of the PCR banks.
HIERARCHIES = RH_OWNER, RH_ENDORSEMENT, RH_PLATFORM, RH_NULL
WITH_PERSISTENT = RH_OWNER, RH_ENDORSEMENT, RH_PLATFORM
BANKS = SHA1, SHA256


class Fault(TpmsimError):
    """Why bytes are not an image: Short, Magic, Version, Length, Digest or Body. Only a state text of
    version 1 has the fault Earlier.
    """


@dataclass(frozen=True)
class Version:
    """A version of the image format: the limits on NV indices and on the size of their data,
    whether these limits are stored in the image, and the magic word.
    """

    number: int
    indices: int
    all_bytes: int
    says_limits: bool
    magic: bytes = MAGIC

    @property
    def limits(self) -> bytes:
        return number(self.indices, 2) + number(self.all_bytes, 4) if self.says_limits else b""

    @property
    def profile(self) -> Profile:
        return Profile.SYMMETRIC if self.magic == MAGIC else Profile.COMPLETE


VERSION_1 = Version(1, 32, 8192, False)
VERSION_2 = Version(2, nv_commands.INDICES, nv_commands.ALL_BYTES, True)
COMPLETE_VERSION = Version(1, *(nv_commands.INDICES, nv_commands.ALL_BYTES, True, COMPLETE_MAGIC))
VERSIONS = {(it.magic, it.number): it for it in (VERSION_1, VERSION_2, COMPLETE_VERSION)}
WRITTEN = {it.profile: it for it in (VERSION_2, COMPLETE_VERSION)}

# The offset of the body in an image that this module writes.
BODY_AT = HEAD_BYTES + len(VERSION_2.limits)


def image(device: Model, version: Version | None = None) -> bytes:
    """Returns a device's image, in the version of the device's profile unless another is passed."""
    return framed(body_text(device), version or WRITTEN[device.profile])


def body_text(device: Model) -> bytes:
    return b"".join(
        (
            hierarchies_text(device),
            number(device.disable_clear, 1),
            lockout_text(device.lockout),
            counts_text(device),
            saved_text(device),
            objects_text(device),
            indices_text(device),
        )
    )


def framed(body: bytes, version: Version = VERSION_2) -> bytes:
    """Returns a body with its head, the limits if the version stores them, and the digest."""
    return digested(version.number, version.limits + body, version.magic)


def digested(version: int, behind_head: bytes, magic: bytes = MAGIC) -> bytes:
    """Returns an image of any version, with this content between the head and the digest."""
    length = HEAD_BYTES + len(behind_head) + DIGEST_AT_END
    text = magic + number(version, 2) + number(length, 4) + behind_head
    return text + digest(SHA256, text)


def hierarchies_text(device: Model) -> bytes:
    text = b""
    for hierarchy in HIERARCHIES:
        text += sized(device.auth_value(hierarchy))
        text += device.seeds[hierarchy] + device.proofs[hierarchy]
    return text + sized(device.auth_value(RH_LOCKOUT))


def lockout_text(lockout: Lockout) -> bytes:
    """Encodes dictionary attack protection, without its two times, since a power cycle restarts
    them.
    """
    names = "failed_tries", "max_tries", "recovery_time", "lockout_recovery"
    numbers = b"".join(number(getattr(lockout, it), 4) for it in names)
    return numbers + number(lockout.is_closed, 1)


def counts_text(device: Model) -> bytes:
    starts = number(device.reset_count, 4) + number(device.restart_count, 4)
    return number(device.clock, 8) + starts + number(device.largest_counter, 8)


def saved_text(device: Model) -> bytes:
    text = number(device.saved, 1)
    if device.saved == state.Saved.STATE:
        text += b"".join(value for bank in BANKS for value in device.saved_banks[bank])
    return text


def objects_text(device: Model) -> bytes:
    held = sorted(it for it in device.objects if persistent.is_persistent(it))
    text = number(len(held), 2)
    for handle in held:
        text += number(handle, 4) + object_text(device.objects[handle])
    return text


def object_text(kept: object_rules.Object) -> bytes:
    """Returns the encoding of an object, without its handle."""
    areas = sized(kept.public.text) + sized(kept.sensitive.text)
    return number(kept.hierarchy, 4) + sized(kept.qualified_name) + areas


def indices_text(device: Model) -> bytes:
    text = number(len(device.indices), 2)
    for handle in sorted(device.indices):
        index = device.indices[handle]
        text += sized(index.public.text) + sized(index.auth_value) + sized(index.data)
    return text


# Reading an image. In the body, a failed `check` is a fault, and so is a refusal by a parser of
# command parameters.


def check(holds: bool) -> None:
    if not holds:
        raise Fault("Body")


def within_frame(text: bytes, versions: Mapping[tuple[bytes, int], T]) -> tuple[T, bytes]:
    """Returns the version of a framed text, and its content between the head and the digest. The
    versions are known by their magic word and their number.
    """
    if len(text) < HEAD_BYTES + DIGEST_AT_END:
        raise Fault("Short")
    fields = Fields(text)
    magic = fields.take(len(MAGIC))
    if magic not in {it for it, _ in versions}:
        raise Fault("Magic")
    version = versions.get((magic, fields.number(2)))
    if version is None:
        raise Fault("Version")
    if fields.number(4) != len(text):
        raise Fault("Length")
    if digest(SHA256, text[:-DIGEST_AT_END]) != text[-DIGEST_AT_END:]:
        raise Fault("Digest")
    return version, text[HEAD_BYTES:-DIGEST_AT_END]


def open_image(
    text: bytes,
    block_cipher: aes.BlockCipher = encrypt_block,
    profiles: Container[Profile] = (Profile.SYMMETRIC,),
) -> Model:
    """Returns the device of an image, in the state after a power cycle. The device must be of one of
    the profiles; otherwise, the fault is Magic.
    """
    known = {key: it for key, it in VERSIONS.items() if it.profile in profiles}
    version, body = within_frame(text, known)
    device = Model(block_cipher=block_cipher, profile=version.profile)
    try:
        fields = Parameters(body)
        read_kept(fields, version, device)
        fields.end()
    except (Refusal, Short):
        raise Fault("Body") from None
    return device


def goes_on(device: Model, text: bytes) -> bool:
    """Whether an image belongs to this device. The image's clock may be later than the device's;
    then the device continues from the image's clock.
    """
    found, clock = open_image(text, profiles=Profile), device.clock
    device.clock = found.clock
    if image(device) == image(found):
        return True
    device.clock = clock
    return False


def fault_of(text: bytes, profiles: Container[Profile] = (Profile.SYMMETRIC,)) -> str | None:
    try:
        open_image(text, profiles=profiles)
    except Fault as fault:
        return str(fault)
    return None


def read_kept(fields: Parameters, version: Version, device: Model) -> None:
    """Reads what a device keeps without power, including its indices."""
    check(fields.take(len(version.limits)) == version.limits)
    read_hierarchies(fields, device)
    device.disable_clear = bool(fields.one_of(1, (0, 1), "VALUE"))
    numbers = [fields.number(4) for _ in range(4)]
    is_closed = bool(fields.one_of(1, (0, 1), "VALUE"))
    tries, most, recovery, lockout_recovery = numbers
    device.lockout = protection.Lockout(tries, most, recovery, lockout_recovery, is_closed)
    device.clock = fields.number(8)
    device.reset_count, device.restart_count = fields.number(4), fields.number(4)
    device.largest_counter = fields.number(8)
    read_saved(fields, device)
    read_objects(fields, device)
    read_indices(fields, device, version)


def read_auth_value(fields: Parameters) -> bytes:
    auth_value = fields.sized(DIGEST_BYTES)
    check(auth_value == trimmed(auth_value))
    return auth_value


def read_hierarchies(fields: Parameters, device: Model) -> None:
    for hierarchy in HIERARCHIES:
        device.auth_values[hierarchy] = read_auth_value(fields)
        device.seeds[hierarchy] = fields.take(state.SECRET_BYTES)
        device.proofs[hierarchy] = fields.take(state.SECRET_BYTES)
    check(not device.auth_values[RH_NULL])
    device.auth_values[RH_LOCKOUT] = read_auth_value(fields)


def read_saved(fields: Parameters, device: Model) -> None:
    device.saved = state.Saved(fields.one_of(1, list(state.Saved), "VALUE"))
    if device.saved == state.Saved.STATE:
        for bank in BANKS:
            size = digest_bytes(bank)
            values = [fields.take(size) for _ in range(state.SAVED_PCRS)]
            device.saved_banks[bank] = values


def read_objects(fields: Parameters, device: Model) -> None:
    count, last = fields.number(2), -1
    check(count <= persistent.PERSISTENT_OBJECTS)
    for _ in range(count):
        handle = fields.number(4)
        check(persistent.is_persistent(handle) and handle > last)
        device.objects[handle] = read_object(fields, WITH_PERSISTENT)
        last = handle


def read_object(fields: Parameters, hierarchies: Container[int]) -> object_rules.Object:
    hierarchy = fields.number(4)
    check(hierarchy in hierarchies)
    qualified_name = fields.sized(object_rules.NAME_BYTES)
    public = fields.structure(object_rules.read_public)
    sensitive = fields.structure(object_rules.read_sensitive)
    check(sensitive.kind == public.kind)
    check(sensitive.auth_value == trimmed(sensitive.auth_value))
    return object_rules.Object(public, sensitive, hierarchy, qualified_name)


def read_indices(fields: Parameters, device: Model, version: Version) -> None:
    count, last = fields.number(2), -1
    check(count <= version.indices)
    for _ in range(count):
        public = fields.structure(nv_commands.read_public)
        check(public.index > last)
        check(public.kind in list(nv.Type) and not nv_commands.has_wrong_size(public))
        auth_value, data = read_auth_value(fields), fields.sized(nv_commands.INDEX_BYTES)
        check(len(data) == (public.data_size if public.has(nv.Attribute.WRITTEN) else 0))
        device.indices[public.index] = nv_commands.Index(public, auth_value, data)
        last = public.index
    taken = sum(it.public.data_size for it in device.indices.values())
    check(taken <= version.all_bytes)
