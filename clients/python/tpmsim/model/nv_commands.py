"""NV indices, and the commands that define and use them (TPM 2.0 Library, Part 1, section 37; Part
2, section 13; Part 3, section 31). docs/table lists the choices that the standard leaves to each
TPM, and the narrower limits of this device.
"""

from dataclasses import dataclass

from tpmsim.model.general import Answer, Refusal
from tpmsim.model.parameters import buffer, Held, integer, Parameters, Request, structure, takes
from tpmsim.standard import CC, digest, DIGEST_BYTES, digest_bytes, Fact, first_byte, number, NV
from tpmsim.standard import RH_OWNER, RH_PLATFORM, sized, trimmed
from tpmsim.standard.nv import Attribute, NAMED, NUMBER_BYTES, Public, READS, Type, WRITES

# The largest number of indices, the largest total size of their data, and the largest size of one
# index's data.
INDICES, ALL_BYTES, INDEX_BYTES = 64, 16_384, 2048

# The largest size of a buffer in TPM2_NV_Write, TPM2_NV_Extend and TPM2_NV_Read.
BUFFER_BYTES = 1024

# The largest value of a counter.
LARGEST = 2**64 - 1


# Attributes that a new index may not have, because they are set only later or are not implemented.
NOT_DEFINED = (
    Attribute.WRITTEN
    | Attribute.READLOCKED
    | Attribute.WRITELOCKED
    | Attribute.POLICY_DELETE
    | Attribute.GLOBALLOCK
    | Attribute.ORDERLY
)


@dataclass
class Index:
    """A defined index. It has no data until it is written."""

    public: Public
    auth_value: bytes
    data: bytes = b""

    def mark(self, attribute: Attribute) -> None:
        self.public = self.public.but(added=attribute)

    def write(self, data: bytes) -> None:
        self.data = data
        self.mark(Attribute.WRITTEN)


def read_public(fields: Parameters) -> Public:
    index = fields.number(4)
    if first_byte(index) != NV:
        raise fields.refusal("VALUE", "first_byte", first=NV, value=index)
    name_algorithm = fields.hash()
    attributes = fields.number(4)
    if attributes & ~NAMED:
        raise fields.refusal("RESERVED_BITS", "bits", named=NAMED, value=attributes)
    auth_policy = fields.sized(DIGEST_BYTES)
    return Public(index, name_algorithm, attributes, auth_policy, fields.number(2))


def wrong_attributes(public: Public, hierarchy: int) -> list[str]:
    """Returns a name for each rule that the attributes of a new index break."""
    is_platforms, by_platform = public.has(Attribute.PLATFORMCREATE), hierarchy == RH_PLATFORM
    rules = {
        "type": public.kind not in list(Type),
        "undefined": public.has(NOT_DEFINED),
        "writes": not public.has(WRITES),
        "reads": not public.has(READS),
        # A counter never decreases, so it cannot be cleared.
        "counter": public.kind == Type.COUNTER and public.has(Attribute.CLEAR_STCLEAR),
        "owner": is_platforms and not by_platform,
        "platform": by_platform and not is_platforms,
    }
    return [name for name, is_broken in rules.items() if is_broken]


def bytes_of_type(public: Public) -> int:
    """Returns the size of an index's data by its type; for an ordinary index, the largest size."""
    if public.kind == Type.ORDINARY:
        return INDEX_BYTES
    return digest_bytes(public.name_algorithm) if public.kind == Type.EXTEND else NUMBER_BYTES


def has_wrong_size(public: Public) -> bool:
    if public.kind == Type.ORDINARY:
        return public.data_size > INDEX_BYTES
    return public.data_size != bytes_of_type(public)


def check_definition(
    public: Public, auth_value: bytes, hierarchy: int, indices: dict[int, Index]
) -> None:
    digest_size = digest_bytes(public.name_algorithm)
    if len(auth_value) > digest_size:
        raise Refusal("SIZE/p1", "A1", size=len(auth_value), most=digest_size)
    if len(public.auth_policy) not in (0, digest_size):
        raise Refusal("SIZE/p2", "A2", size=len(public.auth_policy), wanted=digest_size)
    if wrong := wrong_attributes(public, hierarchy):
        undefined = public.attributes & NOT_DEFINED
        raise Refusal("ATTRIBUTES/p2", "A3", wrong=wrong, public=public, undefined=undefined)
    if has_wrong_size(public):
        case = "ordinary" if public.kind == Type.ORDINARY else "other"
        size, limit = public.data_size, bytes_of_type(public)
        raise Refusal("SIZE/p2", "A4", case=case, size=size, kind=public.kind, limit=limit)
    if public.index in indices:
        raise Refusal("NV_DEFINED", "A5", index=public.index)
    if len(indices) == INDICES:
        raise Refusal("NV_SPACE", "A6", case="indices", most=INDICES)
    # An unwritten index takes as much space as a written one.
    taken, size = sum(it.public.data_size for it in indices.values()), public.data_size
    if (total := taken + size) > ALL_BYTES:
        raise Refusal(
            "NV_SPACE", "A6", case="bytes", taken=taken, size=size, total=total, most=ALL_BYTES
        )


# Authorization by an index itself: what its attributes allow for a command. The attributes are
# those of the index that authorizes, whichever index the command uses.


def auth_value_attribute(code: CC) -> Attribute:
    return Attribute.AUTHREAD if code.has(Fact.READS_NV) else Attribute.AUTHWRITE


def takes_auth_value(public: Public, code: CC) -> bool:
    return code != CC.NV_ChangeAuth and public.has(auth_value_attribute(code))


def policy_attribute(code: CC) -> Attribute:
    return Attribute.POLICYREAD if code.has(Fact.READS_NV) else Attribute.POLICYWRITE


def takes_policy(public: Public, code: CC) -> bool:
    return code == CC.NV_ChangeAuth or public.has(policy_attribute(code))


WRITERS = Attribute.OWNERWRITE, Attribute.PPWRITE
READERS = Attribute.OWNERREAD, Attribute.PPREAD


def check_asker(public: Public, asker: int, by_owner: Attribute, by_platform: Attribute) -> None:
    needed = {RH_OWNER: by_owner, RH_PLATFORM: by_platform}.get(asker)
    if needed is None and asker != public.index:
        raise Refusal("NV_AUTHORIZATION", "A1", case="index")
    if needed is not None and not public.has(needed):
        raise Refusal("NV_AUTHORIZATION", "A1", case="hierarchy", needed=needed.name)


def check_writing(public: Public, asker: int, kind: Type) -> None:
    """Checks whether an index may be changed; every change makes these checks first. The index must
    have the type `kind`.
    """
    check_asker(public, asker, *WRITERS)
    if public.has(Attribute.WRITELOCKED):
        raise Refusal("NV_LOCKED", "A2")
    if public.kind != kind:
        raise Refusal("ATTRIBUTES/h2", "A3", wanted=kind, had=public.kind)


def check_reading(public: Public, asker: int) -> None:
    check_asker(public, asker, *READERS)
    if public.has(Attribute.READLOCKED):
        raise Refusal("NV_LOCKED", "A2")
    if not public.has(Attribute.WRITTEN):
        raise Refusal("NV_UNINITIALIZED", "A3")


def check_range(public: Public, offset: int, size: int, check: str) -> None:
    if offset + size > public.data_size:
        raise Refusal("NV_RANGE", check, size=size, most=public.data_size)


def start_up(indices: dict[int, Index]) -> None:
    for index in indices.values():
        if index.public.has(Attribute.CLEAR_STCLEAR):
            index.data = b""
            index.public = index.public.but(cleared=Attribute.WRITTEN)
        index.public = index.public.but(cleared=Attribute.READLOCKED)
        # The write lock of a written index with WRITEDEFINE remains.
        if not (index.public.has(Attribute.WRITEDEFINE) and index.public.has(Attribute.WRITTEN)):
            index.public = index.public.but(cleared=Attribute.WRITELOCKED)


# The operations of TPM2_PolicyNV, each on the bytes of the index and the operand.


def signed(data: bytes) -> int:
    return int.from_bytes(data, "big", signed=True)


def unsigned(data: bytes) -> int:
    return int.from_bytes(data, "big")


OPERATIONS = (
    lambda held, operand: held == operand,
    lambda held, operand: held != operand,
    lambda held, operand: signed(held) > signed(operand),
    lambda held, operand: unsigned(held) > unsigned(operand),
    lambda held, operand: signed(held) < signed(operand),
    lambda held, operand: unsigned(held) < unsigned(operand),
    lambda held, operand: signed(held) >= signed(operand),
    lambda held, operand: unsigned(held) >= unsigned(operand),
    lambda held, operand: signed(held) <= signed(operand),
    lambda held, operand: unsigned(held) <= unsigned(operand),
    lambda held, operand: unsigned(held) & unsigned(operand) == unsigned(operand),
    lambda held, operand: unsigned(held) & unsigned(operand) == 0,
)


def check_comparison(index: Index, asker: int, operand: bytes, offset: int, operation: int) -> None:
    check_reading(index.public, asker)
    check_range(index.public, offset, len(operand), "A4")
    held = index.data[offset : offset + len(operand)]
    if not OPERATIONS[operation](held, operand):
        raise Refusal("POLICY", "A5", held=held)


class Commands(Held):
    """The commands on indices, for a device with `indices` and the `largest_counter` so far."""

    def asked(self, request: Request) -> tuple[int, Index]:
        asker, handle = request.handles
        return asker, self.indices[handle]

    @takes(buffer(), structure(read_public))
    def nv_define_space(self, request: Request, auth_value: bytes, public: Public) -> Answer:
        auth_value = trimmed(auth_value)
        check_definition(public, auth_value, request.handles[0], self.indices)
        self.indices[public.index] = Index(public, auth_value)
        return Answer()

    @takes()
    def nv_undefine_space(self, request: Request) -> Answer:
        hierarchy, handle = request.handles
        if hierarchy == RH_OWNER and self.indices[handle].public.has(Attribute.PLATFORMCREATE):
            raise Refusal("NV_AUTHORIZATION", "A1")
        del self.indices[handle]
        return Answer()

    @takes()
    def nv_read_public(self, request: Request) -> Answer:
        public = self.indices[request.handles[0]].public
        return Answer(sized(public.text) + sized(public.name))

    @takes(buffer(BUFFER_BYTES), integer(2))
    def nv_write(self, request: Request, data: bytes, offset: int) -> Answer:
        asker, index = self.asked(request)
        size = index.public.data_size
        check_writing(index.public, asker, Type.ORDINARY)
        check_range(index.public, offset, len(data), "A4")
        if index.public.has(Attribute.WRITEALL) and len(data) != size:
            raise Refusal("NV_RANGE", "A4", case="all", size=len(data), most=size)
        # Bytes outside the first write become ff.
        old = index.data if index.public.has(Attribute.WRITTEN) else b"\xff" * size
        index.write(old[:offset] + data + old[offset + len(data) :])
        return Answer()

    @takes()
    def nv_increment(self, request: Request) -> Answer:
        asker, index = self.asked(request)
        check_writing(index.public, asker, Type.COUNTER)
        # A new counter starts at the largest value so far, so redefining a counter does not
        # decrease it.
        old = self.largest_counter
        if index.public.has(Attribute.WRITTEN):
            old = unsigned(index.data)
        if old == LARGEST:
            raise Refusal("NV_RANGE", "A4", most=LARGEST)
        self.largest_counter = max(self.largest_counter, old + 1)
        index.write(number(old + 1, NUMBER_BYTES))
        return Answer()

    @takes(integer(NUMBER_BYTES))
    def nv_set_bits(self, request: Request, bits: int) -> Answer:
        asker, index = self.asked(request)
        check_writing(index.public, asker, Type.BITS)
        index.write(number(unsigned(index.data) | bits, NUMBER_BYTES))
        return Answer()

    @takes(buffer(BUFFER_BYTES))
    def nv_extend(self, request: Request, data: bytes) -> Answer:
        asker, index = self.asked(request)
        check_writing(index.public, asker, Type.EXTEND)
        old = index.data or bytes(index.public.data_size)
        index.write(digest(index.public.name_algorithm, old + data))
        return Answer()

    @takes(integer(2), integer(2))
    def nv_read(self, request: Request, size: int, offset: int) -> Answer:
        asker, index = self.asked(request)
        check_reading(index.public, asker)
        if size > BUFFER_BYTES:
            raise Refusal("VALUE/p1", "A4", most=BUFFER_BYTES)
        check_range(index.public, offset, size, "A5")
        return Answer(sized(index.data[offset : offset + size]))

    @takes()
    def nv_write_lock(self, request: Request) -> Answer:
        asker, index = self.asked(request)
        check_asker(index.public, asker, *WRITERS)
        if not index.public.has(Attribute.WRITEDEFINE | Attribute.WRITE_STCLEAR):
            raise Refusal("ATTRIBUTES/h2", "A2")
        index.mark(Attribute.WRITELOCKED)
        return Answer()

    @takes()
    def nv_read_lock(self, request: Request) -> Answer:
        asker, index = self.asked(request)
        check_asker(index.public, asker, *READERS)
        if not index.public.has(Attribute.READ_STCLEAR):
            raise Refusal("ATTRIBUTES/h2", "A2")
        index.mark(Attribute.READLOCKED)
        return Answer()

    @takes(buffer())
    def nv_change_auth(self, request: Request, new: bytes) -> Answer:
        new = trimmed(new)
        index = self.indices[request.handles[0]]
        most = digest_bytes(index.public.name_algorithm)
        if len(new) > most:
            raise Refusal("SIZE/p1", "A1", size=len(new), most=most)
        index.auth_value = new
        return Answer()
