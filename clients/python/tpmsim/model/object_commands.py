"""The object commands (TPM 2.0 Library, Part 3, sections 12, 15 and 24)."""

from dataclasses import replace
from typing import Any

from tpmsim.model import object_rules
from tpmsim.model.general import Answer, Refusal
from tpmsim.model.object_rules import Object, Template
from tpmsim.model.parameters import buffer, choice, Held, Request, structure, takes
from tpmsim.standard import aes, ALG_NULL, digest, HASHES, KEYEDHASH, mac, number, sized, TRANSIENT
from tpmsim.standard import trimmed
from tpmsim.standard.objects import Attribute, Public

# The largest number of transient objects, and the largest size of data for TPM2_HMAC.
OBJECTS = 8
HMAC_BYTES = 1024


class Commands(Held):
    """The commands for a device with `objects`, PCRs, and the hierarchies' `seeds` and `proofs`."""

    def free_objects(self) -> list[int]:
        """Returns the handles of the free slots, in ascending order."""
        places = [TRANSIENT << 24 | it for it in range(OBJECTS)]
        return [it for it in places if it not in self.objects]

    def free_object(self, check: str) -> int:
        free = self.free_objects()
        if not free:
            raise Refusal("OBJECT_MEMORY", check, most=OBJECTS)
        return free[0]

    def parent(self, handle: int) -> Object:
        parent = self.objects[handle]
        if not parent.public.is_parent:
            raise Refusal("TYPE/h1", "A1")
        return parent

    def creation(
        self,
        template: Template,
        public: Public,
        parent: Object | None,
        hierarchy: int,
        locality: int,
    ) -> bytes:
        """Returns what the responses to TPM2_CreatePrimary and TPM2_Create contain: the public
        area, the creation data, the hash of the creation data, and the ticket.
        """
        values = self.values(template.pcrs)
        data = object_rules.creation_data(template, parent, hierarchy, values, locality)
        data_hash = digest(public.name_algorithm, data)
        proof = self.proofs[hierarchy]
        made_here = object_rules.creation_ticket(hierarchy, proof, public.name, data_hash)
        return sized(public.text) + sized(data) + sized(data_hash) + made_here

    @takes(*object_rules.TEMPLATE)
    def create_primary(self, request: Request, *given: Any) -> Answer:
        template = Template(*given)
        object_rules.check_public(template.public, parent=None)
        object_rules.check_sensitive(template, parent=None)
        handle = self.free_object("A7")

        (hierarchy,) = request.handles
        primary = object_rules.primary(template, hierarchy, self.seeds[hierarchy])
        self.objects[handle] = primary
        creation = self.creation(template, primary.public, None, hierarchy, request.locality)
        return Answer(creation + sized(primary.name), number(handle, 4))

    @takes(*object_rules.TEMPLATE)
    def create(self, request: Request, *given: Any) -> Answer:
        template = Template(*given)
        parent = self.parent(request.handles[0])
        object_rules.check_public(template.public, parent)
        object_rules.check_sensitive(template, parent)

        public, sensitive, drawn = object_rules.created(template, request.random)
        iv = request.random[drawn : drawn + aes.BLOCK]
        private = object_rules.wrapped(parent, public.name, sensitive, iv, self.block_cipher)
        creation = self.creation(template, public, parent, parent.hierarchy, request.locality)
        return Answer(sized(private) + creation, drawn=drawn + aes.BLOCK)

    @takes(buffer(object_rules.PRIVATE_BYTES), structure(object_rules.read_public))
    def load(self, request: Request, private: bytes, public: Public) -> Answer:
        parent = self.parent(request.handles[0])
        object_rules.check_public(public, parent)
        sensitive = object_rules.unwrapped(parent, public, private, self.block_cipher)
        handle = self.free_object("A6")

        sensitive = replace(sensitive, auth_value=trimmed(sensitive.auth_value))
        above = parent.hierarchy, parent.qualified_name
        self.objects[handle] = object_rules.loaded(public, sensitive, *above)
        return Answer(sized(public.name), number(handle, 4))

    @takes()
    def read_public(self, request: Request) -> Answer:
        asked = self.objects[request.handles[0]]
        return Answer(sized(asked.public.text) + sized(asked.name) + sized(asked.qualified_name))

    @takes()
    def unseal(self, request: Request) -> Answer:
        sealed = self.objects[request.handles[0]]
        if sealed.public.kind != KEYEDHASH:
            raise Refusal("TYPE/h1", "A1")
        if sealed.public.has(Attribute.SIGN):
            raise Refusal("ATTRIBUTES/h1", "A2")
        return Answer(sized(sealed.sensitive.data))

    @takes(buffer(HMAC_BYTES), choice(2, (ALG_NULL, *HASHES), "HASH"))
    def hmac(self, request: Request, data: bytes, asked: int) -> Answer:
        key = self.objects[request.handles[0]]
        scheme = key.public.scheme
        if key.public.kind != KEYEDHASH:
            raise Refusal("TYPE/h1", "A1")
        if key.public.has(Attribute.RESTRICTED):
            raise Refusal("ATTRIBUTES/h1", "A2")
        if not key.public.has(Attribute.SIGN):
            raise Refusal("KEY/h1", "A3")
        # The hash algorithm is that of the key's scheme; for scheme NULL the caller chooses one.
        chosen = {scheme, asked} - {ALG_NULL}
        if len(chosen) != 1:
            case = "HMAC" if chosen else "NULL"
            raise Refusal("VALUE/p2", "A4", case=case, scheme=scheme)
        (algorithm,) = chosen
        return Answer(sized(mac(algorithm, key.sensitive.data, data)))
