"""Methods that prepare commands. Their arguments differ from those in Part 3. The methods of most
other commands are made from their short names (short_names.py).
"""

from typing import Any, Sequence

from tpmsim.caller.calls import Commands
from tpmsim.caller.entries import Made, Means, Prepared, Session
from tpmsim.standard import CC, frames, objects, RH_ENDORSEMENT, SHA1, SHA256
from tpmsim.standard.given import write_in_order

# A selection: for each bank its hash algorithm and the numbers of the selected PCRs.
Selection = Sequence[tuple[int, Sequence[int]]]


class PreparedCommands(Commands):
    """Methods that prepare a command to be sent. Sizes of buffers are in bytes."""

    def bare(self, code: CC, those: Sequence[int], uses: Sequence[Means], *values: Any) -> Prepared:
        """Prepares a command with a value for each parameter, and with an entry for each use."""
        return self.prepare(code, those, write_in_order(code, *values), *uses)

    def reset(self, *uses: Means, pcr: int = 16) -> Prepared:
        """TPM2_PCR_Reset. Without `uses`, the command has no entries."""
        return self.bare(CC.PCR_Reset, [pcr], uses)

    def event(self, data: bytes, *uses: Means, pcr: int = 16) -> Prepared:
        """TPM2_PCR_Event. Without `uses`, the command has no entries."""
        return self.bare(CC.PCR_Event, [pcr], uses, data)

    def change_auth(self, hierarchy: int, new: bytes, *uses: Means) -> Prepared:
        """TPM2_HierarchyChangeAuth. Without `uses`, the command has no entries."""
        return self.bare(CC.HierarchyChangeAuth, [hierarchy], uses, new)

    def read_pcr(self, pcr: int, *uses: Means) -> Prepared:
        """Prepares a read of a PCR in both banks."""
        return self.asked(CC.PCR_Read, [], uses, [(SHA1, [pcr]), (SHA256, [pcr])])

    def told(self, code: CC, session: Session, parameters: bytes = b"", *uses: Means) -> Prepared:
        """Any policy command, with its parameters as bytes."""
        return self.prepare(code, [session.handle], parameters, *uses)

    def branches(self, session: Session, *digests: bytes, count: int | None = None) -> Prepared:
        """TPM2_PolicyOR. The count in the list of digests is the number of digests, unless `count`
        is passed.
        """
        return self.told(CC.PolicyOR, session, frames.sized_list(*digests, count=count))

    def pcrs(
        self,
        session: Session,
        banks: Selection | str,
        given: bytes = b"",
        uses: Sequence[Means] = (),
    ) -> Prepared:
        """TPM2_PolicyPCR; `given` is the expected digest of the PCR values, or empty bytes."""
        return self.asked(CC.PolicyPCR, [session], uses, given, banks)

    def secret(
        self,
        session: Session,
        *uses: Means,
        of: int = RH_ENDORSEMENT,
        nonce_tpm: bytes = b"",
        cp_hash: bytes = b"",
        policy_ref: bytes = b"",
        expiration: int = 0,
    ) -> Prepared:
        """TPM2_PolicySecret. Without `uses`, the empty password authorizes the command."""
        values = nonce_tpm, cp_hash, policy_ref, expiration
        return self.bare(CC.PolicySecret, [of, session.handle], uses or [b""], *values)

    def comparing(
        self,
        session: Session,
        index: int,
        operand: bytes,
        *uses: Means,
        offset: int = 0,
        operation: int = 0,
        by: int | None = None,
    ) -> Prepared:
        """TPM2_PolicyNV; operation 0 tests for equality. The index authorizes the command unless
        `by` names another handle.
        """
        those = [index if by is None else by, index, session.handle]
        return self.asked(CC.PolicyNV, those, uses, operand, offset, operation)

    def creation(
        self,
        code: CC,
        handle: int,
        public: objects.Public,
        *uses: Means,
        user_auth: bytes = b"",
        data: bytes = b"",
        outside_info: bytes = b"",
        pcrs: Selection = (),
    ) -> Prepared:
        """TPM2_CreatePrimary or TPM2_Create."""
        sensitive = objects.Sensitive(user_auth, data)
        return self.asked(code, [handle], uses, sensitive, public, outside_info, pcrs)

    def primary(
        self, hierarchy: int, public: objects.Public, *uses: Means, **more: Any
    ) -> Prepared:
        """TPM2_CreatePrimary; `more` is passed to `creation`."""
        return self.creation(CC.CreatePrimary, hierarchy, public, *uses, **more)

    def child(self, parent: int, public: objects.Public, *uses: Means, **more: Any) -> Prepared:
        """TPM2_Create; `more` is passed to `creation`."""
        return self.creation(CC.Create, parent, public, *uses, **more)

    def loading(self, parent: int, made: Made, *uses: Means) -> Prepared:
        """TPM2_Load of an object that TPM2_Create returned."""
        return self.asked(CC.Load, [parent], uses, made.private, made.public)
