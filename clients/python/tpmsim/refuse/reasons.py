"""Why a TPM cannot answer a correct command with a refusal, whatever its state is."""

from tpmsim.standard import CC, HandleKind
from tpmsim.standard.rows import Kind, Row

# The kinds of handles that only a value authorizes: hierarchies and PCRs.
WITHOUT_POLICY = (
    *(HandleKind.PCR, HandleKind.PCR_OR_NULL, HandleKind.HIERARCHY_OR_NULL),
    *(HandleKind.HIERARCHY_AUTH, HandleKind.LOCKOUT, HandleKind.CLEAR, HandleKind.PROVISION),
)

# The refusals of a policy session or trial session that no other entry meets there.
OF_POLICY_SESSIONS = "ATTRIBUTES/s1", "AUTH_UNAVAILABLE"

# The commands whose check A1 compares the locality.
OF_LOCALITY = CC.PCR_Extend, CC.PCR_Event, CC.PCR_Reset


def reason_of(row: Row) -> str:
    """Returns why no change of the state makes a correct command meet a row; empty if one can."""
    if row.kind in (Kind.FORM, Kind.VALUE):
        words = "this refusal depends on the bytes of the command, and not on the state"
        return f"{words}: tpmsim-refusals {row.name} {row.check} prints such a command"
    if row.check == "A1" and row.command in OF_LOCALITY:
        return "this refusal depends on the locality, which comes with the command"
    is_of_policy = row.check == "G9" and row.code_name in OF_POLICY_SESSIONS
    if is_of_policy and row.command.handles[0].kind in WITHOUT_POLICY:
        words = "a hierarchy and a PCR have no policy"
        return f"{words}, so that only a command with a policy session meets this refusal"
    return ""
