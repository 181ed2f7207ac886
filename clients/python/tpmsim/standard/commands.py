"""The implemented commands, each as one entry of the enumeration below, in the words of the TPM 2.0
Library, Part 3. Everything else about a command follows from its entry: its number, its format, its
line, how a policy names it, what TPM2_GetCapability returns, and the method that executes it.
"""

from __future__ import annotations

import difflib
import enum
import re
from dataclasses import dataclass
from typing import Iterable


class HandleKind(enum.Enum):
    """The type of a handle: a TPMI_DH_, TPMI_RH_ or TPMI_SH_ type of the standard, without that
    prefix. With a `+` the handle may also be TPM_RH_NULL.
    """

    PCR = "PCR"
    PCR_OR_NULL = "PCR+"
    NULL = "NULL"
    HIERARCHY_OR_NULL = "HIERARCHY+"
    HIERARCHY_AUTH = "HIERARCHY_AUTH"
    LOCKOUT = "LOCKOUT"
    CLEAR = "CLEAR"
    PROVISION = "PROVISION"
    ENTITY = "ENTITY"
    ENTITY_OR_NULL = "ENTITY+"
    OBJECT = "OBJECT"
    NV_AUTH = "NV_AUTH"
    NV_INDEX = "NV_INDEX"
    POLICY = "POLICY"
    SESSION = "AUTH_SESSION"


class Kind(enum.Enum):
    """The type of a parameter: a word of docs/SCRIPTS.md; a number that is printed in hex, because
    it is a set of bits, a code or a handle; or a structure that occurs only in responses.
    """

    U8 = "u8"
    U16 = "u16"
    U32 = "u32"
    BITS8 = "bits8"
    BITS64 = "bits64"
    CODE = "code32"
    HANDLE = "handle32"
    BUFFER = "Buffer"
    BUFFERS = "Buffers"
    SELECTION = "Selection"
    DIGESTS = "Digests"
    CIPHER = "Cipher"
    HASH = "Hash"
    HIERARCHY = "Hierarchy"
    ALGORITHMS = "Algorithms"
    BYTES = "Bytes"
    CAPABILITY = "Capability"
    TICKET = "Ticket"
    TIME = "Time"


class Fact(enum.Enum):
    """Other properties of a command. NO_SESSIONS: the command takes no entries. ADMIN: the role of
    its handle is ADMIN instead of USER. READS_NV: an NV index that authorizes the command needs the
    attributes for reading instead of those for writing. KEEPS_SAVED: if the command succeeds, the
    state that a shutdown saved is not discarded. COMPLETE_ONLY: only a device of the complete
    profile serves the command.
    """

    NO_SESSIONS = enum.auto()
    ADMIN = enum.auto()
    READS_NV = enum.auto()
    KEEPS_SAVED = enum.auto()
    COMPLETE_ONLY = enum.auto()


NO_SESSIONS, ADMIN = Fact.NO_SESSIONS, Fact.ADMIN
READS_NV, KEEPS_SAVED = Fact.READS_NV, Fact.KEEPS_SAVED
COMPLETE_ONLY = Fact.COMPLETE_ONLY


@dataclass(frozen=True)
class Handle:
    """A handle of a command. An `@` before its name means that it needs authorization."""

    name: str
    kind: HandleKind
    is_authorized: bool


@dataclass(frozen=True)
class Parameter:
    name: str
    kind: Kind


def read_fields(text: str) -> tuple[tuple[Handle, ...], tuple[Parameter, ...]]:
    """Parses the handles and the parameters in a text, in this order, each as `name:kind`."""
    handles, parameters = [], []
    for word in text.split():
        name, _, kind = word.partition(":")
        if kind in KINDS:
            parameters.append(Parameter(name, Kind(kind)))
        else:
            assert not parameters, f"a handle after a parameter: {word}"
            handles.append(Handle(name.lstrip("@"), HandleKind(kind), name.startswith("@")))
    return tuple(handles), tuple(parameters)


KINDS = {it.value for it in Kind}


class CC(enum.IntEnum):
    """TPM_CC (Part 2, section 6.5.2): each command by its name in the standard without `TPM2_`. An
    entry contains the command's number; its handles, the authorized ones first, and its parameters;
    the handle and the parameters of a successful response; and its other properties. Names are
    those of Part 3.
    """

    handles: tuple[Handle, ...]
    parameters: tuple[Parameter, ...]
    answered_handles: tuple[Handle, ...]
    answered_parameters: tuple[Parameter, ...]
    facts: tuple[Fact, ...]

    def __new__(cls, number: int, asked: str = "", answered: str = "", *facts: Fact) -> CC:
        it = int.__new__(cls, number)
        it._value_ = number
        it.handles, it.parameters = read_fields(asked)
        it.answered_handles, it.answered_parameters = read_fields(answered)
        it.facts = facts
        return it

    Startup = 0x144, "startupType:u16", "", NO_SESSIONS
    Shutdown = 0x145, "shutdownType:u16", "", KEEPS_SAVED
    SelfTest = 0x143, "fullTest:u8", "", KEEPS_SAVED
    GetCapability = (
        0x17A,
        "capability:code32 property:code32 propertyCount:u32",
        "moreData:u8 capabilityData:Capability",
        KEEPS_SAVED,
    )
    GetRandom = 0x17B, "bytesRequested:u16", "randomBytes:Buffer", KEEPS_SAVED
    ReadClock = 0x181, "", "currentTime:Time", NO_SESSIONS, KEEPS_SAVED

    StirRandom = 0x146, "inData:Buffer", "", KEEPS_SAVED, COMPLETE_ONLY
    GetTestResult = 0x17C, "", "outData:Buffer testResult:code32", KEEPS_SAVED, COMPLETE_ONLY
    IncrementalSelfTest = (
        0x142,
        "toTest:Algorithms",
        "toDoList:Algorithms",
        KEEPS_SAVED,
        COMPLETE_ONLY,
    )
    TestParms = 0x18A, "parameters:Bytes", "", KEEPS_SAVED, COMPLETE_ONLY
    Hash = (
        0x17D,
        "data:Buffer hashAlg:Hash hierarchy:Hierarchy",
        "outHash:Buffer validation:Ticket",
        KEEPS_SAVED,
        COMPLETE_ONLY,
    )
    ClockSet = 0x128, "@auth:PROVISION newTime:bits64", "", COMPLETE_ONLY
    ClockRateAdjust = 0x130, "@auth:PROVISION rateAdjust:bits8", "", KEEPS_SAVED, COMPLETE_ONLY

    PCR_Extend = 0x182, "@pcrHandle:PCR+ digests:Digests"
    PCR_Event = 0x13C, "@pcrHandle:PCR+ eventData:Buffer", "digests:Digests"
    PCR_Read = (
        0x17E,
        "pcrSelectionIn:Selection",
        "pcrUpdateCounter:u32 pcrSelectionOut:Selection pcrValues:Buffers",
        KEEPS_SAVED,
    )
    PCR_Reset = 0x13D, "@pcrHandle:PCR"

    # In the standard, tpmKey is a TPMI_DH_OBJECT+. No key of this device can decrypt a salt.
    StartAuthSession = (
        0x176,
        "tpmKey:NULL bind:ENTITY+ nonceCaller:Buffer encryptedSalt:Buffer sessionType:u8 "
        "symmetric:Cipher authHash:Hash",
        "sessionHandle:AUTH_SESSION nonceTPM:Buffer",
    )
    FlushContext = 0x165, "flushHandle:handle32", "", NO_SESSIONS

    PolicyRestart = 0x180, "sessionHandle:POLICY"
    PolicyPCR = 0x17F, "policySession:POLICY pcrDigest:Buffer pcrs:Selection"
    PolicyOR = 0x171, "policySession:POLICY pHashList:Buffers"
    PolicyAuthValue = 0x16B, "policySession:POLICY"
    PolicyPassword = 0x18C, "policySession:POLICY"
    PolicyCommandCode = 0x16C, "policySession:POLICY code:code32"
    PolicyCpHash = 0x16E, "policySession:POLICY cpHashA:Buffer"
    PolicyNvWritten = 0x18F, "policySession:POLICY writtenSet:u8"
    PolicyNV = (
        0x149,
        "@authHandle:NV_AUTH nvIndex:NV_INDEX policySession:POLICY operandB:Buffer offset:u16 "
        "operation:u16",
        "",
        READS_NV,
    )
    PolicyLocality = 0x16F, "policySession:POLICY locality:bits8"
    PolicySecret = (
        0x151,
        "@authHandle:ENTITY policySession:POLICY nonceTPM:Buffer cpHashA:Buffer policyRef:Buffer "
        "expiration:u32",
        "timeout:Buffer policyTicket:Ticket",
        READS_NV,
    )
    PolicyGetDigest = 0x189, "policySession:POLICY", "policyDigest:Buffer", KEEPS_SAVED

    CreatePrimary = (
        0x131,
        "@primaryHandle:HIERARCHY+ inSensitive:Buffer inPublic:Buffer outsideInfo:Buffer "
        "creationPCR:Selection",
        "objectHandle:OBJECT outPublic:Buffer creationData:Buffer creationHash:Buffer "
        "creationTicket:Ticket name:Buffer",
    )
    Create = (
        0x153,
        "@parentHandle:OBJECT inSensitive:Buffer inPublic:Buffer outsideInfo:Buffer "
        "creationPCR:Selection",
        "outPrivate:Buffer outPublic:Buffer creationData:Buffer creationHash:Buffer "
        "creationTicket:Ticket",
        KEEPS_SAVED,
    )
    Load = (
        0x157,
        "@parentHandle:OBJECT inPrivate:Buffer inPublic:Buffer",
        "objectHandle:OBJECT name:Buffer",
    )
    ReadPublic = (
        0x173,
        "objectHandle:OBJECT",
        "outPublic:Buffer name:Buffer qualifiedName:Buffer",
        KEEPS_SAVED,
    )
    Unseal = 0x15E, "@itemHandle:OBJECT", "outData:Buffer", KEEPS_SAVED
    HMAC = 0x155, "@handle:OBJECT buffer:Buffer hashAlg:Hash", "outHMAC:Buffer", KEEPS_SAVED
    EvictControl = 0x120, "@auth:PROVISION objectHandle:OBJECT persistentHandle:handle32"

    HierarchyChangeAuth = 0x129, "@authHandle:HIERARCHY_AUTH newAuth:Buffer"
    Clear = 0x126, "@authHandle:CLEAR"
    ClearControl = 0x127, "@auth:CLEAR disable:u8"

    NV_DefineSpace = 0x12A, "@authHandle:PROVISION auth:Buffer publicInfo:Buffer"
    NV_UndefineSpace = 0x122, "@authHandle:PROVISION nvIndex:NV_INDEX"
    NV_ReadPublic = 0x169, "nvIndex:NV_INDEX", "nvPublic:Buffer nvName:Buffer", KEEPS_SAVED
    NV_Write = 0x137, "@authHandle:NV_AUTH nvIndex:NV_INDEX data:Buffer offset:u16"
    NV_Increment = 0x134, "@authHandle:NV_AUTH nvIndex:NV_INDEX"
    NV_SetBits = 0x135, "@authHandle:NV_AUTH nvIndex:NV_INDEX bits:bits64"
    NV_Extend = 0x136, "@authHandle:NV_AUTH nvIndex:NV_INDEX data:Buffer"
    NV_Read = (
        0x14E,
        "@authHandle:NV_AUTH nvIndex:NV_INDEX size:u16 offset:u16",
        "data:Buffer",
        READS_NV,
        KEEPS_SAVED,
    )
    NV_WriteLock = 0x138, "@authHandle:NV_AUTH nvIndex:NV_INDEX"
    NV_ReadLock = 0x14F, "@authHandle:NV_AUTH nvIndex:NV_INDEX", "", READS_NV
    NV_ChangeAuth = 0x13B, "@nvIndex:NV_INDEX newAuth:Buffer", "", ADMIN

    DictionaryAttackLockReset = 0x139, "@lockHandle:LOCKOUT"
    DictionaryAttackParameters = (
        0x13A,
        "@lockHandle:LOCKOUT newMaxTries:u32 newRecoveryTime:u32 lockoutRecovery:u32",
    )

    # Properties that follow from an entry.

    def has(self, fact: Fact) -> bool:
        """Returns whether the command has a property."""
        return fact in self.facts

    @property
    def authorized(self) -> int:
        """The number of handles that need authorization."""
        return sum(it.is_authorized for it in self.handles)

    @property
    def answers_handle(self) -> bool:
        """Whether a successful response has a handle."""
        return bool(self.answered_handles)

    @property
    def takes_sized(self) -> bool:
        """Whether the first parameter is a sized buffer, which a session can decrypt."""
        return begins_with_buffer(self.parameters)

    @property
    def answers_sized(self) -> bool:
        """Whether the response's first parameter is a sized buffer, which a session can encrypt."""
        return begins_with_buffer(self.answered_parameters)

    @property
    def method_name(self) -> str:
        """The command's name in lowercase, with `_` between words."""
        return re.sub("(?<=[a-z])(?=[A-Z])", "_", self.name).lower()


def begins_with_buffer(parameters: tuple[Parameter, ...]) -> bool:
    """Returns whether the first parameter is a sized buffer."""
    return bool(parameters) and parameters[0].kind == Kind.BUFFER


class Profile(enum.Enum):
    """The profile of a device, which determines the commands that the device serves."""

    SYMMETRIC = enum.auto()
    COMPLETE = enum.auto()

    @property
    def commands(self) -> dict[int, CC]:
        """The commands that a device of this profile serves, by number."""
        return NUMBERED if self == Profile.SYMMETRIC else ALL_NUMBERED


def close_name(word: str, names: Iterable[str]) -> str | None:
    """Returns the name of a command that a word is close to, if there is one."""
    lower = {it.lower(): it for it in names}
    close = difflib.get_close_matches(word.removeprefix("TPM2_").lower(), lower, 1)
    return lower[close[0]] if close else None


# All commands, and those of the symmetric profile, by number and by name.
ALL_NUMBERED: dict[int, CC] = {int(it): it for it in CC}
NUMBERED: dict[int, CC] = {int(it): it for it in CC if not it.has(COMPLETE_ONLY)}
NAMED: dict[str, CC] = {it.name: it for it in NUMBERED.values()}
