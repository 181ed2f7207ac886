"""Compares the description of the commands, clients/python/tpmsim/standard/commands.py, with the program:

    tools/python.sh tests/common/described_commands.py PROGRAM

The test asks the program about each property of each command. For each kind of property it prints
the number of questions. Lines that begin with DIFFERS report differences. Then, for each kind of
property, the test makes one mistake about one command in the description, and checks that comparing
the changed description with the program finds it.
"""

import concurrent.futures
import functools
import sys
from collections.abc import Callable, Iterable, Iterator
from dataclasses import dataclass, replace
from unittest import mock

from tpmsim.caller import HERE, sealed, STATE
from tpmsim.caller.examples import EXAMPLES, Scene
from tpmsim.device import ChildDevice
from tpmsim.model.capability import COMMANDS, TOTAL_COMMANDS, command_attributes
from tpmsim.standard import CC, Fact, Fields, Handle, HandleKind, Kind, NUMBERED
from tpmsim.standard import RH_LOCKOUT, RH_NULL, RH_OWNER, RH_PLATFORM, RS_PW, SHA256, frames
from tpmsim.standard import handle_kinds, lines, number, Short
from tpmsim.standard.nv import Attribute, Public
from tpmsim.standard.objects import Attribute as ObjectAttribute
from tpmsim.standard.values import read_all
from tests.common.expected import assembled, line_told
from tests.common.shims import Ending, fail, ran

AT_ONCE = 4

# The entities of the tested device. The first index and the object have the policy digest of a
# session without assertions. Of the other two indices, one can be authorized only for reading and
# the other only for writing.
PCR, AES_SESSION, POLICY_SESSION = 16, 0x0200_0000, 0x0300_0001
OBJECT, PERSISTENT = 0x8000_0000, 0x8100_0000
INDEX, READ_INDEX, WRITE_INDEX = range(0x0100_0000, 0x0100_0003)
THERE = (
    *(PCR, RH_NULL, RH_OWNER, frames.RH_ENDORSEMENT, RH_PLATFORM, RH_LOCKOUT, OBJECT, PERSISTENT),
    *(INDEX, POLICY_SESSION, AES_SESSION),
)
NO_HANDLES = RS_PW, 24, 0x0400_0000, 0xFFFF_FFFF

NONCE, NO_POLICY, UNTOLD = "00" * 16, b"", bytes(32)

# Tokens for parameters. Each kind of parameter accepts some of them and refuses others.
TOKENS = (
    *("7", "00", "00+01", "-", "255", "256", "65535", "65536", "0xffffffff", "0x100000000"),
    *("18446744073709551615", "18446744073709551616", "sha256:0", "sha1:" + "00" * 20, "sha256"),
    *("null", "aes", "xor-sha1", "x"),
)


@dataclass(frozen=True)
class Program:
    path: str

    def run(self, script: Iterable[str], *options: str) -> list[str]:
        """Returns the lines that the program prints for a script."""
        text = "".join(f"{it}\n" for it in script).encode("ascii")
        done = ran(self.path, "run", *options, "-", stdin=text)
        if done.status:
            fail(f"{done.error}")
        return done.output.decode("ascii").splitlines()

    @functools.cache
    def told(self, word: str, argument: str) -> Ending:
        """Returns the result of `tpmsim asm` or `tpmsim line` for an argument."""
        return ran(self.path, word, argument)


@dataclass(frozen=True)
class Asked:
    """A question to the program, with the answer that the description implies and the program's
    answer.
    """

    what: str
    described: object
    found: object


# The tested device, and functions that execute commands on it.


def index_line(index: int, attributes: int, auth_policy: bytes) -> str:
    public = Public(index, SHA256, attributes | Attribute.NO_DA, auth_policy)
    return f"do NV_DefineSpace OWNER pw:- - {public.text.hex()}"


def setup() -> list[str]:
    public = sealed(attributes=HERE | ObjectAttribute.NO_DA, auth_policy=UNTOLD).text
    sensitive = frames.sensitive_create(data=b"data")[2:]
    reads, writes = Attribute.AUTHREAD, Attribute.AUTHWRITE
    by_policy = Attribute.POLICYREAD | Attribute.POLICYWRITE
    return [
        "do Startup 0",
        f"do StartAuthSession NULL NULL {NONCE} - 0 aes sha256",
        f"do StartAuthSession NULL NULL {NONCE} - 1 null sha256",
        f"do CreatePrimary OWNER pw:- {sensitive.hex()} {public.hex()} - -",
        f"do EvictControl OWNER {OBJECT:08x} pw:- {PERSISTENT:#x}",
        index_line(INDEX, by_policy, UNTOLD),
        index_line(READ_INDEX, reads | Attribute.OWNERWRITE, NO_POLICY),
        index_line(WRITE_INDEX, writes | Attribute.OWNERREAD, NO_POLICY),
    ]


@dataclass(frozen=True)
class Answer:
    """The result of a command: the check that refused it, or `ok`, and the response code."""

    check: str
    code: int

    def is_refusal(self, check: str, name: str) -> bool:
        return (self.check, self.code) == (check, frames.code_of(name))

    def is_behind(self, check: str, refusal: str) -> bool | str:
        """Returns false if `check` refused the command with the response code `refusal`, which no
        other check uses, and true if the command passed `check`. Otherwise describes the refusal.
        """
        if self.is_refusal(check, refusal):
            return False
        order = [*(f"G{it}" for it in range(1, 12)), *(f"A{it}" for it in range(1, 8)), "ok"]
        return order.index(self.check) > order.index(check) or f"{self.check} {self.code:03X}"


def answers_of(program: Program, code: CC, buffers: list[bytes]) -> list[Answer]:
    """Executes the buffers one after another, and returns the results. The lines of `setup` are
    executed first, unless the command is TPM2_Startup.
    """
    before = [] if code == CC.Startup else setup()
    printed = program.run([*before, *(f"cmd {it.hex()}" for it in buffers)], "--trace")[::2]
    answers = [Answer(it.split(" ")[3], int(it.split(" ")[4], 16)) for it in printed]
    assert all(it.check == "ok" for it in answers[: len(before)]), printed
    return answers[len(before) :]


def takes(handle: Handle, number: int) -> bool:
    return handle_kinds.IS_OF_KIND[handle.kind](number)


def right_handles(code: CC) -> list[int]:
    """Returns handles of existing entities that the command accepts."""
    return [next(it for it in THERE if takes(wanted, it)) for wanted in code.handles]


def buffer_of(code: CC, handles: list[int], *entries: bytes) -> bytes:
    """Returns a command whose parameters are a single byte, so that hardly any command succeeds."""
    if entries:
        return frames.on_handles(code, handles, b"\0", list(entries))
    return frames.buffer_of(code, handles, [], b"\0")


# Functions that each check one property of commands. They yield questions to the program about some
# of the commands.


def attributes(program: Program, codes: list[CC]) -> Iterator[Asked]:
    """Compares the described command attributes, and the number of commands, with those that
    TPM2_GetCapability reports.
    """
    asking = [f"do GetCapability {COMMANDS} {it:#x} 1" for it in codes]
    total = f"do GetCapability 6 {TOTAL_COMMANDS:#x} 1"
    printed = program.run(["do Startup 0", *asking, total])[1:]
    for code, answer in zip(codes, printed):
        yield Asked(f"{code.name}: attributes", command_attributes(code), int(answer[-8:], 16))
    yield Asked("how many commands there are", len(NUMBERED), int(printed[-1][-8:], 16))


def served(program: Program, codes: list[CC]) -> Iterator[Asked]:
    """Checks that the description is right about which commands the device supports, and which
    commands a policy can name.
    """
    numbers = range(0x100, 0x200) if len(codes) == len(NUMBERED) else [int(it) for it in codes]
    for wanted, refusal, buffer in (
        ("served", "COMMAND_CODE", lambda it: frames.command(it, b"\0")),
        ("named by a policy", "POLICY_CC/p1", naming),
    ):
        script = [
            line
            for it in numbers
            for line in (f"do PolicyRestart {POLICY_SESSION:08x}", f"cmd {buffer(it).hex()}")
        ]
        answers = program.run([*setup(), *script])[len(setup()) :][1::2]
        for it, answer in zip(numbers, answers):
            is_refused = int(answer[12:20], 16) == frames.code_of(refusal)
            yield Asked(f"{it:X} is {wanted}", it in NUMBERED, not is_refused)


def naming(code: int) -> bytes:
    return frames.command(CC.PolicyCommandCode, number(POLICY_SESSION, 4) + number(code, 4))


def told(program: Program, word: str, said: list[str], wanted: Callable) -> Iterator[Asked]:
    """Compares the results of `tpmsim asm` or `tpmsim line` for these arguments with the expected
    results.
    """
    with concurrent.futures.ThreadPoolExecutor(AT_ONCE) as pool:
        for it, found in zip(said, pool.map(lambda it: program.told(word, it), said)):
            yield Asked(f"{word} {it}", wanted(it), found)


def parameters(program: Program, codes: list[CC]) -> Iterator[Asked]:
    """Compares the described names of commands, and the number and kinds of their parameters, with
    what `tpmsim asm` accepts.
    """
    said = [line for code in codes for line in parameter_lines(code)]
    return told(program, "asm", said, lambda it: assembled(it.encode()))


def parameter_lines(code: CC) -> Iterator[str]:
    """Yields lines of a command: with each of TOKENS as each parameter; truncated before each word;
    and with an extra word.
    """
    words = [code.name, *("01000000" for _ in code.handles), *map(sample, code.parameters)]
    front = len(words) - len(code.parameters)
    for place in range(1, len(words) + 1):
        yield " ".join(words[:place])
    yield " ".join([*words, "00000000"])
    for place in range(front, len(words)):
        for token in TOKENS:
            yield " ".join([*words[:place], token, *words[place + 1 :]])


def sample(parameter) -> str:
    """Returns a token that is valid for this kind of parameter."""
    for token in TOKENS:
        try:
            lines.WORDS[parameter.kind].spelled(token.encode())
            return token
        except lines.Wrong:
            continue
    raise ValueError(parameter)


def words(program: Program, codes: list[CC]) -> Iterator[Asked]:
    """Compares the output of `tpmsim line` for commands with the output that the description
    implies.
    """
    ended = [assembled(line.encode()) for code in codes for line in parameter_lines(code)]
    buffers = list(dict.fromkeys(it.output.decode().strip() for it in ended if not it.status))
    return told(program, "line", buffers, lambda it: line_told(bytes.fromhex(it)))


def kinds_of_handles(program: Program, codes: list[CC]) -> Iterator[Asked]:
    """Checks that the description is right about which handles a command accepts, both for existing
    and for missing entities.
    """
    for code in codes:
        right, wanted, buffers = right_handles(code), [], []
        for place, handle in enumerate(code.handles, 1):
            for other in (*THERE, *NO_HANDLES):
                wanted.append((place, other, takes(handle, other)))
                buffers.append(buffer_of(code, [*right[: place - 1], other]))
        for (place, other, is_taken), found in zip(wanted, answers_of(program, code, buffers)):
            is_refused = found.is_refusal("G6", f"VALUE/h{place}")
            yield Asked(f"{code.name} takes {other:08x} in place {place}", is_taken, not is_refused)


def authorizations(program: Program, codes: list[CC]) -> Iterator[Asked]:
    """Checks that the description is right about which handles need authorization, and whether a
    command accepts entries. If no handle of a command needs authorization, a password entry is
    refused with a special response code.
    """
    for code in codes:
        handles = right_handles(code)
        buffers = [buffer_of(code, handles), buffer_of(code, handles, *[frames.entry()] * 3)]
        bare, with_entries = answers_of(program, code, buffers)
        is_bare = bare.is_behind("G7", "AUTH_MISSING")
        yield Asked(f"{code.name} needs no entry", not code.authorized, is_bare)
        refusal = f"HANDLE/s{code.authorized + 1}"
        if code.has(Fact.NO_SESSIONS):
            refusal = "AUTH_CONTEXT"
        found = f"{with_entries.code:03X}"
        yield Asked(f"{code.name} by passwords", f"{frames.code_of(refusal):03X}", found)


def encryption(program: Program, codes: list[CC]) -> Iterator[Asked]:
    """Checks that the description is right about which commands and responses have a sized buffer
    as their first parameter. Only then may a session encrypt that parameter.
    """
    for code in codes:
        if code.has(Fact.NO_SESSIONS):
            continue
        passwords, place = [frames.entry()] * code.authorized, code.authorized + 1
        sessions = [
            frames.entry(AES_SESSION, bytes(16), frames.CONTINUE_SESSION | attribute, b"wrong")
            for attribute in (frames.DECRYPT, frames.ENCRYPT)
        ]
        buffers = [buffer_of(code, right_handles(code), *passwords, it) for it in sessions]
        refused = f"ATTRIBUTES/s{place}"
        answered = answers_of(program, code, buffers)
        decrypts, encrypts = (it.is_behind("G8", refused) for it in answered)
        yield Asked(f"{code.name} takes a sized buffer first", code.takes_sized, decrypts)
        yield Asked(f"{code.name} answers one first", code.answers_sized, encrypts)


def roles(program: Program, codes: list[CC]) -> Iterator[Asked]:
    """Checks that the description is right about which commands have the ADMIN role when an object
    or an index authorizes them. The ADMIN role needs a policy that names the command; the USER role
    does not.
    """
    untold = frames.entry(POLICY_SESSION, bytes(16))
    for code in codes:
        able = [it for it in (INDEX, OBJECT) if code.authorized and takes(code.handles[0], it)]
        handles = right_handles(code)
        buffers = [buffer_of(code, [it, *handles[1:]], untold) for it in able]
        for it, found in zip(able, answers_of(program, code, buffers)):
            is_user = found.is_behind("G9", "POLICY_FAIL/s1")
            what = f"{code.name} is authorized by {it:08x} in the user's role"
            yield Asked(what, not code.has(Fact.ADMIN), is_user)


def nv_attributes(program: Program, codes: list[CC]) -> Iterator[Asked]:
    """Checks that the description is right about whether a command that an index authorizes needs
    the index's attributes for reading or those for writing. The authorization value of an index
    never authorizes the ADMIN role.
    """
    for code in codes:
        if not code.authorized or not takes(code.handles[0], READ_INDEX):
            continue
        handles = right_handles(code)
        asked = {READ_INDEX: code.has(Fact.READS_NV), WRITE_INDEX: not code.has(Fact.READS_NV)}
        buffers = [buffer_of(code, [it, *handles[1:]], frames.entry()) for it in asked]
        for it, found in zip(asked, answers_of(program, code, buffers)):
            is_able = found.is_behind("G9", "AUTH_UNAVAILABLE")
            wanted = asked[it] and not code.has(Fact.ADMIN)
            yield Asked(f"{code.name} is authorized by {it:08x}", wanted, is_able)


@functools.cache
def after_shutdown(program: Program, code: CC) -> tuple[bytes, bool]:
    """Executes the example of a command after TPM2_Shutdown(STATE). Returns the response, and
    whether TPM2_Startup(STATE) succeeds after the next power cycle.
    """
    with ChildDevice(program=program.path) as device:
        scene, is_start = Scene.on(device), code == CC.Startup
        start = scene.tpm.starting(STATE)
        prepared = start if is_start else EXAMPLES[code](scene)
        scene.tpm.send(scene.tpm.shutting_down(STATE))
        if is_start:
            device.power_cycle()
        response = device.execute(prepared.buffer()).response
        device.power_cycle()
        return response, device.execute(start.buffer()).response == frames.success(b"")


def keeping(program: Program, codes: list[CC]) -> Iterator[Asked]:
    """Checks that the description is right about which commands leave a saved state valid, so that
    the next TPM2_Startup can resume it.
    """
    for code in codes:
        _, is_kept = after_shutdown(program, code)
        yield Asked(f"{code.name} keeps the state", code.has(Fact.KEEPS_SAVED), is_kept)


def answers(program: Program, codes: list[CC]) -> Iterator[Asked]:
    """Compares each response with its described fields, which must cover all its bytes."""
    for code in codes:
        response, _ = after_shutdown(program, code)
        yield Asked(f"{code.name}: its answer", "read", read_answer(code, response))


def read_answer(code: CC, response: bytes) -> str:
    fields = Fields(response)
    tag, _, refusal = fields.number(2), fields.number(4), fields.number(4)
    if refusal:
        return f"{refusal:03X}"
    try:
        handles = [fields.number(4) for _ in code.answered_handles]
        text = fields.take(fields.number(4)) if tag == frames.SESSIONS else fields.data
        values = read_all(code.answered_parameters, text)
        if code == CC.GetCapability:
            assert values["capabilityData"].properties
    except Short:
        return "cut"
    except ValueError:
        return "more"
    return "read" if all(map(takes, code.answered_handles, handles)) else "another handle"


CHECKS = {
    "attributes": attributes,
    "numbers that are served, and that a policy names": served,
    "kinds of parameters": parameters,
    "how parameters are shown": words,
    "kinds of handles": kinds_of_handles,
    "authorizations and entries": authorizations,
    "sized buffers": encryption,
    "roles": roles,
    "attributes of NV indices": nv_attributes,
    "saved states": keeping,
    "answers": answers,
}


# Wrong descriptions. Each states one wrong property of one command.


def with_handle(code: CC, **changes) -> dict:
    return {"handles": (replace(code.handles[0], **changes), *code.handles[1:])}


def with_parameter(code: CC, kind: Kind) -> dict:
    return {"parameters": (replace(code.parameters[0], kind=kind), *code.parameters[1:])}


def with_answer(code: CC, kind: Kind) -> dict:
    return {"answered_parameters": (replace(code.answered_parameters[0], kind=kind),)}


def with_fact(code: CC, fact: Fact) -> dict:
    return {"facts": tuple({*code.facts} ^ {fact})}


@dataclass(frozen=True)
class Wrong:
    """A wrong description of one property: the function that must find the mistake, the command,
    and the changes to its description.
    """

    what: str
    check: str
    code: CC
    changes: dict

    def is_found(self, program: Program) -> bool:
        with mock.patch.multiple(self.code, **self.changes):
            asked = CHECKS[self.check](program, [self.code])
            return any(it.described != it.found for it in asked)


READ, UNSEAL, RESET, CHANGE = CC.NV_Read, CC.Unseal, CC.PCR_Reset, CC.NV_ChangeAuth
EVENT, CLOCK, LOCALITY, PUBLIC = CC.PCR_Event, CC.ReadClock, CC.PolicyLocality, CC.ReadPublic
ASM, LINE, KINDS = "kinds of parameters", "how parameters are shown", "kinds of handles"
ENTRIES, SIZED, ROLES = "authorizations and entries", "sized buffers", "roles"
NV, SAVED = "attributes of NV indices", "saved states"
WRONG = (
    Wrong("a handle too few", "attributes", READ, {"handles": READ.handles[:1]}),
    Wrong("a handle more", "attributes", UNSEAL, {"handles": UNSEAL.handles * 2}),
    Wrong("no answered handle", "attributes", CC.Load, {"answered_handles": ()}),
    Wrong("a parameter too few", ASM, READ, {"parameters": READ.parameters[:1]}),
    Wrong("four bytes for two", ASM, READ, with_parameter(READ, Kind.U32)),
    Wrong("bits as a number", LINE, LOCALITY, with_parameter(LOCALITY, Kind.U8)),
    Wrong("a PCR or none", KINDS, RESET, with_handle(RESET, kind=HandleKind.PCR_OR_NULL)),
    Wrong("an index alone", KINDS, READ, with_handle(READ, kind=HandleKind.NV_INDEX)),
    Wrong("no authorization", ENTRIES, READ, with_handle(READ, is_authorized=False)),
    Wrong("entries, of which it takes none", ENTRIES, CLOCK, with_fact(CLOCK, Fact.NO_SESSIONS)),
    Wrong("no entries, which it takes", ENTRIES, RESET, with_fact(RESET, Fact.NO_SESSIONS)),
    Wrong("no buffer first", SIZED, EVENT, with_parameter(EVENT, Kind.BUFFERS)),
    Wrong("no buffer answered", SIZED, UNSEAL, with_answer(UNSEAL, Kind.BUFFERS)),
    Wrong("the user's role", ROLES, CHANGE, with_fact(CHANGE, Fact.ADMIN)),
    Wrong("the ADMIN role", ROLES, UNSEAL, with_fact(UNSEAL, Fact.ADMIN)),
    Wrong("writing for reading", NV, READ, with_fact(READ, Fact.READS_NV)),
    Wrong("a state that is cancelled", SAVED, READ, with_fact(READ, Fact.KEEPS_SAVED)),
    Wrong("a state that is kept", SAVED, EVENT, with_fact(EVENT, Fact.KEEPS_SAVED)),
    Wrong("a buffer of three", "answers", PUBLIC, with_answer(PUBLIC, Kind.BUFFER)),
    Wrong("a list for a buffer", "answers", UNSEAL, with_answer(UNSEAL, Kind.BUFFERS)),
)


def is_missing_one_found(program: Program) -> bool:
    """Returns whether `served` finds a supported command that is missing from the description."""
    with mock.patch.dict(NUMBERED):
        del NUMBERED[READ]
        return any(it.described != it.found for it in served(program, [READ]))


def main(path: str) -> None:
    program, codes = Program(path), list(NUMBERED.values())
    print(f"{len(codes)} COMMANDS: what is described of them, and how often the program was asked.")
    for what, check in CHECKS.items():
        asked = list(check(program, codes))
        for it in asked:
            if it.described != it.found:
                print(f"DIFFERS: {it.what}: described {it.described}, found {it.found}")
        print(f"{what}: {len(asked)}")
    print("WRONG DESCRIPTIONS:")
    print(f"no {READ.name}: {'found' if is_missing_one_found(program) else 'NOT FOUND'}")
    for it in WRONG:
        found = "found" if it.is_found(program) else "NOT FOUND"
        print(f"{it.what}, of {it.code.name}: {found} by {it.check}")


if __name__ == "__main__":
    main(sys.argv[1])
