"""Compares libtpmsim with libtpms, both in one process, and prints a table:

    tools/python.sh tools/bench/in_process.py PROGRAM [ROUNDS]

PROGRAM is built from in_process.c. Each round measures every row on each device in turn. A figure
is the median of the rounds in microseconds, followed by the minimum in brackets.
"""

import itertools
import statistics
import subprocess
import sys
from dataclasses import dataclass, field, replace

from tpmsim.caller import hmac_key, Made, sealed, storage_key
from tpmsim.caller.prepared_commands import PreparedCommands
from tpmsim.standard import command, Fields, lines, number, on_handle, RH_NULL, SHA256, sized
from tpmsim.standard.objects import Public

ROUNDS = 15
TARGETS = "tpms", "sim", "still"
SUCCESS = "00000000"

# The maximum number of sessions in libtpmsim, and of loaded sessions in libtpms.
MOST_SESSIONS, MOST_SESSIONS_OF_LIBTPMS = 16, 3

HMAC_KEY = replace(hmac_key(), attributes=0x0004_0052)
SEALED = sealed(attributes=0x0000_0052)
SECRET, DATA, LARGE = "5a" * 32, "22" * 64, "33" * 1024
SESSION = f"StartAuthSession NULL NULL {'00' * 16} - {{}} null sha256"
BOUND = f"StartAuthSession NULL OWNER {'00' * 32} - 0 null sha256"
BY_SESSION = "PCR_Reset by an HMAC session"
PARENT, KEY, LOADED = "80000000", "80000001", "80000002"

# The codes of the commands on a hash sequence, and its handle in libtpmsim and in libtpms.
HASH_SEQUENCE_START, SEQUENCE_UPDATE, SEQUENCE_COMPLETE = 0x186, 0x15C, 0x13E
SEQUENCE, SEQUENCE_OF_LIBTPMS = 0x8000_0008, 0x8000_0002

# TPM2_PCR_Allocate of only the banks that libtpmsim has: SHA-1 and SHA-256.
BANKS = "00000004000403ffffff000b03ffffff000c03000000000d03000000"
ALLOCATE = f"8002000000370000012b4000000c00000009400000090000000000{BANKS}"

PREPARED = [
    "Startup 0",
    "NV_DefineSpace OWNER pw:- - 01000000000b0002000200000040",
    f"NV_Write OWNER 01000000 pw:- {DATA} 0",
    f"CreatePrimary OWNER pw:- 00000000 {storage_key().text.hex()} - -",
]
PREPARING = PreparedCommands()


def hex_of(words: str) -> str:
    return lines.assemble(words.encode("ascii")).hex()


def create(public: Public) -> str:
    return PREPARING.child(int(PARENT, 16), public, data=bytes.fromhex(SECRET)).buffer().hex()


class Program:
    def __init__(self, *words: str) -> None:
        pipe = subprocess.PIPE
        self.process = subprocess.Popen(words, stdin=pipe, stdout=pipe, text=True)
        assert self.process.stdin and self.process.stdout
        self.lines, self.answers = self.process.stdin, self.process.stdout

    def end(self) -> None:
        self.lines.close()
        if self.process.wait():
            sys.exit(f"the program ends with {self.process.returncode}")

    def tell(self, line: str) -> None:
        self.lines.write(line + "\n")
        self.lines.flush()

    def ask(self, line: str) -> str:
        self.tell(line)
        answer = self.answers.readline().strip()
        if not answer:
            sys.exit(f"no answer to {line[:100]}")
        return answer

    def command(self, buffer: str) -> str:
        """Returns the response to a command, which must succeed."""
        response = self.ask(f"cmd {buffer}")
        if response[12:20] != SUCCESS:
            sys.exit(f"{buffer[:100]} is answered {response[:20]}")
        return response

    def load(self, public: Public) -> str:
        """Returns a command that loads a new child of the storage key."""
        fields = Fields(bytes.fromhex(self.command(create(public)))[14:])
        made = Made(fields.sized(), Public.read(fields.sized()), b"")
        return PREPARING.loading(int(PARENT, 16), made).buffer().hex()


@dataclass
class Row:
    """A measurement: its name, how often it runs in a round, the line that runs it on each device,
    and the number of executions in that line.
    """

    name: str
    count: int
    tells: dict[str, str]
    times_each: int = 1
    times: dict[str, list[float]] = field(default_factory=lambda: {it: [] for it in TARGETS})

    def measure(self, program: Program, target: str) -> None:
        program.tell(f"use {target}")
        verb, _, rest = self.tells[target].partition(" ")
        nanoseconds = int(program.ask(f"{verb} {self.count} {rest}"))
        self.times[target].append(nanoseconds / self.count / self.times_each / 1000)

    def line(self) -> str:
        cells = [f"{statistics.median(it):.2f} ({min(it):.2f})" for it in self.times.values()]
        return f"| {self.name} | {' | '.join(cells)} | {self.ratio():.2f} |"

    def ratio(self) -> float:
        tpms, sim = (statistics.median(self.times[it]) for it in ("tpms", "sim"))
        return tpms / sim


def in_words(name: str, count: int, *commands: str, times_each: int = 1) -> Row:
    words = "time " + " ".join(hex_of(it) for it in commands)
    return Row(name, count, {it: words for it in TARGETS}, times_each)


def prepare(program: Program, target: str) -> str:
    """Prepares a device for the measurements. Returns the line that seals data, which differs
    between the devices.
    """
    program.tell(f"use {target}")
    for words in PREPARED:
        program.command(hex_of(words))
    program.command(program.load(HMAC_KEY))
    load = program.load(SEALED)
    flush, unseal = hex_of(f"FlushContext 0x{LOADED}"), hex_of(f"Unseal {LOADED} pw:-")
    return f"time {create(SEALED)} {load} {unseal} {flush}"


def hash_sequence(handle: int) -> str:
    """Returns the commands, in hex, that hash 1,024 bytes with a sequence that has this handle."""
    commands = [
        command(HASH_SEQUENCE_START, sized(b"") + number(SHA256, 2)),
        on_handle(SEQUENCE_UPDATE, handle, sized(bytes.fromhex(LARGE))),
        on_handle(SEQUENCE_COMPLETE, handle, sized(b"") + number(RH_NULL, 4)),
    ]
    return " ".join(it.hex() for it in commands)


def sequence_row() -> Row:
    """Returns the row of a hash sequence. In libtpmsim, the completing layer implements sequences.
    """
    ours = f"layered {hash_sequence(SEQUENCE)}"
    tells = {"tpms": f"time {hash_sequence(SEQUENCE_OF_LIBTPMS)}", "sim": ours, "still": ours}
    return Row("HashSequenceStart, SequenceUpdate of 1,024 bytes and SequenceComplete", 500, tells)


def rows(seals: dict[str, str]) -> list[Row]:
    writes = [f"NV_Write OWNER 01000000 pw:- {it * 64} 0" for it in ("22", "44")]
    read = "PCR_Read sha256:0,1,2,3,4,5,6,7"
    policy = [SESSION.format(1), "PolicyPCR 03000000 - sha256:0,1,2,3", "FlushContext 0x03000000"]
    return [
        in_words("GetRandom of 32 bytes", 2000, "GetRandom 32"),
        in_words("PCR_Read of eight", 2000, read),
        in_words("PCR_Extend of one bank", 2000, f"PCR_Extend 00000010 pw:- sha256:{SECRET}"),
        in_words("PCR_Event of 1,024 bytes", 500, f"PCR_Event 00000010 pw:- {LARGE}"),
        in_words("NV_Read of 64 bytes", 2000, "NV_Read OWNER 01000000 pw:- 64 0"),
        in_words("NV_Write of 64 bytes", 500, *writes, times_each=2),
        in_words("HMAC of 1,024 bytes", 500, f"HMAC {KEY} pw:- {LARGE} sha256"),
        sequence_row(),
        Row(BY_SESSION, 500, {}),
        in_words("StartAuthSession, PolicyPCR and FlushContext", 500, *policy),
        Row("Create, Load, Unseal and FlushContext", 200, seals),
    ]


def next_session(program: Program, target: str) -> str:
    """Starts an HMAC session. Returns the line `session` with the session's handle and nonce."""
    program.tell(f"use {target}")
    session = program.command(hex_of(SESSION.format(0)))
    return f"session {session[20:28]} {session[32:64]}"


def measure(program: Program, row: Row, target: str) -> None:
    """Measures a row once. A row with an HMAC session gets a new session each time."""
    if row.name != BY_SESSION:
        row.measure(program, target)
        return
    row.tells[target] = next_session(program, target)
    row.measure(program, target)
    program.command(hex_of(f"FlushContext 0x{row.tells[target].split(' ')[1]}"))


def start_sessions(program: Program, target: str, count: int) -> None:
    """Starts a number of HMAC sessions that are bound to the owner."""
    program.tell(f"use {target}")
    for _ in range(count):
        program.command(hex_of(BOUND))


def print_calls(program: Program, rounds: int) -> None:
    program.tell("use still")
    for call, count in ("save", 500), ("open", 500), ("new", 500), ("cycle", 2000):
        print_call(program, rounds, call, count)
    start_sessions(program, "still", MOST_SESSIONS)
    start_sessions(program, "tpms", MOST_SESSIONS_OF_LIBTPMS)
    image, text, volatile = program.ask("sizes").split(" ")
    print(
        f"with sessions: an image of {image} bytes, a state text of {text}, of libtpms {volatile}"
    )
    for call in "snapshot", "restore", "save", "volatile":
        print_call(program, rounds, call, 500)


def print_call(program: Program, rounds: int, call: str, count: int) -> None:
    times = [int(program.ask(f"{call} {count}")) / count / 1000 for _ in range(rounds)]
    print(f"{call}: {statistics.median(times):.2f} ({min(times):.2f})")


def prepare_all(program: Program) -> dict[str, str]:
    """Prepares both devices. Returns the line that seals data on each of them."""
    program.tell("use tpms")
    for buffer in hex_of("Startup 0"), ALLOCATE, hex_of("Shutdown 0"):
        program.command(buffer)
    program.tell("power")
    seals = {it: prepare(program, it) for it in ("tpms", "sim")}
    return {**seals, "still": seals["sim"]}


def main() -> None:
    program = Program(sys.argv[1])
    rounds = int(sys.argv[2]) if len(sys.argv) > 2 else ROUNDS
    table = rows(prepare_all(program))
    for past in range(rounds + 1):
        for row, target in itertools.product(table, TARGETS):
            measure(program, row, target)
        # In the first round libtpms still runs its self-test.
        for row in table if past == 0 else []:
            row.times = {it: [] for it in TARGETS}
    print("| commands | libtpms | libtpmsim | with random bytes that stay | ratio |")
    print("|---|---|---|---|---|")
    for row in table:
        print(row.line())
    mean = statistics.geometric_mean(row.ratio() for row in table)
    print(f"geometric mean of the ratios: {mean:.2f}")
    print_calls(program, rounds)


if __name__ == "__main__":
    main()
