"""Usage: tpmsim-explain [LOG [ANSWERS]] [OPTION]..
Explain why a TPM refused the commands of a log.

LOG is one of these [default: the folder that TPM2TOOLS_TCTI names, as in tpmsim:state=DIR]:
  DIR   the folder of a device: its finished journals, then the current one
  FILE  a script, a journal, a log of `tpmsim serve`, what a failed test prints, or several of these
        in sequence
  FILE  any other text or capture with commands and responses: libtss2's trace (TSS2_LOG=all+trace),
        dumps of xxd, hexdump and od, arrays and texts as programming languages print them, swtpm's
        and Linux's logs, and pcap; at most 16 MiB
  CODE  a response code, such as 0x98e or TPM_RC_AUTH_FAIL
  -     standard input
ANSWERS is what `tpmsim run` or `tpmsim run --trace` printed for a script.

  --image FILE  Start with the device of this image or state text [default: the one in LOG, or a new
                one]
  --at LINE     Show the command in this line of LOG whole, field by field
  --try VALUE   Try VALUE, a text, or bytes as hex:00ff, in each place of a wrong HMAC, password or
                policy digest; may be repeated
  --json        Print the findings as JSON
  --html        Print the findings as a page for a browser
  --help        Print this help

Play LOG on the device in Python. For each refusal, print the check that refused, with the expected
and the given value; for a wrong HMAC, all that goes into it, and the slip that makes the given one.
Also print where the answers of LOG differ from the model's, and what is odd in accepted commands.

The status is 0. It is 1 if an answer differs from the model's, and 2 if an argument, a file or a
line of a script is wrong; everything before that line is explained.
"""

import json
import os
import pathlib
import sys
from dataclasses import dataclass, field

from tpmsim.explain import codes, folder, page, text
from tpmsim.explain.play import Event, Play
from tpmsim.faults import TpmsimError
from tpmsim.model.image import Fault
from tpmsim.records import is_state_text
from tpmsim.taken import NothingFound, Taken, taken_of, TooLong
from tpmsim.taken.codes import code_of


def called(installed: str, here: str) -> str:
    """Returns the name by which a program was called: the installed name, its path in the clone, or
    Python with its module.
    """
    name = pathlib.Path(sys.argv[0]).name
    if name == "__main__.py":
        return f"python3 -m {installed.replace('-', '.')}"
    return installed if name == installed else here


NAME = called("tpmsim-explain", "tools/explain.py")
HELP = (__doc__ or "").strip().replace("tpmsim-explain", NAME)
SEE_HELP = f"see {NAME} --help"


class Usage(TpmsimError):
    """Nothing can be explained; the message says why."""


@dataclass
class Asked:
    log: str
    answers: str | None = None
    image: str | None = None
    at: int | None = None
    form: str = "text"
    tried: tuple[bytes, ...] = ()


@dataclass
class Input:
    """A log that was read, and remarks on how it was read."""

    taken: Taken
    remarks: list[str] = field(default_factory=list)


def tried_of(word: str) -> bytes:
    """Returns a value to try: the bytes of a text, or those that follow `hex:`; raises Usage if
    these are not hex.
    """
    if not word.startswith("hex:"):
        return word.encode()
    try:
        return bytes.fromhex(word.removeprefix("hex:"))
    except ValueError:
        raise Usage(f"--try {word}: an even number of hex digits follows hex:") from None


def value_after(option: str, left: list[str]) -> str:
    """Removes the value of an option from the words that are left, and returns it."""
    if not left or not left[0]:
        raise Usage(f"{option} needs a value; {SEE_HELP}")
    return left.pop(0)


def line_of(word: str) -> int:
    if not (word.isascii() and word.isdigit()):
        raise Usage(f"--at {word}: this is no number of a line")
    return int(word)


def asked_of(words: list[str]) -> Asked:
    asked, names, given, left = Asked(""), list[str](), set[str](), list(words)
    while left:
        word = left.pop(0)
        if word != "--try" and word.startswith("--"):
            if word in given:
                raise Usage(f"{word} is given twice; {SEE_HELP}")
            given.add(word)
        if word == "--image":
            asked.image = value_after(word, left)
        elif word == "--at":
            asked.at = line_of(value_after(word, left))
        elif word == "--try":
            asked.tried += (tried_of(value_after(word, left)),)
        elif word in ("--json", "--html"):
            asked.form = word[2:]
        elif word.startswith("-") and word != "-":
            raise Usage(f"{word} is no option; {SEE_HELP}")
        else:
            names.append(word)
    if {"--json", "--html"} <= given:
        raise Usage("--json and --html exclude each other")
    return with_names(asked, names)


def with_names(asked: Asked, names: list[str]) -> Asked:
    """Sets the log and the answers. Without a log, the environment may name a folder."""
    names = names or [it for it in [folder.of_environment()] if it]
    if not names or not all(names):
        raise Usage(f"LOG is missing; {SEE_HELP}")
    if len(names) > 2 or names.count("-") > 1:
        raise Usage(f"{names[2:] and names[2] or '-'} is one name too many; {SEE_HELP}")
    asked.log, asked.answers = names[0], names[1] if len(names) == 2 else None
    return asked


def read(name: str) -> bytes:
    try:
        return sys.stdin.buffer.read() if name == "-" else pathlib.Path(name).read_bytes()
    except OSError as fault:
        raise Usage(f"{name} cannot be read: {fault.strerror}") from None


def read_log(name: str) -> Input:
    """Reads a log: a folder, a file, or a response code that is no file."""
    path = pathlib.Path(name)
    try:
        if name != "-" and path.is_dir():
            logs = folder.logs_of(path)
            return Input(Taken(logs.text), [logs.words] if logs.words else [])
    except folder.NoLog as fault:
        raise Usage(str(fault)) from None
    except OSError as fault:
        raise Usage(f"{fault.filename or name} cannot be read: {fault.strerror}") from None
    code = code_of(name)
    if code is not None and not path.exists():
        return Input(Taken(b"", "a response code", [code]))
    try:
        taken = taken_of(read(name))
    except (TooLong, NothingFound) as fault:
        raise Usage(f"{name} {fault}") from None
    return Input(taken, [f"{shown(name)} is read as {taken.form}."] if taken.form else [])


def shown(name: str) -> str:
    return "Standard input" if name == "-" else name


def explain(asked: Asked, counts: text.Counts) -> tuple[str, Play]:
    given = read_log(asked.log)
    taken, image = given.taken, None if asked.image is None else read(asked.image)
    answers = None if asked.answers is None else read(asked.answers)
    try:
        play = Play(image, answers, asked.at, asked.form == "html")
    except Fault as fault:
        word = "state text" if is_state_text(image or b"") else "image"
        raise Usage(f"{asked.image} is no {word} of a device: {fault}") from None
    play.tried, play.is_foreign = asked.tried, taken.is_foreign
    remarks = [f"{it[0].upper()}{it[1:]}." for it in taken.remarks]
    play.remarks = [*given.remarks, *remarks]
    if taken.codes:
        return said_of_codes(asked, taken), play
    if asked.form == "html":
        return page.of_log(asked.log, play, taken.script, counts), play
    told = list[Event]()
    for event in play.events(taken.script):
        counts.add(event)
        is_worth_it = bool(event.reason or event.notes or event.differences)
        if is_worth_it if asked.at is None else event.line == asked.at:
            told.append(event)
    if asked.at is not None and not told and not play.fault:
        raise Usage(f"--at {asked.at}: this line of {asked.log} has no command")
    return said_of(asked, told, play, counts), play


def said_of_codes(asked: Asked, taken: Taken) -> str:
    """Returns what the codes of a text mean, if it has no commands."""
    if asked.form == "json":
        value = {"version": text.VERSION, "codes": codes.values_of(taken.codes)}
        return json.dumps(value, indent=1)
    if asked.form == "html":
        raise Usage(f"{asked.log} has no command, which a page could show; leave out --html")
    has_lines = taken.script.rstrip().count(b"\n") > 0
    said = [f"{it[0].upper()}{it[1:]}." for it in taken.remarks]
    return "\n".join([*said, *codes.lines_of(taken.codes, has_lines)]).rstrip()


def said_of(asked: Asked, told: list[Event], play: Play, counts: text.Counts) -> str:
    if asked.form == "json":
        value = text.value_of_log(told, counts, play, asked.at is not None)
        return json.dumps(value, indent=1)
    if asked.at is not None:
        return "\n".join(it for event in told for it in (*text.whole(event), *text.told(event)))
    return "\n".join([*text.of_log(told, play), counts.words()])


def tell(words: str) -> None:
    """Prints words. The reader of the output may close it before the end."""
    try:
        sys.stdout.buffer.write(words.encode("utf-8") + b"\n")
        sys.stdout.buffer.flush()
    except BrokenPipeError:
        os.dup2(os.open(os.devnull, os.O_WRONLY), sys.stdout.fileno())


def main(*words: str) -> int:
    if "--help" in words:
        tell(HELP)
        return 0
    counts = text.Counts()
    try:
        asked = asked_of(list(words))
        said, play = explain(asked, counts)
    except Usage as wrong:
        print(f"tpmsim-explain: {wrong}", file=sys.stderr)
        return 2
    tell(said)
    if play.fault:
        print(f"tpmsim-explain: {asked.log}: {play.fault}", file=sys.stderr)
        return 2
    return 1 if counts.differing or play.damages else 0


def run() -> None:
    sys.exit(main(*sys.argv[1:]))
