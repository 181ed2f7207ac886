"""Compares the lists of commands in documents with the description of the commands:

    tools/python.sh tests/common/command_lists.py

For each list the test prints its number of entries. It prints a line that begins with DIFFERS for
each missing or extra entry. Then the test makes one mistake in a document at a time, and checks
that comparing the lists again finds the mistake.
"""

import re
from collections.abc import Callable
from dataclasses import dataclass

from tpmsim.standard import CC, Fact, HandleKind, lines, NAMED, NUMBERED
from tpmsim.standard.frames import CODES, spelled_code
from tpmsim.standard.rows import every_row
from tests.common.places import TOP

README, TABLE = "README.md", "docs/table"
LIST, STATE = f"{TABLE}/README.md", f"{TABLE}/state.md"
REFUSALS = f"{TABLE}/order_of_refusals.md"
ENCRYPTION, CAPABILITIES = f"{TABLE}/parameter_encryption.md", f"{TABLE}/capabilities.md"
NV, NV_ACCESS = f"{TABLE}/nv_commands.md", f"{TABLE}/nv.md"

Documents = dict[str, str]

ROW = re.compile(r"^\| \[TPM2_(\w+)\]\((\w+\.md)#(\S+)\) \| (\w+) \|$", re.M)
SECTION = re.compile(r"^## TPM2_(\w+) \((\w+)\)$(?:\n\nLine: `(.+)`\.$)?", re.M)
NAME = re.compile(r"\bTPM2_(\w+)")
NV_KINDS = HandleKind.NV_AUTH, HandleKind.NV_INDEX, HandleKind.ENTITY


def documents() -> Documents:
    paths = [TOP / README, *TOP.glob("docs/*.md"), *TOP.glob("docs/table/*.md")]
    return {str(it.relative_to(TOP)): it.read_text("utf-8") for it in sorted(paths)}


def between(text: str, before: str, behind: str) -> str:
    """Returns the text between `before` and `behind`, or an empty text if either is missing."""
    _, found, rest = text.partition(before)
    return rest.partition(behind)[0] if found else ""


@dataclass(frozen=True)
class List:
    """A list in a document: the expected entries, and the actual ones. Their order counts only if
    `in_order` is set.
    """

    wanted: list
    found: list
    in_order: bool = False

    @property
    def differences(self) -> list:
        lacks = [("it lacks", it) for it in self.wanted if it not in self.found]
        extra = [("it also has", it) for it in self.found if it not in self.wanted]
        twice = [("more than once", it) for it in set(self.found) if self.found.count(it) > 1]
        is_turned = self.in_order and self.found != self.wanted and not lacks + extra + twice
        return lacks + extra + twice + ([("the order", "is another one")] if is_turned else [])


Check = Callable[[Documents], List]


# Functions that each compare one list of a document.


def the_list(texts: Documents) -> List:
    """The list must contain each command, with the page and anchor of its section, and its code."""
    pages = pages_of(texts)
    wanted = [
        (it.name, pages.get(it.name), f"tpm2_{it.name}-{int(it):x}".lower(), f"{int(it):X}")
        for it in sorted(CC, key=lambda it: it.name.lower())
    ]
    return List(wanted, ROW.findall(texts[LIST]), in_order=True)


def pages_of(texts: Documents) -> dict[str, str]:
    """Returns the page that has the section of each command."""
    return {
        name: path.removeprefix(f"{TABLE}/")
        for path, text in texts.items()
        for name, _, _ in SECTION.findall(text)
    }


def sections(texts: Documents) -> List:
    """Each section must contain its command's code and the form of its line."""
    wanted = [(it.name, f"{int(it):X}", lines.form_of(it)) for it in CC]
    return List(wanted, [it for text in texts.values() for it in SECTION.findall(text)])


def groups(texts: Documents) -> List:
    rows = re.findall(
        r"^\| .+ \| (.+) \|$", between(texts[README], "| commands |\n|---|", "\n## "), re.M
    )
    return List(list(NAMED), [name for row in rows for name in row.split(", ")])


def not_served(texts: Documents) -> List:
    """The device must not support the commands that a document lists as unsupported."""
    text = between(texts[REFUSALS], "## Commands that are not served", "\n## ")
    return List([], [it for it in NAME.findall(text) if it in NAMED])


def named(document: str, before: str, behind: str, is_wanted: Callable[[CC], bool]) -> Check:
    """Returns a check that a document names exactly the expected commands between `before` and
    `behind`.
    """

    def check(texts: Documents) -> List:
        wanted = [it.name for it in CC if is_wanted(it)]
        return List(wanted, NAME.findall(between(texts[document], before, behind)))

    return check


# Counts of commands in documents: the document, the text before the count, the text after it, and
# the count as it is written.
COUNTS = (
    (README, "It serves ", " commands", f"{len(NUMBERED)}"),
    (CAPABILITIES, "| the number of served commands, ", ", or ", f"{len(NUMBERED):X}"),
    (CAPABILITIES, ", or ", " in [the complete profile]", f"{len(CC):X}"),
    (LIST, "A device of the\nsymmetric profile serves ", " of these commands", f"{len(NUMBERED)}"),
)


def counts(texts: Documents) -> List:
    wanted, found = [], []
    for path, before, behind, count in COUNTS:
        wanted.append((path, count))
        counted = re.findall(rf"{re.escape(before)}([\w-]+){re.escape(behind)}", texts[path])
        found += [(path, it) for it in counted]
    return List(wanted, found)


def complete_only(texts: Documents) -> List:
    names = between(texts[README], "also serves\n", ".\n").replace(" and ", ", ").split(", ")
    return List([it.name for it in CC if it.has(Fact.COMPLETE_ONLY)], names)


def nv_access(texts: Documents) -> List:
    """The document's table must name the attributes that each command requires of an index that
    authorizes it.
    """
    able = [it for it in NUMBERED.values() if it.authorized and it.handles[0].kind in NV_KINDS]
    wanted = [(it.name, nv_access_of(it)) for it in able]
    section = between(texts[NV_ACCESS], "## By what an index is authorized", "\n## ")
    rows = re.findall(r"^\| (TPM2_.+?) \| (.+?) \|", section, re.M)
    found = [(name, by_value) for named, by_value in rows for name in NAME.findall(named)]
    return List(wanted, found)


def nv_access_of(code: CC) -> str:
    """Returns a description of when the authorization value of an index authorizes a command."""
    if code.has(Fact.ADMIN):
        return "never"
    return "if it has AUTHREAD" if code.has(Fact.READS_NV) else "if it has AUTHWRITE"


# The code that the table has, though the program never returns it.
NOT_RETURNED = "904", "MEMORY"


def codes(texts: Documents) -> List:
    """The section about response codes must have each code of a refusal, without its place, with
    its name.
    """
    wanted = {base_of(it.code) for it in every_row()} | {NOT_RETURNED}
    section = between(texts[LIST], "## By response code", "\n## ")
    names = r"([A-Z_]+?)(?:_([HS])0)?(?: to \w+)?"
    rows = re.findall(rf"^\| `0*(\w+)(?: to \w+)?` \| {names} \|", section, re.M)
    found = [(code, f"{name}_{place}".strip("_")) for code, name, place in rows]
    return List(sorted(wanted), sorted(found))


def base_of(code: int) -> tuple[str, str]:
    """Returns a response code in hex and its name, both without the number of a place."""
    name = spelled_code(code)[0]
    base = CODES[name]
    if name.startswith("REFERENCE"):
        base, name = base - int(name[-1]), name[:-1]
    return f"{base:X}", name


UNSESSIONED = "the command has entries (tag 8002), and is"
KEEPING = "unless it is one of these"
CHECKS: dict[str, Check] = {
    "docs/table/README.md, the list of commands": the_list,
    "docs/table, the sections and their lines": sections,
    "README.md, the groups": groups,
    "parameter_encryption.md, decrypt": named(
        ENCRYPTION, "| decrypt:", " |\n", lambda it: it.takes_sized
    ),
    "parameter_encryption.md, encrypt": named(
        ENCRYPTION, "| encrypt:", " |\n", lambda it: it.answers_sized
    ),
    "order_of_refusals.md, commands without sessions": named(
        REFUSALS, UNSESSIONED, "|", lambda it: it.has(Fact.NO_SESSIONS)
    ),
    "order_of_refusals.md, commands that are not served": not_served,
    # state.md names TPM2_Shutdown only in the sentence after this list.
    "state.md, commands that keep what was saved": named(
        STATE, KEEPING, ". ", lambda it: it.has(Fact.KEEPS_SAVED) and it != CC.Shutdown
    ),
    "nv.md, what commands ask of an index": nv_access,
    "counts of commands": counts,
    "docs/table/README.md, commands of the complete profile": named(
        LIST, "also serves ", ".\n", lambda it: it.has(Fact.COMPLETE_ONLY)
    ),
    "README.md, commands of the complete profile": complete_only,
    "docs/table/README.md, the response codes": codes,
}

# Mistakes that the test must find. Each has a document, a text in it, and the wrong text that
# replaces it.
WRONG = (
    (LIST, "| [TPM2_Clear](", "| [TPM2_Clean]("),
    (LIST, "| [TPM2_Create](", "| TPM2_Create ("),
    (LIST, "-135) | 135 |", "-135) | 136 |"),
    (LIST, "#tpm2_load-157", "#tpm2_load-158"),
    (NV, "## TPM2_NV_SetBits (135)", "## TPM2_NV_SetBit (135)"),
    (NV, "NV_SetBits @Entity Index u64", "NV_SetBits Entity Index u64"),
    (README, "GetCapability |", "GetCapability, TestParms |"),
    (ENCRYPTION, "TPM2_Hash, TPM2_NV_DefineSpace", "TPM2_NV_DefineSpace"),
    (ENCRYPTION, "TPM2_GetRandom, ", "TPM2_GetRandom, TPM2_ReadClock, "),
    (REFUSALS, "TPM2_FlushContext or ", ""),
    (REFUSALS, "TPM2_Rewrap", "TPM2_Load"),
    (STATE, "TPM2_Hash, ", "TPM2_Hash, TPM2_Load, "),
    (NV_ACCESS, "| TPM2_NV_Read, ", "| "),
    (README, "It serves 47 commands", "It serves 46 commands"),
    (LIST, "| `00000120` | DISABLED |", "| `00000121` | DISABLED |"),
    (LIST, "| `09C` | KEY |", "| `09C` | KEYS |"),
    (CAPABILITIES, "the number of served commands, 2F", "the number of served commands, 30"),
    (CAPABILITIES, ", or 36 in", ", or 35 in"),
    (LIST, "TPM2_ClockSet, TPM2_GetTestResult,", "TPM2_GetTestResult,"),
    (README, "StirRandom, GetTestResult, ClockSet", "StirRandom, ClockSet"),
)


texts = documents()
print(f"{len(NUMBERED)} COMMANDS: the lists of documents, and how many entries they have.")
for what, check in CHECKS.items():
    listed = check(texts)
    print(f"{what}: {len(listed.found)}")
    for difference in listed.differences:
        print(f"DIFFERS: {difference}")
print("CHANGED DOCUMENTS:")
for path, text, instead in WRONG:
    assert text in texts[path], f"{path}: {text}"
    changed = texts | {path: texts[path].replace(text, instead, 1)}
    found = [what for what, check in CHECKS.items() if check(changed).differences]
    print(f'{path}, "{instead}" for "{text}": found in {"; ".join(found) or "NOTHING"}')
