"""Usage: tpmsim-audit SCRIPT [OUTPUT] [--image START] [--policy FILE]..
  or:  tpmsim-audit --digest --policy FILE..
Check whether the log of a device is consistent, and print what it shows.

  SCRIPT         A script or a journal, or - for standard input
  OUTPUT         What `tpmsim run --trace SCRIPT` printed; a journal needs none, since it has checksums
                 of its answers
  --image START  Start with the device of this image, after a power cycle, or of this state text
                 [default: the one in the head of a journal, or a new device]
  --policy FILE  Check this policy in words (docs/EXPLAIN.md) too; may be repeated
  --digest       Only print the digests of the policies
  --help         Print this help

Print the PCRs, the policies, each use of an entity with the reason why it was accepted, the reasons
for refusals that no entry caused, the counters, and the failed guesses. For each policy in words,
print which entities have it, and how each use of these entities satisfied it.

The status is 0 if everything agrees. It is 1, with a line on standard error, if the log is cut, if
no device with this start returns these responses, if the script has a bad line, if no entity has a
given policy, or if a use does not satisfy its policy. It is 2 if the arguments, a file, a policy or
the image is wrong.
"""

import os
import sys
from dataclasses import dataclass, field
from typing import Iterable

from tpmsim.audit import start
from tpmsim.audit.auditor import Auditor, report
from tpmsim.audit.log import Disagreement, Log, NoLog
from tpmsim.explain.main import called, read, Usage
from tpmsim.model.image import Fault
from tpmsim.policies.policy_file import Fault as PolicyFault, PolicyFile

NAME = called("tpmsim-audit", "tools/audit.py")
USAGE = (
    f"usage: {NAME} SCRIPT [OUTPUT] [--image START] [--policy FILE].., or --digest --policy FILE.."
)
HELP = (__doc__ or "").strip().replace("tpmsim-audit", NAME)

AGREES = "All responses are those of the model. A consistent forgery would have them too."


@dataclass
class Asked:
    """The names of the input files: the script, its output if there is one, images and policies."""

    names: list[str] = field(default_factory=list)
    images: list[str] = field(default_factory=list)
    policies: list[str] = field(default_factory=list)
    is_digest: bool = False

    @property
    def all(self) -> list[str]:
        return [*self.names, *self.images, *self.policies]


def asked_of(words: list[str]) -> Asked:
    asked, left = Asked(), iter(words)
    given = {"--image": asked.images, "--policy": asked.policies}
    for word in left:
        if word in given:
            given[word].append(next(left, "--"))
        elif word == "--digest" and not asked.is_digest:
            asked.is_digest = True
        else:
            asked.names.append(word)
    if any(it.startswith("--") for it in asked.all) or not is_right(asked):
        raise Usage(USAGE)
    return asked


def is_right(asked: Asked) -> bool:
    if asked.is_digest:
        return bool(asked.policies) and asked.all == asked.policies
    if len(asked.names) not in (1, 2) or len(asked.images) > 1:
        return False
    return "-" not in (asked.names[0], *asked.policies)


def policies_of(asked: Asked) -> list[PolicyFile]:
    policies = list[PolicyFile]()
    for name in asked.policies:
        try:
            policies.append(PolicyFile(name, read(name)))
        except PolicyFault as fault:
            raise Usage(f"{name} {fault}") from None
    return policies


def auditor_of(asked: Asked, script: bytes, log: Log) -> Auditor:
    try:
        begun = start.of_log(script, read(asked.images[0]) if asked.images else None)
    except Fault as fault:
        raise Usage(f"image {fault}") from None
    return Auditor(begun, log, policies_of(asked))


def tell(rows: Iterable[str]) -> None:
    """Prints rows. Stops without an error if the reader of the output closes it before the last
    row.
    """
    try:
        print(*rows, sep="\n", flush=True)
    except BrokenPipeError:
        os.dup2(os.open(os.devnull, os.O_WRONLY), sys.stdout.fileno())


def main(*words: str) -> int:
    if "--help" in words:
        print(HELP)
        return 0
    try:
        asked = asked_of(list(words))
        if asked.is_digest:
            tell(row for it in policies_of(asked) for row in it.report())
            return 0
        script, outputs = read(asked.names[0]), [Log(read(it)) for it in asked.names[1:]]
        if not outputs and not start.has_answers(script):
            raise Usage(USAGE)
        auditor = auditor_of(asked, script, outputs[0] if outputs else NoLog())
    except Usage as wrong:
        print(f"audit: {wrong}", file=sys.stderr)
        return 2
    return judged(auditor, script)


def judged(auditor: Auditor, script: bytes) -> int:
    """Prints the report of a script, and returns its status."""
    fault = None
    try:
        auditor.read(script)
    except Disagreement as found:
        fault = str(found)
    last = f"The report ends here: {fault}." if fault else AGREES
    tell([*report(auditor), last])
    faults = [fault, *auditor.policies.unmet()] if fault else auditor.policies.faults()
    for it in faults:
        print(f"audit: {it}", file=sys.stderr)
    return 1 if faults else 0


def run() -> None:
    sys.exit(main(*sys.argv[1:]))
