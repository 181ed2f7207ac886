"""Finds out how a policy session got the digest of a policy that it does not satisfy. Either
there was a hash collision (Meaning and BreaksHash of tpm_policy_meaning), or a wrong
TPM2_PolicyOR was accepted.
"""

from typing import Iterator, Sequence

from tpmsim.audit.session_lines import Asserted
from tpmsim.policies.policy_texts import Policy, policy_digest, policy_texts, texts_after, zeros
from tpmsim.standard import CC
from tpmsim.standard.sessions import digest

Told = Sequence[Asserted]


def explanation(algorithm: int, policy: Policy, told: Told) -> str:
    for find in (wrong_or, collision, hash_of_zeros, astride):
        found = find(algorithm, policy, told)
        if found:
            return found
    return "nothing shows how the session got the digest of the policy"


def wrong_or(algorithm: int, policy: Policy, told: Told) -> str | None:
    for it in told:
        if it.said.code == CC.PolicyOR and it.before not in it.said.values:
            return f"line {it.line}: TPM2_PolicyOR is accepted without the digest before it"
    return None


def session_texts(algorithm: int, told: Told) -> Iterator[tuple[bytes, int]]:
    """Yields each text that a policy session hashed, with the log line of the assertion."""
    for it in told:
        for text in texts_after(algorithm, it.before, it.said.update(algorithm)):
            yield text, it.line


def collision(algorithm: int, policy: Policy, told: Told) -> str | None:
    written = [(it, digest(algorithm, it)) for it in policy_texts(algorithm, policy)]
    for text, line in session_texts(algorithm, told):
        found = digest(algorithm, text)
        for other, wanted in written:
            if found == wanted and text != other:
                both = f"{other.hex()} of the policy, and {text.hex()} of line {line}"
                return f"two texts have the same hash: {both}"
    return None


def hash_of_zeros(algorithm: int, policy: Policy, told: Told) -> str | None:
    of_policy = [(it, "the policy") for it in policy_texts(algorithm, policy)]
    of_session = [(text, f"line {line}") for text, line in session_texts(algorithm, told)]
    for text, whose in of_policy + of_session:
        if digest(algorithm, text) == zeros(algorithm):
            return f"a text has a hash of zeros: {text.hex()} of {whose}"
    return None


def branch_lists(algorithm: int, policy: Policy) -> Iterator[tuple[int, list[bytes]]]:
    """Yields the digests of the branches of each PolicyOR, with the line of the `either` in the
    policy.
    """
    if policy.branches:
        yield policy.line, [policy_digest(algorithm, it) for it in policy.branches]
    for branch in policy.branches:
        yield from branch_lists(algorithm, branch)


def astride(algorithm: int, policy: Policy, told: Told) -> str | None:
    """Describes a digest of the session that consists of the end of one branch's digest and the
    beginning of the next one's. The digest of a branch itself does not count.
    """
    had = [(zeros(algorithm), "the start"), *((it.digest, f"line {it.line}") for it in told)]
    for line, digests in branch_lists(algorithm, policy):
        pairs = list(enumerate(zip(digests, digests[1:]), 1))
        for (found, since), (place, both) in ((it, pair) for it in had for pair in pairs):
            if found not in digests and found in b"".join(both)[1:-1]:
                branches = f"branches {place} and {place + 1} of policy line {line}"
                return f"the digest {found.hex()} of {since} is astride {branches}"
    return None
