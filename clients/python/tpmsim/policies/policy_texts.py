"""The digest of a policy, as in an authPolicy: the hash of the last text in a chain. Each text of
the chain begins with the hash of the previous text, as tpm_policy_meaning defines it
(PolicyDigest).
"""

from __future__ import annotations

from dataclasses import dataclass

from tpmsim.policies.written import Said, Update
from tpmsim.standard import CC, digest, digest_bytes, number


@dataclass(frozen=True)
class Written:
    line: int
    said: Said


@dataclass(frozen=True)
class Policy:
    """Assertions, perhaps after an `either` with several branches. In that case `line` is the line
    of the `either`.
    """

    line: int = 0
    branches: tuple[Policy, ...] = ()
    assertions: tuple[Written, ...] = ()


def zeros(algorithm: int) -> bytes:
    """Returns the digest with which a policy begins."""
    return bytes(digest_bytes(algorithm))


def texts_after(algorithm: int, old: bytes, update: Update) -> list[bytes]:
    """Returns the texts that are hashed for an assertion, given the previous digest; the latest
    text comes first.
    """
    begin = zeros(algorithm) if update.forgets else old
    text = begin + number(update.code, 4) + update.about
    referred = []
    if update.reference is not None:
        referred = [digest(algorithm, text) + update.reference]
    return [*referred, text, *update.apart]


def digest_after(algorithm: int, texts: list[bytes]) -> bytes:
    """Returns the digest of a chain of texts, latest first: the hash of the latest text."""
    return digest(algorithm, texts[0]) if texts else zeros(algorithm)


def policy_texts(algorithm: int, policy: Policy) -> list[bytes]:
    """Returns the texts that are hashed for a policy's digest."""
    texts: list[bytes] = []
    if policy.branches:
        of_branches = [policy_texts(algorithm, it) for it in policy.branches]
        said = Said(CC.PolicyOR, tuple(digest_after(algorithm, it) for it in of_branches))
        texts = texts_after(algorithm, b"", said.update(algorithm))
        texts += [text for branch in of_branches for text in branch]
    for written in policy.assertions:
        update = written.said.update(algorithm)
        texts = texts_after(algorithm, digest_after(algorithm, texts), update) + texts
    return texts


def policy_digest(algorithm: int, policy: Policy) -> bytes:
    """Returns the digest of a policy for a hash algorithm."""
    return digest_after(algorithm, policy_texts(algorithm, policy))
