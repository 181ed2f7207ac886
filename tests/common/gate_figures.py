"""Checks the figures of the gate:

    python3 tests/common/gate_figures.py REPOSITORY FIGURES

The figures must name each crate of crates.txt, and no other crate. The commit that was measured
must be among the last 200 commits of the repository. The status is 1 if a rule is broken.
"""

import json
import pathlib
import re
import subprocess
import sys

MOST_COMMITS = 200


def crates_of(repository: pathlib.Path) -> set[str]:
    """Returns the names of the crates, which crates.txt lists."""
    return set(re.findall(r"(?m)^([a-z]\w*)", (repository / "crates.txt").read_text("utf-8")))


def commits_since(repository: pathlib.Path, commit: str) -> int | None:
    """Returns the number of commits after a commit, or None if the repository lacks this commit."""
    words = ["git", "-C", str(repository), "rev-list", "--count", f"{commit}..HEAD"]
    done = subprocess.run(words, capture_output=True, text=True)
    return int(done.stdout) if done.returncode == 0 else None


def faults(repository: pathlib.Path, file: pathlib.Path) -> list[str]:
    """Returns a line for each rule that the figures break."""
    told = json.loads(file.read_text("utf-8"))["gate"]
    crates, measured = crates_of(repository), set(told["processor_seconds_by_crate"]) - {"others"}
    found = [f"{it} was not measured" for it in sorted(crates - measured)]
    found += [f"{it} is no crate of crates.txt" for it in sorted(measured - crates)]
    since = commits_since(repository, told["commit"])
    if since is None:
        found.append(f"there is no commit {told['commit']}")
    elif since > MOST_COMMITS:
        found.append(f"the gate was measured {since} commits ago: run .ci/run --figures")
    return found


def main() -> int:
    found = faults(pathlib.Path(sys.argv[1]), pathlib.Path(sys.argv[2]))
    print("\n".join(found) or "each crate was measured, at most 200 commits ago")
    return 1 if found else 0


if __name__ == "__main__":
    sys.exit(main())
