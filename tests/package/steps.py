"""Reads the steps of the workflows for GitHub and GitLab, which use only a part of YAML.

    python3 tests/package/steps.py FOLDER [--run]

The program prints each command of .github/workflows/*.yml and .gitlab-ci.yml in FOLDER. It also
prints each path and each target of the Makefile that a command names but that does not exist; the
status is 1 if there are any. Given --run, it also runs each command once in FOLDER, except commands
that call apt-get or git, and ends at the first one that fails.
"""

import pathlib
import re
import subprocess
import sys

STEP = re.compile(r"^ *- run: (.+)$", re.M)
LISTS = re.compile(r"^ +(?:before_script|script|after_script):\n((?: +- .+\n)+)", re.M)
ITEM = re.compile(r"^ +- (.+)$", re.M)
PATH = re.compile(r"(?<![\w$/.-])(?:\./)?((?:\.?[\w-]+/)+[\w.*-]+)")
TARGET = re.compile(r"\bmake((?: +[a-z_]+)+)")


def commands_of(text: str) -> list[str]:
    """Returns the commands of a workflow in their order."""
    if "on:" in text.split("\njobs:")[0]:
        return STEP.findall(text)
    return [command for items in LISTS.findall(text) for command in ITEM.findall(items)]


def missing(folder: pathlib.Path, command: str) -> list[str]:
    """Returns the paths and targets that a command names but that do not exist."""
    makefile = (folder / "Makefile").read_text()
    targets = [target for found in TARGET.findall(command) for target in found.split()]
    return [path for path in PATH.findall(command) if not (folder / path).exists()] + [
        f"make {target}" for target in targets if not re.search(rf"^{target}:", makefile, re.M)
    ]


def main(folder: pathlib.Path, runs: bool) -> int:
    status, done = 0, set()
    for file in [*sorted(folder.glob(".github/workflows/*.yml")), folder / ".gitlab-ci.yml"]:
        print(file.relative_to(folder))
        commands = commands_of(file.read_text())
        if not commands:
            print("    has no command")
            status = 1
        for command in commands:
            print(f"    {command}")
            for name in missing(folder, command):
                print(f"        {name} is not there")
                status = 1
            if runs and command not in done and not command.startswith(("apt-get ", "git ")):
                done.add(command)
                sys.stdout.flush()
                if subprocess.run(command, shell=True, cwd=folder, check=False).returncode:
                    print(f"        {command} fails")
                    return 1
    return status


if __name__ == "__main__":
    sys.exit(main(pathlib.Path(sys.argv[1]), sys.argv[2:] == ["--run"]))
