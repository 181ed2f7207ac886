#!/bin/sh
# Runs the quick checks before a commit: the formatting of the changed crates, the links and words of the
# documents, the shell scripts, and the programs in Python. To install it as a git hook:
#
#   ln -s ../../tools/before_commit.sh .git/hooks/pre-commit
#
# A check is skipped if its tool is missing. The last line is `N passed, M failed`, followed by `, K
# skipped` if a check was skipped. The status is 1 if one failed.
set -u
top=$(git rev-parse --show-toplevel) && cd "$top" || exit 1
passed=0
failed=0
skipped=0

# has TOOL: succeeds if a tool is installed.
has() {
    command -v "$1" >/dev/null
}

# check NAME COMMAND..: runs and counts a check. If its command fails, prints the command's output.
check() {
    name=$1
    shift
    if said=$("$@" 2>&1); then
        echo "ok: $name"
        passed=$((passed + 1))
    else
        printf 'FAILED: %s\n%s\n' "$name" "$said"
        failed=$((failed + 1))
    fi
}

# skip NAME REASON: counts a check that cannot run here.
skip() {
    echo "skipped: $1: $2"
    skipped=$((skipped + 1))
}

# Formats the crates that differ from the last commit, and fails if this changes a file.
lay_out() {
    status=0
    for crate in $(git diff --name-only HEAD -- crates | cut -d/ -f2 | sort -u); do
        [ -d "crates/$crate" ] || continue
        before=$(git diff HEAD -- "crates/$crate")
        (cd "crates/$crate" && rt fmt) || status=1
        [ "$before" = "$(git diff HEAD -- "crates/$crate")" ] || {
            echo "$crate was not laid out, and is now"
            status=1
        }
    done
    return "$status"
}

follow_links() {
    # shellcheck disable=SC2046 # document names have no spaces
    python3 tests/common/links.py . $(git ls-files '*.md')
}

# Prints the paths of all scripts for sh: the files whose first line says so, and all *.sh.
shell_scripts() {
    git ls-files '*.sh'
    git grep -lI -e '^#!/bin/sh$' -- ':!*.sh' ':!*.md' ':!*.py'
}

read_shell() {
    shell_scripts | xargs -P "$(getconf _NPROCESSORS_ONLN)" -n 12 shellcheck -s sh &&
        shellcheck -s bash tools/packaging/tpmsim.bash
}

read_python() {
    # shellcheck disable=SC2046 # the names of the programs have no spaces
    "$@" $(git ls-files '*.py')
}

if has rt; then check 'the layout of changed crates' lay_out; else skip layout 'there is no rt'; fi
if has python3; then
    check links follow_links
    check words tools/words.py
else
    skip 'links and words' 'there is no python3'
fi
if has shellcheck; then
    check 'shell scripts' read_shell
else
    skip 'shell scripts' 'there is no shellcheck'
fi
if has ruff; then
    check Python read_python ruff check --quiet --select E9,F --ignore E402
elif has pyflakes3; then
    check Python read_python pyflakes3
else
    skip Python 'there is neither ruff nor pyflakes3'
fi

counts="$passed passed, $failed failed"
[ "$skipped" -eq 0 ] || counts="$counts, $skipped skipped"
echo "$counts"
[ "$failed" -eq 0 ]
