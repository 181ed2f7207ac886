# Functions for the shell tests. Each test reads this file first, and gets the program's path as its argument.
# For each case, the test runs the program in a temporary folder, and prints a line with the result.
LC_ALL=C
# shellcheck disable=SC2154 # a test names its folder before it reads this file
PYTHONPATH=${tests%/*}/clients/python:${tests%/*}
export LC_ALL PYTHONPATH
# tools/scripts.sh sets PYTHONPYCACHEPREFIX to one folder for the Python bytecode of all tests. Python then
# writes bytecode there, even if the environment forbids it. Without that variable, no bytecode is written.
if [ -n "${PYTHONPYCACHEPREFIX:-}" ]; then
    unset PYTHONDONTWRITEBYTECODE
else
    export PYTHONDONTWRITEBYTECODE=1
fi

# Runs Python without its site packages. Python then starts faster, and the tests do not need these packages.
python3() {
    command python3 -S "$@"
}

[ "$#" -eq 1 ] || { echo "usage: sh $0 PROGRAM" >&2; exit 2; }
case $0 in
/*) test_file=$0 ;;
*) test_file=$PWD/$0 ;;
esac
room=$(mktemp -d) || exit 1
trap 'keep_journals; rm -rf "$room"' EXIT

# keep_journals: copies the journals and logs of a test to the folder KEPT_JOURNALS, if that variable is set.
keep_journals() {
    [ -n "${KEPT_JOURNALS:-}" ] || return 0
    grep -rlaE '^# (tpmsim (journal [12]|v[0-9a-f]{8})|image|state) [0-9a-f]{40}' "$room" 2>/dev/null | while read -r journal; do
        cp "$journal" "$(mktemp "$KEPT_JOURNALS/$(basename "$0" .sh).XXXXXX")"
    done
}

# The program's help text shows the name of the called file. Therefore the tests call a link with the name
# tpmsim.
program=$room/tpmsim
ln -s "$(cd "$(dirname "$1")" && pwd -P)/$(basename "$1")" "$program" || exit 1
mkdir "$room/folder" && cd "$room/folder" || exit 1

# skip REASON: ends a test that cannot run on this machine, before it prints anything. tools/scripts.sh counts
# the test as skipped.
skip() {
    echo "$1"
    exit 77
}

. "$tests/common/needs.sh"

# The folder of the scripts of tests/ and examples/, each with its responses and trace. The tests of a run of
# tools/scripts.sh share it.
export TPMSIM_MADE="${TPMSIM_MADE:-$room/made}"

# make_scripts [NAME..]: makes these scripts in the folder TPMSIM_MADE, or all scripts, unless they are there.
make_scripts() {
    python3 "$tests/common/made.py" "$TPMSIM_MADE" "$@" >&2
}

# script NAME: prints the path of a script in the folder TPMSIM_MADE. If it is not there, it is made first.
script() {
    find_script "$1" || { make_scripts "$1" && find_script "$1"; }
}

# find_script NAME: prints the path of a script if it is in the folder TPMSIM_MADE. Its trace appears last.
find_script() {
    for found in "$TPMSIM_MADE"/tests/*/"$1.trace" "$TPMSIM_MADE/examples/$1.trace"; do
        [ ! -f "$found" ] || { echo "${found%.trace}.tpm" && return; }
    done
    false
}

# symmetric_folders: prints the folders of the made scripts for devices of the symmetric profile.
symmetric_folders() {
    for folder in "$TPMSIM_MADE/examples" "$TPMSIM_MADE"/tests/*; do
        [ "${folder##*/}" = complete ] || echo "$folder"
    done
}

# `startup` is TPM2_Startup(CLEAR). Its response is SUCCESS (80010000000a00000000) at the first call, and
# INITIALIZE (80010000000a00000100) at the second one. The response to `cmd` without bytes is COMMAND_SIZE
# (80010000000a00000142).
# shellcheck disable=SC2034 # the tests use it
startup='cmd 80010000000c000001440000'

# told FILE: prints the lines of a file. Consecutive equal lines are printed once, with a count. The shell
# itself reads a file with few lines, which is faster than starting a program.
told() {
    [ -s "$1" ] || { printf 'empty'; return; }
    text='' before='' times=0 lines=0
    # shellcheck disable=SC2094 # both commands only read the file
    while IFS= read -r line; do
        lines=$((lines + 1))
        [ "$lines" -le 30 ] || { told_at_length "$1"; return; }
        add_line
    done <"$1"
    if [ -n "$line" ]; then
        add_line
    fi
    end_line
    printf '%s' "${text#, }"
    [ -z "$line" ] || printf ' without a line break'
}

# add_line: counts `line` if it repeats the previous line. Otherwise prints the previous line, and begins to
# count `line`.
add_line() {
    if [ "$times" -gt 0 ] && [ "$line" = "$before" ]; then
        times=$((times + 1))
        return
    fi
    end_line
    before=$line
    times=1
}

# end_line: adds the previous line to `text`, with the number of times that it occurred in a row.
end_line() {
    case $times in
    0) ;;
    1) text="$text, \"$before\"" ;;
    *) text="$text, \"$before\" $times times" ;;
    esac
}

# told_at_length FILE: does the same as `told`, but for a file with many lines.
told_at_length() {
    awk '
        function tell() {
            printf "%s\"%s\"", between, line
            if (times > 1) printf " %s times", times
            between = ", "
        }
        NR > 1 && $0 "" == line "" { times++; next }
        NR > 1 { tell() }
        { line = $0; times = 1 }
        END { tell() }
    ' "$1"
    [ -z "$(tail -c 1 "$1")" ] || printf ' without a line break'
}

# report LABEL STATUS: prints a line with the status and the stored output of the program.
report() {
    printf '%s: status %s' "$1" "$2"
    for stream in output error; do
        [ ! -e "$room/$stream" ] || printf ', %s %s' "$stream" "$(told "$room/$stream")"
    done
    echo
}

# run LABEL WORDS..: runs the program with these arguments, for ten minutes at most, and reports the result.
run() {
    label=$1
    shift
    status=0
    timeout 600 "$program" "$@" >"$room/output" 2>"$room/error" || status=$?
    report "$label" "$status"
}
