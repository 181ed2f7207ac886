#!/bin/sh
# Plays tests, one after another, for tools/scripts.sh, which describes each test in a file:
#
#   play_tests.sh WORK NUMBER..
#
# WORK/queue/NUMBER describes a test in one line with tabs: the script or the shell test, the program, the file
# with the expected standard output, and sometimes options. This script writes the result to WORK/told/NUMBER,
# whose first word is `ok:`, `FAILED:` or `skipped:`, and then prints the number. tools/lib/watch_tests.sh ends a
# test that would never end.
set -u

top=$(CDPATH='' cd "$(dirname "$0")/../.." && pwd -P) || exit 1
lists=$top/crates/tpmsim_lists/out/tpmsim_lists
work=$1
shift

# name_of FILE: prints the path of a file relative to the repository, or to the folder of the made scripts.
name_of() {
    name=${1#"$top/"}
    echo "${name#"$work/made/"}"
}

# first_difference TEST WANTED: prints the first line of standard output that differs from the expected one and,
# for a script, the line of the script that printed it. Each cmd or do line prints one line, or two with
# --trace. A line `power` prints one line with --trace, and nothing without it.
first_difference() {
    awk -v test="$(name_of "$1")" -v out="$(name_of "$2")" '
        BEGIN { traces = out ~ /trace$/ }
        FILENAME == ARGV[1] {
            prints = 0
            if (test ~ /tpm$/ && /^(cmd|do)( |$)/) prints = traces ? 2 : 1
            if (test ~ /tpm$/ && /^power$/) prints = traces ? 1 : 0
            while (prints-- > 0) line[++lines] = test ":" FNR ": " $0
            next
        }
        FILENAME == ARGV[2] { wanted[++wanted_lines] = $0; next }
        { given[++given_lines] = $0 }
        END {
            most = wanted_lines > given_lines ? wanted_lines : given_lines
            for (n = 1; n <= most; n++) if (wanted[n] "" != given[n] "") break
            print "    " (n <= lines ? line[n] : out ":" n)
            print "        wanted: " (n <= wanted_lines ? wanted[n] : "no more")
            print "        given:  " (n <= given_lines ? given[n] : "no more")
        }
    ' "$1" "$2" "$output"
}

# name_program PATH: sets program_name to the name of a program. This is its path in the repository if the
# program is the one in dist/.
name_program() {
    case $1 in
    */dist/*) program_name=${1#"$top/"} ;;
    *) program_name=${1##*/} ;;
    esac
}

# is_skipped TEST STATUS: succeeds if a shell test ended with status 77 (skipped), and printed a reason.
is_skipped() {
    case $1,$2 in
    *.sh,77) [ "$(grep -c . "$output")" -eq 1 ] && [ "$(wc -l <"$output")" -eq 1 ] ;;
    *) false ;;
    esac
}

# run TEST PROGRAM [OPTIONS]: runs a test with a program. `timeout 0` sets no limit: it makes a group of the test's
# processes, by which watch_tests.sh finds those whose parent has ended.
run() {
    # shellcheck disable=SC2086 # the options are words
    case $1,$2 in
    *.sh,*) timeout 0 sh "$1" "$2" </dev/null ;;
    *,"$lists") timeout 0 "$2" <"$1" ;;
    *) timeout 0 "$2" run $3 "$1" </dev/null ;;
    esac
}

# has_error FILE: succeeds if standard error is the same as the file, or empty if there is no file.
has_error() {
    if [ -f "$1" ]; then
        cmp -s "$1" "$error"
    else
        [ ! -s "$error" ]
    fi
}

# tell_difference TEST WANTED STATUS WANTED_STATUS ERROR: prints how the results of a test differ from the
# expected files.
tell_difference() {
    cmp -s "$2" "$output" || first_difference "$1" "$2"
    [ "$3" = "$4" ] || echo "    status wanted: $4, given: $3"
    has_error "$5" || {
        echo "    standard error wanted: $([ ! -f "$5" ] || cat "$5")"
        echo "    standard error given:  $(cat "$error")"
    }
}

# check TEST PROGRAM WANTED [OPTIONS]: plays a test, and prints how its results differ from the expected files.
check() {
    name_program "$2"
    named="$(name_of "$1") with $program_name${4:+ $4}"
    base=${1%.*}
    if [ ! -f "$3" ]; then
        echo "FAILED: $named: $(name_of "$3") is not there"
        return
    fi
    status=0
    [ ! -f "$note" ] || rm "$note"
    run "$1" "$2" "${4:-}" >"$output" 2>"$error" || status=$?
    if is_skipped "$1" "$status"; then
        echo "skipped: $named: $(cat "$output")"
        return
    fi
    wanted_status=0
    [ ! -f "$base.status" ] || read -r wanted_status <"$base.status"
    if [ "$status" = "$wanted_status" ] && cmp -s "$3" "$output" && has_error "$base.err"; then
        echo "ok: $named"
        return
    fi
    echo "FAILED: $named"
    if [ -f "$note" ]; then
        sed 's/^/    /' "$note"
        cmp -s "$3" "$output" || first_difference "$1" "$3"
        return
    fi
    tell_difference "$1" "$3" "$status" "$wanted_status" "$base.err"
}

note=$work/ended.$$
sh "$top/tools/lib/watch_tests.sh" $$ "$note" >/dev/null 2>&1 &
watcher=$!
tab=$(printf '\t')
for number do
    output=$work/output.$number
    error=$work/error.$number
    IFS=$tab read -r test program wanted option <"$work/queue/$number"
    check "$test" "$program" "$wanted" "$option" >"$work/telling.$number"
    mv "$work/telling.$number" "$work/told/$number"
    echo "$number"
done
kill "$watcher"
