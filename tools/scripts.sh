#!/bin/sh
# Plays the scripts of tests/ and examples/, and the shell tests of tests/, and compares the results with the
# expected files next to them. Before that, tests/common/made.py makes the scripts that programs write, their
# responses, and the trace of each script, with the Python model. A made file whose SHA-256 is not that in
# tests/made.sums counts as a failed test. The script tests both programs that `rt ci` builds, and also the
# program in dist/ if its bytes differ. Then tpmsim_lists, which stores the device's state in lists and not in
# arrays of fixed size, plays the scripts that must succeed, and must print the same bytes. The last tests are
# the shell tests of tpmsim_lists, of the library in dist/, and of the hosts that use the library. If nothing was
# built here, only the files in dist/ are tested, which needs no `rt`.
#
#   tools/scripts.sh                   all tests
#   tools/scripts.sh --shipped         only the tests of the files in dist/
#   tools/scripts.sh --built           only the tests of programs that were built here and differ from dist/
#   tools/scripts.sh pcr_extend files  the tests with these names
#   tools/scripts.sh 'nv/*' 'torn*'    the tests in tests/nv, and those whose names begin with torn
#   JOBS=1 tools/scripts.sh            one test after another, instead of one on each processor
#
# The tests work in folders in memory, if there is enough memory, or in TMPDIR, if that is set.
#
# NAME.tpm is run as `PROGRAM run NAME.tpm`, or as `tpmsim_lists <NAME.tpm`, and NAME.sh as `sh NAME.sh PROGRAM`. The
# scripts in tests/complete are run as `PROGRAM run --complete NAME.tpm`, and not with tpmsim_lists. A
# shell test whose name begins with lists_ is run only with tpmsim_lists. A shell test whose name begins with
# library_ or attached_ is run with dist/libtpmsim.a. All other shell tests are run with the other programs. NAME.out
# is the expected standard output, NAME.err the expected standard error (no file: empty), and NAME.status the
# expected status (no file: 0). Another test runs NAME.tpm as `PROGRAM run --trace NAME.tpm` and expects NAME.trace
# as standard output. A shell test that cannot run here ends with status 77, and prints one line with the reason.
# Such a test is counted as skipped, like a test whose program is missing. Results are printed in the order of
# programs and of tests, regardless of which test ends first. The last line is `N passed, M failed`, followed by `, K
# skipped` if a test was skipped. The lines before it say why: one names the Debian packages with which more tests
# can run, and the others count the tests that no package helps.
#
# A test is ended after an hour of processor time, or after it only waited for an hour: tools/lib/watch_tests.sh. The
# variables PROCESSOR_S and IDLE_S change these limits, in seconds.
set -u

top=$(CDPATH='' cd "$(dirname "$0")/.." && pwd -P) || exit 1
out=$top/crates/tpmsim/out
lists=$top/crates/tpmsim_lists/out/tpmsim_lists
# The paths of the shipped files for this machine.
in_dist=$top/dist/tpmsim
[ "$(uname -sm)" != 'Linux aarch64' ] || in_dist=$top/dist/aarch64/tpmsim
library=${in_dist%/*}/libtpmsim.a
jobs=${JOBS:-$(getconf _NPROCESSORS_ONLN)}

# Tests sync files to the disk, which is faster if the files are in memory.
. "$top/tools/lib/memory.sh"
work=
[ -n "${TMPDIR:-}" ] || work=$(folder_in_memory 1 2>&1) || work=
[ -n "$work" ] || work=$(mktemp -d) || exit 1
trap 'rm -rf "$work"' EXIT
made_in=$work/made
mkdir "$work/told" "$work/rooms" "$work/queue" "$made_in" || exit 1
# A test may run a program as another user, who must be able to enter the test's folder.
chmod a+x "$work" "$work/rooms"
export TMPDIR="$work/rooms"
# If python3 is only a launcher for another python3, as in pyenv, the tests start the actual python3 directly.
if found=$(command -v python3); then
    started=$(python3 -c 'import sys; print(sys.executable)')
    [ "${started:-$found}" = "$found" ] || PATH=${started%/*}:$PATH
fi
# Checks once whether Python has all needed modules.
. "$top/tools/lib/python.sh"
unset TPMSIM_PYTHON
! python_is_whole || export TPMSIM_PYTHON=whole
# The tests share Python's bytecode, even if the environment disables it, and the compiled C programs that
# several tests need.
export PYTHONPYCACHEPREFIX="$work/python" TPMSIM_BUILT="$work/built"
unset PYTHONDONTWRITEBYTECODE
number=0

# The longest tests start first, then the other shell tests, and then the scripts.
longest=' audit python policy_audit images bent_lines starved library_scripts launcher torn '

# say WORDS: adds a line between the results of tests.
say() {
    number=$((number + 1))
    echo "$1" >"$work/told/$number"
}

# check TEST PROGRAM WANTED [OPTION]: queues a test.
check() {
    number=$((number + 1))
    printf '%s\t%s\t%s\t%s\n' "$1" "$2" "$3" "${4:-}" >"$work/queue/$number"
    name=${1##*/}
    case $1,$longest in
    *.sh,*" ${name%.sh} "*) echo "$number" >>"$work/longest" ;;
    *.sh,*) echo "$number" >>"$work/long" ;;
    *) echo "$number" >>"$work/short" ;;
    esac
}

skip() {
    say "skipped: $1: $2"
}

# check_made TEST PROGRAM WANTED [OPTION]: queues a test whose script or expected output is made.
check_made() {
    if [ "${TPMSIM_PYTHON:-}" = whole ]; then
        check "$@"
    else
        skip "${1#"$made_in/"}${4:+ $4}" 'there is no python3 (Debian: python3)'
    fi
}

# is_complete TEST: succeeds if a script is for devices of the complete profile.
is_complete() {
    case $1 in
    */tests/complete/*.tpm) true ;;
    *) false ;;
    esac
}

# check_script TEST PROGRAM: queues both tests of a script, without and with --trace.
check_script() {
    profile=
    ! is_complete "$1" || profile='--complete '
    if is_made "$1"; then
        check_made "$1" "$2" "${1%.tpm}.out" "${profile% }"
        check_made "$1" "$2" "${1%.tpm}.trace" "$profile--trace"
    else
        of_script=$made_in/${1#"$top/"}
        check "$1" "$2" "${1%.tpm}.out" "${profile% }"
        check_made "$of_script" "$2" "${of_script%.tpm}.trace" "$profile--trace"
    fi
}

# is_test PATH: succeeds if the file at a path is a test. The files of tests/common are not tests.
is_test() {
    case $1 in
    "$top/tests/common/"*) false ;;
    *) [ -f "$1" ] ;;
    esac
}

# The programs that make scripts, one on each line.
programs_of_made=$(grep -slE '^"""Makes [a-z_0-9]+[.]tpm' "$top"/tests/*/*.py "$top"/examples/*.py | sort)

# makes PROGRAM: succeeds if the program makes a script.
makes() {
    echo "$programs_of_made" | grep -qxF -- "$1"
}

# is_made TEST: succeeds if the test is a script that a program makes.
is_made() {
    case $1 in
    "$made_in/"*) true ;;
    *) false ;;
    esac
}

asked=
case ${1:-} in
--shipped | --built)
    asked=${1#--}
    shift
    ;;
esac
if [ "$#" -eq 0 ]; then
    set -- '*'
fi
asked_names=$*
for name do
    shift
    found=
    # shellcheck disable=SC2086,SC2231 # a name may be a pattern
    for test in "$top/tests/"$name.sh "$top/tests/"*/$name.sh "$top/tests/"$name.tpm \
        "$top/tests/"*/$name.tpm "$top/examples/"$name.tpm; do
        if is_test "$test"; then
            set -- "$@" "$test"
            found=yes
        fi
    done
    # shellcheck disable=SC2086,SC2231 # a name may be a pattern
    for written_by in "$top/tests/"$name.py "$top/tests/"*/$name.py "$top/examples/"$name.py; do
        if makes "$written_by"; then
            test=${written_by#"$top/"}
            set -- "$@" "$made_in/${test%.py}.tpm"
            found=yes
        fi
    done
    [ -n "$found" ] || say "FAILED: $name: there is no such test"
done

# make_scripts TEST..: makes the scripts among these tests. Each line that tests/common/made.py prints is a fault.
make_scripts() {
    for test do
        shift
        case $test in
        *.tpm) set -- "$@" "$(basename "$test" .tpm)" ;;
        esac
    done
    [ "$#" -gt 0 ] || return 0
    [ "$asked_names" != '*' ] || set --
    if JOBS=$jobs "$top/tools/python.sh" "$top/tests/common/made.py" "$made_in" "$@" \
        >"$work/faults" 2>"$work/said"; then
        say 'ok: the made scripts are as tests/made.sums says'
        return
    fi
    [ -s "$work/faults" ] || echo "tests/common/made.py: $(tail -n 1 "$work/said")" >"$work/faults"
    while read -r fault; do say "FAILED: $fault"; done <"$work/faults"
}

# The tests of a run share the folder of the made scripts. A test makes in it the scripts that it lacks.
export TPMSIM_MADE="$made_in"
[ "${TPMSIM_PYTHON:-}" != whole ] || make_scripts "$@"

# is_of_library TEST: succeeds if a test concerns the library, a host that uses it, or the module for web pages.
is_of_library() {
    case $1 in
    */library_*.sh | */attached_*.sh | */web/*.sh) true ;;
    *) false ;;
    esac
}

# Succeeds if the program in dist/ was built from the current sources.
shipped_is_of_sources() (
    cd "$top" && . tools/lib/proved.sh && is_proved sources "$(sources_checksum)"
)

# is_asked PROGRAM: succeeds if a program is to be tested. A program that was built here is not tested
# separately if dist/ was built from the current sources and its program has the same bytes.
is_asked() {
    case $asked,$1 in
    shipped,"$in_dist" | ,*) true ;;
    built,"$out/"*) ! cmp -s "$in_dist" "$1" || ! shipped_is_of_sources ;;
    *) false ;;
    esac
}

# missing PROGRAM: if tpmsim was built here, reports that another program is missing.
missing() {
    [ ! -x "$out/tpmsim" ] || say "${1#"$top/"} is not there"
}

programs=0
for program in "$out/tpmsim" "$out/tpmsim.by-rattle" "$in_dist"; do
    is_asked "$program" || continue
    if [ ! -x "$program" ]; then
        missing "$program"
        continue
    fi
    if [ "$program" = "$in_dist" ] && ! shipped_is_of_sources; then
        say "${in_dist#"$top/"} is not run: it was proved of other sources than these"
        continue
    fi
    if [ -z "$asked" ] && [ "$program" = "$in_dist" ] && cmp -s "$out/tpmsim" "$program"; then
        say "${in_dist#"$top/"} has the bytes of the program that was built here"
        continue
    fi
    programs=$((programs + 1))
    for test do
        case $test in
        */lists_*.sh) continue ;;
        esac
        ! is_of_library "$test" || continue
        case $test in
        *.tpm) check_script "$test" "$program" ;;
        *) check "$test" "$program" "${test%.*}.out" ;;
        esac
    done
done
[ "$programs" -gt 0 ] || say 'FAILED: no program was there to be run'

# ends_well SCRIPT: succeeds if the expected status of a script is 0.
ends_well() {
    [ ! -f "${1%.*}.status" ] || [ "$(cat "${1%.*}.status")" -eq 0 ]
}

[ -x "$lists" ] || missing "$lists"
for test do
    [ "$asked" != shipped ] || continue
    # tpmsim_lists makes devices of the symmetric profile alone.
    ! is_complete "$test" || continue
    case $test in
    */lists_*.sh)
        if [ -x "$lists" ]; then
            check "$test" "$lists" "${test%.*}.out"
        else
            skip "${test#"$top/"}" 'tpmsim_lists was not built here'
        fi
        ;;
    "$made_in/"*)
        [ ! -x "$lists" ] || [ ! -f "$test" ] || check "$test" "$lists" "${test%.*}.out"
        ;;
    *.tpm)
        [ ! -x "$lists" ] || ! ends_well "$test" || check "$test" "$lists" "${test%.*}.out"
        ;;
    esac
done

# Succeeds if the library in dist/ is the proved one, built from the current sources.
library_is_proved() (
    cd "$top" && . tools/lib/proved.sh &&
        is_proved 'library sources' "$(sources_checksum tpmsim_library)" &&
        is_proved 'library archive' "$(checksum <"$library")"
)

# Prints the reason why the tests of the library cannot run, or nothing if they can.
missing_library() {
    [ -f "$library" ] || { echo "${library#"$top/"} is not there" && return; }
    library_is_proved || echo "${library#"$top/"} was proved of other sources than these"
}

why=$(missing_library)
for test do
    if [ "$asked" = built ] || ! is_of_library "$test"; then
        continue
    fi
    if [ -z "$why" ]; then
        check "$test" "$library" "${test%.*}.out"
    else
        skip "${test#"$top/"}" "$why"
    fi
done

# Prints the results that are available and come next in the order.
next=1
show() {
    while [ -f "$work/told/$next" ]; do
        cat "$work/told/$next"
        next=$((next + 1))
    done
}

# The shell tests start first, because they take longest. Each process plays several scripts.
touch "$work/longest" "$work/long" "$work/short"
{ cat "$work/longest" "$work/long" && xargs -r -n 12 <"$work/short"; } |
    xargs -r -P "$jobs" -L 1 sh "$top/tools/lib/play_tests.sh" "$work" |
    {
        show
        while read -r _; do show; done
        while [ "$next" -le "$number" ]; do
            [ -f "$work/told/$next" ] || echo "FAILED: test $next was not played" >"$work/told/$next"
            show
        done
    }

# count WORD: prints the number of tests whose result begins with this word.
count() {
    find "$work/told" -type f -exec cat {} + | grep -c "^$1: "
}

# packages: prints the packages that the reasons of skipped tests name, such as `there is no cc, nm (Debian:
# gcc, binutils)`.
packages() {
    find "$work/told" -type f -exec cat {} + | sed -n 's/^skipped: .* (Debian: \(.*\))$/\1/p' |
        sed 's/, */\n/g' | LC_ALL=C sort -u | tr '\n' ' '
}

# other_reasons: prints the reasons that name no package, with the number of skipped tests.
other_reasons() {
    find "$work/told" -type f -exec cat {} + | sed -n '/ (Debian: [^()]*)$/d; s/^skipped: [^:]*: //p' |
        LC_ALL=C sort | uniq -c | sed 's/^ *\([0-9]*\) /Skipped for another reason (\1): /'
}

[ "$asked" = shipped ] || [ -x "$out/tpmsim" ] ||
    echo 'No proof was run: nothing was proved and built here.'
packages=$(packages)
[ -z "$packages" ] || echo "More is played after: apt-get install --no-install-recommends ${packages% }"
other_reasons
failed=$(count FAILED)
skipped=$(count skipped)
counts="$(count ok) passed, $failed failed"
[ "$skipped" -eq 0 ] || counts="$counts, $skipped skipped"
echo "$counts"
[ "$failed" -eq 0 ]
