# Checks how tests that cannot run are treated: tools/scripts.sh skips them and prints the reasons, and then
# .ci/run fails. Each case uses a copy of the repository with its own tests, and with stand-ins for the other
# tools that the gate runs.
tests=$(cd "$(dirname "$0")/.." && pwd -P)
. "$tests/common/cases.sh"
copy=$room/copy
mkdir -p "$copy/tools/lib" "$copy/tests" "$copy/.ci" "$copy/crates/tpmsim/out" \
    "$copy/crates/tpmsim_lists/out"
cp "$tests/../tools/scripts.sh" "$copy/tools"
for part in play_tests watch_tests rt_ci memory python; do
    cp "$tests/../tools/lib/$part.sh" "$copy/tools/lib"
done
cp "$tests/../.ci/run" "$copy/.ci"
for built in tpmsim/out/tpmsim tpmsim_lists/out/tpmsim_lists; do
    ln -s "$program" "$copy/crates/$built"
done

# played LABEL NAME..: prints the results of these tests, without the lines about programs that have not been
# built.
played() {
    echo "$1:"
    shift
    status=0
    "$copy/tools/scripts.sh" "$@" >"$room/output" 2>&1 || status=$?
    sed '/is not there$/d; s/^/    /' "$room/output"
    echo "    status $status"
}

# a_test NAME LINES: makes a test script with these lines. The test's expected output is `right`.
a_test() {
    echo "$2" >"$copy/tests/$1.sh"
    echo right >"$copy/tests/$1.out"
}
a_test passes 'echo right'
a_test cannot_run 'echo there is no moon; exit 77'
a_test cannot_run_either 'echo right; exit 77'
a_test lists_cannot_run 'echo there is no list; exit 77'
a_test is_wrong 'echo wrong'
a_test ends_otherwise 'echo right; exit 78'
a_test gives_no_reason 'exit 77'
a_test gives_an_empty_reason 'echo; exit 77'
a_test goes_on 'echo right; echo there is no sun; exit 77'
played 'a test that passes' passes
played 'two tests that cannot run, and one that passes' cannot_run passes cannot_run_either
played 'a test of the device in lists that cannot run' lists_cannot_run
rm "$copy/crates/tpmsim_lists/out/tpmsim_lists"
played 'that one, and another, where this device is not built' lists_cannot_run passes
ln -s "$program" "$copy/crates/tpmsim_lists/out/tpmsim_lists"
played 'tests that fail, and one that cannot run' is_wrong ends_otherwise gives_no_reason \
    gives_an_empty_reason goes_on cannot_run

# The reason names everything that a test lacks, also what a later line needs, or a file that the test reads later.
mkdir "$copy/tests/common"
ln -s "$tests/common/cases.sh" "$tests/common/needs.sh" "$copy/tests/common"
echo 'needs no_third_tool' >"$copy/tests/common/third.sh"
# shellcheck disable=SC2016 # the test expands them
a_test needs_more "tests=$copy/tests"'
. "$tests/common/cases.sh"
needs no_first_tool sh
. "$tests/common/third.sh"
needs no_second_tool no_first_tool'
played 'a test that needs tools in several lines' needs_more

# Makes a folder with links to everything on the path. Each case removes some tools from this folder, and
# runs the tests that need them. Stand-ins that do nothing replace the tools that some machines lack.
mkdir "$room/path"
IFS=:
for folder in $PATH; do
    ln -s "$folder"/* "$room/path" 2>"$room/told"
done
unset IFS
for tool in cc g++ nm git python3 unshare; do
    rm -f "$room/path/$tool"
    printf '#!/bin/sh\n' >"$room/path/$tool"
    chmod +x "$room/path/$tool"
done
rm -r "$copy/tests"
ln -s "$tests" "$copy/tests"

# on_this_path LABEL NAME..: prints the results of tests that find only the tools in the folder `path`.
on_this_path() {
    # shellcheck disable=SC2123 # the tools are searched for only there
    (PATH=$room/path && played "$@")
}

# without TOOLS NAME..: prints the results of tests if some tools are missing.
mkdir "$room/away"
without() {
    for tool in $1; do mv "$room/path/$tool" "$room/away/"; done
    label="without $1"
    shift
    on_this_path "$label" "$@"
    mv "$room/away"/* "$room/path/"
}

# failing TOOL NAME..: prints the results of tests if a tool always fails.
failing() {
    printf '#!/bin/sh\nexit 1\n' >"$room/path/$1"
    label="$1 fails"
    shift
    on_this_path "$label" "$@"
    printf '#!/bin/sh\n' >"$room/path/${label%% *}"
}
without cc starved torn torn_scripts lists_starved serve_moved_clock
without nm starved torn torn_scripts lists_starved
without python3 serve images line
without unshare serve_full_disk
without 'cc nm' starved
failing cc torn
failing python3 images line

# clang++ without compiler-rt compiles, but does not link with sanitizers.
rm -f "$room/path/clang++"
# shellcheck disable=SC2016 # the stand-in expands it
printf '#!/bin/sh\n[ "$1" = -dumpversion ] && echo 14.0.6\n' >"$room/path/clang++"
chmod +x "$room/path/clang++"
status=0
# shellcheck disable=SC2123 # the tools are searched for only there
(PATH=$room/path && sh "$tests/cpp/library_cpp_clang.sh" "$program") >"$room/output" 2>&1 || status=$?
report 'clang++ without compiler-rt' "$status"

# Tests the gate, with stand-ins that succeed. The stand-in for tools/scripts.sh prints what the caller of
# `gate` specifies, for the shipped program and for the built programs.
mkdir "$room/stubs"
printf '#!/bin/sh\necho 3 passed, 0 failed\n' >"$room/stubs/rt"
# shellcheck disable=SC2016 # the stand-in expands them
printf '#!/bin/sh\n[ "$1" = --built ] || { echo "$SHIPPED"; exit; }; echo "$SAID"; exit "$STATUS"\n' \
    >"$copy/tools/scripts.sh"
mkdir "$copy/tools/soak"
for stub in dist soak/fuzz soak/histories soak/audits; do
    printf '#!/bin/sh\n' >"$copy/tools/$stub.sh"
done
mkdir -p "$copy/dist/aarch64"
: >"$copy/dist/aarch64/PROVED"
ln -s "$program" "$copy/crates/tpmsim/out/tpmsim.by-rattle"
for crate in tpmsim tpmsim_lists; do
    echo >"$copy/crates/$crate/stdin"
    echo >"$copy/crates/$crate/stdout"
done
chmod +x "$room/stubs/rt" "$copy"/tools/*.sh "$copy"/tools/soak/*.sh

# gate LABEL SAID STATUS [SHIPPED]: prints the gate's counts. For the built programs, tools/scripts.sh prints
# SAID and ends with STATUS. For the shipped program it prints SHIPPED.
gate() {
    echo "$1:"
    status=0
    SAID=$2 STATUS=$3 SHIPPED=${4:-7 passed, 0 failed} "$copy/.ci/run" >"$room/output" 2>&1 ||
        status=$?
    sed -n '/^FAILED/p; /^there is no/p; $s/^[0-9]* passed/N passed/p' "$room/output" |
        sed 's/^/    /'
    echo "    status $status"
}
PATH=$room/stubs:$room/path
gate 'the gate' '9 passed, 0 failed' 0
gate 'two were skipped' '9 passed, 0 failed, 2 skipped' 0
there_is_none='skipped: tests/library/library_go.sh: there is no go (Debian: golang-go)'
gate 'two were skipped for what is not there' "$there_is_none
skipped: tests/attached/attached_tcti.sh: there is no tss2/tss2_tcti.h (Debian: libtss2-dev)
9 passed, 0 failed, 2 skipped" 0
gate 'one of two was skipped for what is not there' "$there_is_none
skipped: tests/serving/serve_full_disk.sh with tpmsim: no disk can be mounted
9 passed, 0 failed, 2 skipped" 0
gate 'one was skipped, as Python is not whole' "skipped: tests/lines/line.sh with tpmsim: there is python3 without the modules of 3.11 (Debian: python3)
9 passed, 0 failed, 1 skipped" 0
gate 'one failed, and two were skipped' '9 passed, 1 failed, 2 skipped' 1
gate 'none was skipped, in these words' '9 passed, 0 failed, 0 skipped' 0
gate 'no count' 'all is well' 0
gate 'another status' '9 passed, 0 failed' 1
gate 'one of the shipped program failed' '9 passed, 0 failed' 0 '6 passed, 1 failed'
gate 'two of the shipped program were skipped' '9 passed, 0 failed' 0 '5 passed, 0 failed, 2 skipped'
gate 'no count of the shipped program' '9 passed, 0 failed' 0 'all is well'
printf '#!/bin/sh\nexit 1\n' >"$copy/tools/soak/histories.sh"
gate 'a history that differs' '9 passed, 0 failed' 0
printf '#!/bin/sh\n' >"$copy/tools/soak/histories.sh"
printf '#!/bin/sh\nexit 1\n' >"$copy/tools/soak/audits.sh"
gate 'logs of both programs that do not agree' '9 passed, 0 failed' 0
printf '#!/bin/sh\n' >"$copy/tools/soak/audits.sh"
rm "$room/path/cc"
gate 'without cc' '9 passed, 0 failed, 5 skipped' 0
