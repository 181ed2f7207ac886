# Checks which tests tools/scripts.sh ends, and what it reports: those whose processes use too much processor
# time, and those that only wait for too long. The limits of these tests are a few seconds.
tests=$(cd "$(dirname "$0")/.." && pwd -P)
. "$tests/common/cases.sh"
copy=$room/copy
mkdir -p "$copy/tools" "$copy/tests" "$copy/crates/tpmsim/out"
cp "$tests/../tools/scripts.sh" "$copy/tools"
cp -r "$tests/../tools/lib" "$copy/tools"
ln -s "$program" "$copy/crates/tpmsim/out/tpmsim"

# a_test NAME LINES: makes a test script with these lines. The test's expected output is `right`.
a_test() {
    echo "$2" >"$copy/tests/$1.sh"
    echo right >"$copy/tests/$1.out"
}

# played LABEL NAME..: prints the results of these tests, without the lines about programs that have not been built.
# The seconds of processor time that a test has used depend on the machine.
played() {
    echo "$1:"
    shift
    "$copy/tools/scripts.sh" "$@" >"$room/output" 2>&1
    sed '/is not there$/d; s/used [0-9]* s/used N s/; s/^/    /' "$room/output"
}

# is_running PID: succeeds if a process has not ended.
is_running() {
    sed 's/^.*) //' "/proc/$1/stat" 2>"$room/error" | grep -q '^[^ZX]'
}

# check_ended: waits until all processes that the tests have listed in the file `pids` have ended.
check_ended() {
    while read -r pid; do
        while is_running "$pid"; do sleep 0.1; done
    done <"$room/pids"
    echo "    $(wc -l <"$room/pids") processes have ended"
    rm "$room/pids"
}

LOOK_S=1 PROCESSOR_S=1 IDLE_S=3600
export LOOK_S PROCESSOR_S IDLE_S
cat >"$room/burn" <<END
trap '' TERM
echo \$\$ >>$room/pids
while :; do :; done
END
a_test waits 'sleep 4; echo right'
# shellcheck disable=SC2016 # the inner shell expands them
a_test counts 'echo begins; while :; do sh -c "n=0; until [ \$n = 20000 ]; do n=\$((n + 1)); done"; done'
a_test burns "timeout 100000 sh $room/burn & (sh $room/burn &); echo begins; wait"
played 'a test that takes longer than its processor time' waits
played 'a test that starts processes without end' counts
played 'a test whose processes burn, one in another group, one without its parent' burns
check_ended

PROCESSOR_S=3600 IDLE_S=3
mkfifo "$room/pipe"
a_test hangs "(sleep 100000 & echo \$! >>$room/pids); echo \$\$ >>$room/pids; echo begins; read -r line <$room/pipe"
a_test is_stopped "echo \$\$ >>$room/pids; echo right; kill -STOP \$\$"
a_test works 'timeout 8 sh -c "while :; do :; done"; echo right'
played 'a test that waits for what never comes' hangs
check_ended
played 'a test that is stopped' is_stopped
check_ended
played 'a test that works for longer than it may wait' works
