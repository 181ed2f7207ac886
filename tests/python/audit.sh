# Tests tools/audit.py, which judges logs. It finds nothing wrong in the logs of the scripts of tests/ and
# examples/. For the log of examples/disk_unlock.tpm, it prints the whole report. Other cases are logs that are
# altered, truncated or too long, or that begin with another device; scripts with an invalid line; and wrong
# command lines. The last cases are Python models with one deliberate mistake each, which only the comparison
# with the history can detect.
tests=$(cd "$(dirname "$0")/.." && pwd -P)
. "$tests/common/cases.sh"
needs python3
scripts=$tests/python
audit=$tests/../tools/audit.py
unlocking=$(script disk_unlock)

# trace SCRIPT FILE: writes the program's output for a script to a file.
trace() {
    "$program" run --trace "$1" >"$2" 2>/dev/null
}

# judge LABEL WORDS..: adds a test case or, without WORDS, a heading. One process runs all test cases at the end.
judge() {
    tab=
    for word do
        printf '%s%s' "$tab" "$word"
        tab=$(printf '\t')
    done >>cases
    echo >>cases
}

# at N PATTERN: prints the line number of the Nth line of the log that matches a pattern.
at() {
    grep -n "$2" whole | sed -n "$1s/:.*//p"
}

# bend FILE N LINE: copies the log to a file, with line N replaced by LINE.
bend() {
    awk -v at="$2" -v instead="$3" 'NR == at { print instead; next } { print }' whole >"$1"
}

# run_audit LABEL WORDS..: runs the audit in a separate process, and prints the whole report.
run_audit() {
    echo "$1"
    shift
    status=0
    env -u PYTHONPATH python3 "$audit" "$@" 2>&1 || status=$?
    echo "status $status"
}

# The audit of the models with mistakes runs at the same time as the other test cases.
python3 "$scripts/wrong_devices.py" >wrong_devices &
wrong_devices=$!

echo 'EACH SCRIPT: what is printed of it agrees.'
python3 "$scripts/sweep.py" "$program" 0 | grep DIFFERS

trace "$unlocking" whole
run_audit "A DISK'S UNLOCKING:" "$unlocking" - <whole

judge 'BENT LOGS:'
bend pcrs "$(at 1 'Unseal .* 00000128')" 'Unseal L0 +0 ok 00000000'
judge 'a refusal by PCR_CHANGED is a success' "$unlocking" pcrs
bend digest "$(at 2 'Unseal .* 0000099d')" 'Unseal L0 +0 ok 00000000'
judge 'a refusal by POLICY_FAIL is a success' "$unlocking" digest
bend password "$(at 1 'Unseal .* 0000012f')" 'Unseal L0 +0 ok 00000000'
judge 'a refused password is taken' "$unlocking" password
success=$(at 1 'Unseal .* ok')
bend refusal "$success" 'Unseal L0 +0 G9 00000128'
judge 'a success is a refusal' "$unlocking" refusal
key=$((success + 1))
bend key "$key" "$(sed -n "${key}s/ec11113b/ec11113c/p" whole)"
judge 'another key is unsealed' "$unlocking" key
bend cycle "$(at 1 '^power')" 'Startup L0 +0 ok 00000000'
judge 'a power cycle is a command' "$unlocking" cycle
"$program" run "$unlocking" >responses
judge 'responses alone' "$unlocking" responses
tr -d '\n' <whole >line
judge 'one long line' "$unlocking" line

judge 'CUT LOGS, and one that is too long:'
head -n 20 whole >between
judge 'between two events' "$unlocking" between
head -n 21 whole >behind
judge 'after a trace' "$unlocking" behind
printf '%s' "$(head -n 22 whole | sed '$s/....$//')" >within
judge 'within a response' "$unlocking" within
: >empty
judge 'nothing' "$unlocking" empty
{ cat whole && echo power; } >one_more
judge 'a line more' "$unlocking" one_more
printf '%s' "$(cat whole)" >unended
judge 'without the last line break' "$unlocking" unended

judge 'BAD LINES: the log is judged up to them.'
trace "$tests/lines/bad_line.tpm" bad
judge 'bad_line' "$tests/lines/bad_line.tpm" bad
trace "$tests/lines/bad_do_line.tpm" bad_do
judge 'bad_do_line' "$tests/lines/bad_do_line.tpm" bad_do
{ cat bad_do && echo power; } >longer
judge 'a log that goes on after a bad line' "$tests/lines/bad_do_line.tpm" longer
judge 'nothing of nothing' empty empty

# A device with a counter, a persistent object and saved PCRs, and its next commands.
cat >before.tpm <<'END'
do Startup 0
do PCR_Event 00000007 pw:- 01
do HierarchyChangeAuth OWNER pw:- 6f776e6572
do CreatePrimary OWNER pw:6f776e6572 00000000 0025000b0003047200000006008000430000 - -
do EvictControl OWNER 80000000 pw:6f776e6572 0x81000001
do NV_DefineSpace OWNER pw:6f776e6572 - 01000001000b0006001400000008
do NV_Increment 01000001 01000001 pw:-
do Shutdown 1
END
cat >after.tpm <<'END'
do Startup 1
do PCR_Event 00000008 pw:- 02
do NV_Increment 01000001 01000001 pw:-
do HierarchyChangeAuth OWNER pw:6f776e6572 -
do ReadPublic 81000001
do EvictControl OWNER 81000001 pw:- 0x81000001
END
{ cat before.tpm && echo power && cat after.tpm; } >both.tpm
trace both.tpm both
python3 "$tests/images/images.py" before.tpm image
tail -n "$((2 * $(wc -l <after.tpm)))" both >after
judge 'ANOTHER START:'
judge 'two starts from a new device' both.tpm both
judge 'the second one, from a new device' after.tpm after
judge 'both, from the image between them' both.tpm both --image image

judge 'WRONG WORDS:'
printf 'TPMI' >short
judge 'no output' "$unlocking"
judge 'a word too many' "$unlocking" whole image
judge 'an option without its word' "$unlocking" whole --image
judge 'another option' "$unlocking" whole --start image
judge 'no such script' missing whole
judge 'no such output' "$unlocking" missing
judge 'no such image' "$unlocking" whole --image missing
judge 'no image' "$unlocking" whole --image whole
judge 'a short image' "$unlocking" whole --image short
python3 "$scripts/cases.py" <cases

run_audit 'The second start, from the image:' after.tpm after --image image
run_audit 'No words:'

echo 'WRONG DEVICES: what is found of each.'
status=0
wait "$wrong_devices" || status=$?
cat wrong_devices
exit "$status"
