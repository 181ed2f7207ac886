# Tests a device in a folder. Sessions and PCRs keep their state from one run to the next, and a power cycle
# ends the sessions. The history is printed as a script, and playing that script returns the same responses.
tests=$(cd "$(dirname "$0")/.." && pwd -P)
. "$tests/common/cases.sh"
needs python3

echo 'do Startup 0
do PCR_Extend 00000010 pw:- sha256:0000000000000000000000000000000000000000000000000000000000000001
entropy 0102030405060708
do StartAuthSession NULL NULL 00000000000000000000000000000000 - 0 null sha256' >first.tpm
echo 'do PCR_Read sha256:16
do GetCapability 1 02000000 8
wait 1500
loc 3
do PCR_Extend 00000014 pw:- sha256:0000000000000000000000000000000000000000000000000000000000000002
do ReadClock' >second.tpm
echo 'do GetRandom 8' >third.tpm
(echo 'do Startup 0'; cat second.tpm) >fourth.tpm

# play LABEL WORDS..: runs the program with these arguments, and stores the responses for `replay`.
play() {
    run "$@"
    cat "$room/output" >>"$room/answered"
}

# replay LABEL: plays the output of `tpmsim script` on a device restored from the state text in the script's
# second line. Prints whether the responses are the same.
replay() {
    "$program" script state >told.tpm || echo 'there is no script'
    sed -n '2s/^# //p' told.tpm | python3 -c '
import sys
sys.stdout.buffer.write(bytes.fromhex(sys.stdin.read()))
' >"$room/text"
    "$program" restore again "$room/text"
    "$program" run --state again told.tpm >"$room/again"
    cmp "$room/answered" "$room/again" &&
        echo "$1: $(grep -c . "$room/again") answers, and the script has the same"
    sed -n 's/^# \([A-Z]\)/    \1/p' told.tpm
    : >"$room/answered"
}

: >"$room/answered"
play 'a new device' run --state state first.tpm
play 'the same device' run --state state second.tpm
play 'with the trace' run --trace --state state third.tpm
grep -v '^GetRandom' "$room/answered" >"$room/kept"
mv "$room/kept" "$room/answered"
"$program" run --state state - <third.tpm >>"$room/answered"
replay 'as it was told'
stat -c '%n %a' state state/* | LC_ALL=C sort

# A power cycle ends all volatile state.
run 'a power cycle' power state
play 'behind it' run --state state fourth.tpm
replay 'behind the power cycle'
printf 'do Startup 0\npower\ndo Startup 0\ndo GetCapability 1 02000000 8\n' >cycles.tpm
run 'power cycles in a script' run --trace --state state cycles.tpm
grep -c '^cmd' state/journal

# A script with an invalid line. The lines before the invalid one are executed.
printf 'do GetRandom 4\nwhat\ndo GetRandom 4\n' >bad.tpm
run 'a bad line' run --state state bad.tpm
grep -c '^cmd' state/journal

# A missing script: no device is made.
run 'no script' run --state none none.tpm
[ ! -e none ] || echo 'a folder was made'

# The random bytes for a new device come from a file.
head -c 256 /dev/zero | tr '\0' 7 >entropy
run 'random bytes' run --state another --entropy entropy first.tpm
run 'too few random bytes' run --state third --entropy first.tpm first.tpm
ls third
