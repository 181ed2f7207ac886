# Tests a device in a folder whose journal has grown to 262,144 bytes. The next command restarts the journal
# with the whole state of the device. After that, the device must behave like one that is not kept in a
# folder.
tests=$(cd "$(dirname "$0")/.." && pwd -P)
. "$tests/common/cases.sh"

# TPM2_PCR_Event of PCR 16 with 1,024 bytes. Its entry has more than 2,048 bytes.
event="cmd 80020000041d0000013c00000010000000094000000900000000000400$(printf '%02048d' 0)"
count=0
while [ "$count" -lt 150 ]; do
    printf 'wait 10\n%s\n' "$event"
    count=$((count + 1))
done >events
echo 'do PCR_Read sha256:16
do ReadClock
do GetRandom 4' >after
(echo 'do Startup 0'; cat events after) >script

"$program" run script >alone
"$program" run --state state script >answers
cmp alone answers && echo "$(grep -c . answers) answers, as those of a device that is not kept"
[ "$(stat -c %s state/journal)" -lt 262144 ] && echo 'the journal began anew'
head -c 19 state/journal && echo
grep -c '^cmd' state/journal
ls state
run 'the next run' run --state state after
"$program" replay state/journal | grep -v '[^0-9a-f]' >again
tail -n 20 again >last
(cat answers "$room/output") | tail -n 20 | cmp last - && echo 'the journal tells the same answers'
