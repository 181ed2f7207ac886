# Tests the states of a running device that an older libtpms.so.0 wrote. Its volatile state was the journal
# since power-on (swtpm/journal_state), which swtpm/make_journal_state.py wrote with the older library. The
# device must continue with its sessions, objects, the context of a session, and a dynamic launch. Damaged
# states must be refused. A journal that contains an object's context (swtpm/journal_of_objects) is also
# refused, because the completing layer now writes object contexts in another form.
tests=$(cd "$(dirname "$0")/.." && pwd -P)
. "$tests/common/cases.sh"
. "$tests/common/swtpm.sh"
older=$tests/swtpm/journal_state
TPMSIM_COMPLETE=1
export TPMSIM_COMPLETE
cp "$older/volatile" volatile
python3 -c 'import sys; sys.stdout.buffer.write(bytes.fromhex(sys.stdin.read()))' \
    <"$older/permanent.hex" >permanent

label 'it goes on: an HMAC session writes, a policy unseals, a saved session is loaded and resets'
{
    printf 'set permanent permanent\nset volatile volatile\non\nestablished\n'
    echo 'do PCR_Read sha1:17+sha256:10'
    sed 's/^/head /' "$older/commands"
    printf 'save later\nget permanent permanent_later\n'
} | play
python3 "$tests/swtpm/volatile_states.py" read later

label 'by the states that swtpm keeps, and in another process from the state that it has then'
cp permanent permall
cp volatile volatilestate
printf 'validate 3\non\nestablished\nsave later\n' | play
rm volatilestate
printf 'set permanent permanent\nset volatile later\non\nestablished\ndo PCR_Read sha1:17+sha256:10\n' | play

label 'its time goes on: 12 seconds of it at 12 seconds by the clock of its host'
cc -shared -fPIC -o "$room/clock.so" "$tests/common/clock.c" || exit 1
printf 'clock 1012\nset permanent permanent\nset volatile volatile\non\ndo ReadClock\n' | spell >lines
CLOCK=$room/clock LD_PRELOAD=$room/clock.so "$room/caller" "$room/swtpm/libtpms.so.0" <lines

label 'damage'
sed '$d' volatile >no_end
{ sed '$d' volatile | head -c -30 && echo '# the end'; } >cut_off
sed '/^wait/s/[0-9]*$/7/' volatile >damaged
sed '2s/0/1/' volatile >bent_head
for state in no_end cut_off damaged bent_head; do
    echo "$state"
    printf 'set volatile %s\n' "$state" | play
done

printf 'turn volatile volatile\ncut volatile volatile\n' | play

label 'the context of an object'
cp "$tests/swtpm/journal_of_objects/volatile" of_objects
printf 'set volatile of_objects\n' | play

label 'with another permanent state'
rm permall
printf 'on\noff\nset volatile volatile\non\n' | play
