# Tests the records that libtpms.so.0 writes if TPMSIM_RECORD is set. There is one journal for each period from
# power-on to power-off, and a new one when a device continues in another process. The program must be able to
# play the journals. Also tests a record that cannot be begun or written. See swtpm/caller.c.
tests=$(cd "$(dirname "$0")/.." && pwd -P)
. "$tests/common/cases.sh"
. "$tests/common/swtpm.sh"
one=0000000000000000000000000000000000000000000000000000000000000001
TPMSIM_RECORD=.
export TPMSIM_RECORD
umask 0

# power_on_of RECORD: writes the image at the beginning of a record to standard output.
power_on_of() {
    sed -n '2s/^# //p' "$1" | python3 -c \
        'import sys; sys.stdout.buffer.write(bytes.fromhex(sys.stdin.read()))'
}

label 'three times of power, the last one from a volatile state'
play <<END
on
do Startup 0
do PCR_Extend 00000010 pw:- sha256:$one
do PCR_Read sha256:16
off
on
do Startup 0
loc 2
do PCR_Extend 00000014 pw:- sha256:$one
do PCR_Read sha256:20
save volatile
get permanent permanent
off
set permanent permanent
set volatile volatile
on
loc 0
do PCR_Read sha256:20
END
stat -c '%a %n' boot-*
for record in boot-1.tpm boot-2.tpm; do
    echo "$record, played by the program:"
    power_on_of "$record" >image
    "$assemble" run --image image "$record"
done
cc -I"$(dirname "$TPMSIM_ARCHIVE")" -o "$room/opened" "$tests/common/opened.c" "$TPMSIM_ARCHIVE" || exit 1
"$room/opened" boot-*
sed -n '/^cmd/p' boot-3.tpm

label 'a store that fails: the record has the command once'
mkdir stores && cd stores || exit 1
play <<END
on
do Startup 0
do NV_DefineSpace OWNER pw:- 61 01000002000b0004000400000008
store fails
do NV_Write 01000002 01000002 pw:61 4141414141414141 0
do PCR_Read sha256:20
store works
do NV_Read 01000002 01000002 pw:61 8 0
END
power_on_of boot-1.tpm >image
"$assemble" run --image image boot-1.tpm
cd .. || exit 1

label 'no folder'
TPMSIM_RECORD=nowhere
printf 'on\n' | play
TPMSIM_RECORD=$(printf '%05000d' 1)
printf 'on\n' | play | tr -s 0 | cut -c 1-40
TPMSIM_RECORD=
printf 'on\ncmd 80010000000c000001440000\n' | play
find . -name "*boot*" | wc -l

label 'links at the names of records, which are not followed'
mkdir links && cd links || exit 1
TPMSIM_RECORD=.
ln -s "$room/elsewhere" boot-1.tpm
mkfifo boot-2.tpm
printf 'on\noff\n' | play
find . -name 'boot-*' -printf '%y %P\n' | sort
[ -e "$room/elsewhere" ] || echo 'nothing is made behind the link'
cd .. || exit 1

label 'a file that has no more room: what is not recorded is not answered'
mkdir full && cd full || exit 1
TPMSIM_RECORD=.
{
    echo on
    echo 'cmd 80010000000c000001440000'
    for _ in $(seq 40); do
        echo "cmd $("$assemble" asm "PCR_Extend 00000010 pw:- sha256:$one")"
    done
} >"$room/lines"
(trap '' XFSZ && ulimit -f 8 && "$room/caller" "$room/swtpm/libtpms.so.0" <"$room/lines" 2>&1) |
    sed -n '/^80/p' >"$room/given"
done_count=$(grep -vc '^80010000000a00000101$' "$room/given")
[ "$done_count" -gt 2 ] && [ "$done_count" -lt 41 ] && echo 'some are answered, and some are not'
[ "$(grep -c '^cmd' boot-1.tpm)" -eq "$done_count" ] && echo 'the record has those that are answered'
power_on_of boot-1.tpm >image
"$assemble" run --image image boot-1.tpm >played && head -n "$done_count" "$room/given" | cmp - played &&
    echo 'played by the program they are answered so'
cd .. || exit 1

label 'a disk that keeps part of a command: no other one is executed until that is cut'
mkdir parts && cd parts || exit 1
play <<END
on
do Startup 0
disk breaks
do PCR_Extend 00000010 pw:- sha256:$one
do PCR_Read sha256:16
do PCR_Read sha256:16
save volatile
disk fills
do PCR_Read sha256:16
disk works
do PCR_Read sha256:16
END
power_on_of boot-1.tpm >image
"$assemble" run --image image boot-1.tpm
cd .. || exit 1
