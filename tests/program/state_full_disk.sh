# Tests a device in a folder on a full disk. Its journal stays unchanged, and a command whose entry does not fit
# is not answered. When there is space again, the device continues. The disk is mounted only for this test, by
# root or by a user who may be root in a namespace.
if [ -z "${own_mounts:-}" ]; then
    for user in '' '--user --map-root-user'; do
        # shellcheck disable=SC2086 # word splitting is intended
        ! unshare $user --mount true 2>/dev/null ||
            own_mounts=yes exec unshare $user --mount sh "$0" "$@"
    done
fi
tests=$(cd "$(dirname "$0")/.." && pwd -P)
. "$tests/common/cases.sh"

mkdir disk || exit 1
if [ -z "${own_mounts:-}" ] || ! mount -t tmpfs -o size=64k none disk 2>"$room/error"; then
    skip 'no disk can be mounted for this test alone'
fi

# TPM2_PCR_Event of PCR 16 with 1,024 bytes. Its entry has more than 2,048 bytes.
event="cmd 80020000041d0000013c00000010000000094000000900000000000400$(printf '%02048d' 0)"
echo 'do Startup 0' >start
printf '%s\n' "$event" "$event" "$event" "$event" >events
printf 'do GetRandom 4\n' >after

run 'a new device' run --state disk/state start
head -c 1000000 /dev/zero >disk/full 2>"$room/error"
cp disk/state/journal before
timeout 600 "$program" run --state disk/state events >"$room/answers" 2>"$room/error"
echo "four events: status $?, $(told "$room/error")"
timeout 600 "$program" run --state disk/state events >>"$room/answers" 2>"$room/error"
echo "four events: status $?, $(told "$room/error")"
[ "$(grep -c . "$room/answers")" = "$(($(grep -c '^cmd' disk/state/journal) - 1))" ] &&
    echo 'as many are in the journal as were answered'
cp disk/state/journal before
run 'a power cycle' power disk/state
cmp before disk/state/journal && echo 'the journal is as it was'
run 'a new device' run --state disk/another start
rm disk/full
run 'with room again' run --state disk/state after
run 'a power cycle' power disk/state
run 'behind it' run --state disk/state start
ls disk/state
umount disk
