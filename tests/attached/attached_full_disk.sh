# Uses a device that is kept in a folder on a full disk. Its journal stays unchanged. When there is space again,
# the device continues from that state. The calling program is attached/ask.c. The disk is mounted only for this
# test, by root or by a user who may be root in a namespace.
if [ -z "${own_mounts:-}" ]; then
    for user in '' '--user --map-root-user'; do
        # shellcheck disable=SC2086 # word splitting is intended
        ! unshare $user --mount true 2>/dev/null ||
            own_mounts=yes exec unshare $user --mount sh "$0" "$@"
    done
fi
tests=$(cd "$(dirname "$0")/.." && pwd -P)
. "$tests/common/cases.sh"
. "$tests/common/library.sh"
. "$tests/common/attached.sh"

mkdir disk || exit 1
if [ -z "${own_mounts:-}" ] || ! mount -t tmpfs -o size=64k none disk 2>"$room/error"; then
    skip 'no disk can be mounted for this test alone'
fi
attach ask ask

startup=80010000000c000001440000
get_random=80010000000c0000017b0000
# TPM2_PCR_Event of PCR 16 with 1,024 bytes. Its record in the journal has more than 2,048 bytes.
event=80020000041d0000013c00000010000000094000000900000000000400$(printf '%02048d' 0)

# ask LABEL ACT..: uses the device on the disk.
ask() {
    label=$1
    shift
    status=0
    "$room/ask" state=disk/state,force=always "$@" >"$room/asked" 2>&1 || status=$?
    echo "$label: status $status, $(tail -n 1 "$room/asked" | cut -c 1-80)"
}

ask 'a new device' "$startup"
head -c 1000000 /dev/zero >disk/full 2>/dev/null
ask 'four events' "$event" "$event" "$event" "$event"
cp disk/state/journal before
ask 'one more' "$event"
cmp before disk/state/journal && echo 'the journal is as it was'
ask 'a power cycle' power
cmp before disk/state/journal && echo 'the journal is as it was'
rm disk/full
ask 'with room again' "$event" "$get_random"
ask 'a power cycle' power
ask 'behind it' "$get_random"
ls disk/state
umount disk
