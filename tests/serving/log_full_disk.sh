# Tests the log of a served device on a disk that becomes full. A command whose entry does not fit on the disk
# is not answered: the program reports this, and ends. The log and the image contain all answered commands, as
# common/logged.py checks. The disk is mounted only for this test, by root or by a user who may be root in a
# namespace.
if [ -z "${own_mounts:-}" ]; then
    for user in '' '--user --map-root-user'; do
        # shellcheck disable=SC2086 # word splitting is intended
        ! unshare $user --mount true 2>/dev/null ||
            own_mounts=yes exec unshare $user --mount sh "$0" "$@"
    done
fi
tests=$(cd "$(dirname "$0")/.." && pwd -P)
. "$tests/common/cases.sh"
. "$tests/common/served.sh"

mkdir disk || exit 1
if [ -z "${own_mounts:-}" ] || ! mount -t tmpfs -o size=16k none disk 2>"$room/error"; then
    skip 'no disk can be mounted for this test alone'
fi
python3 "$tests/common/logged.py" "$program" --full disk
ls -A disk
umount disk
