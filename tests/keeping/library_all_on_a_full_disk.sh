# Runs hosts of each kind on one device at the same time, like library_all_at_once.sh, but on a disk that is
# sometimes full. The disk is mounted only for this test, by root or by a user who may be root in a namespace.
if [ -z "${own_mounts:-}" ]; then
    for user in '' '--user --map-root-user'; do
        # shellcheck disable=SC2086 # word splitting is intended
        ! unshare $user --mount true 2>/dev/null ||
            own_mounts=yes exec unshare $user --mount sh "$0" "$@"
    done
fi
tests=$(cd "$(dirname "$0")/.." && pwd -P)
. "$tests/common/cases.sh"
. "$tests/common/library.sh"

mkdir disk || exit 1
if [ -z "${own_mounts:-}" ] || ! mount -t tmpfs -o size=1m none disk 2>"$room/error"; then
    skip 'no disk can be mounted for this test alone'
fi
. "$tests/common/keeping_hosts.sh"
cd disk || exit 1
against failing all_at_once 5 6 1 fills 2>"$room/said" || cat "$room/said"
cd ..
umount disk
