# Makes and uses a device without /proc, with any umask. See attached/ask.c. An empty file system hides /proc, only
# for this test. To mount it, the test must run as root or as a user who may be root in a namespace.
if [ -z "${own_mounts:-}" ]; then
    for user in '' '--user --map-root-user'; do
        # shellcheck disable=SC2086 # word splitting is intended
        ! unshare $user --mount true 2>/dev/null ||
            own_mounts=yes exec unshare $user --mount sh "$0" "$@"
    done
fi
tests=$(cd "$(dirname "$0")/.." && pwd -P)
. "$tests/common/cases.sh"
. "$tests/common/library.sh"
. "$tests/common/attached.sh"

attach ask ask
if [ -z "${own_mounts:-}" ] || ! mount -t tmpfs none /proc 2>"$room/error"; then
    skip '/proc cannot be covered for this test alone'
fi
[ ! -e /proc/self ] || exit 1

for mask in 000 022 377 777; do
    (umask "$mask" && "$room/ask" state=state,force=always 80010000000c000001440000 power) \
        >"$room/asked" || cat "$room/asked"
    echo "umask $mask: $(stat -c '%n %a' state state/journal state/lock | tr '\n' ' ')"
    rm -r state
done
umount /proc
