# Forks a child that has the same process ID as its parent, in another namespace. See attached/pids.c. Only
# root, or a user who may be root in a namespace, can make these namespaces.
if [ -z "${own_numbers:-}" ]; then
    for user in '' '--user --map-root-user'; do
        # shellcheck disable=SC2086 # word splitting is intended
        ! unshare $user --pid --fork true 2>/dev/null ||
            own_numbers=yes exec unshare $user sh "$0" "$@"
    done
fi
tests=$(cd "$(dirname "$0")/.." && pwd -P)
. "$tests/common/cases.sh"
. "$tests/common/library.sh"
. "$tests/common/attached.sh"
needs python3
[ -n "${own_numbers:-}" ] || skip 'no namespace of process numbers can be made here'

attach_both pids -Wl,--wrap=madvise -Wl,--wrap=pwrite
extended 1000 >"$room/values"
both pids "$room/values"
