# Puts files of another user at each path of a device that is kept in a folder. The device must refuse these
# files, and leave them unchanged. Only root can give files to another user. The calling program is
# attached/ask.c.
tests=$(cd "$(dirname "$0")/.." && pwd -P)
. "$tests/common/cases.sh"
. "$tests/common/library.sh"
. "$tests/common/attached.sh"
[ "$(id -u)" -eq 0 ] || skip 'there is no root here, who gives files to another user'

# shellcheck disable=SC2086 # word splitting is intended
attach ask ask $sanitizers

startup=80010000000c000001440000
get_random=80010000000c0000017b0000
other=65534

# ask LABEL WORDS ACT..: runs attached/ask.c on a device, and prints the result.
ask() {
    label=$1
    shift
    status=0
    timeout 600 "$room/ask" "$@" >"$room/asked" 2>&1 || status=$?
    echo "$label: status $status, $(tail -n 1 "$room/asked")"
}

# listed: prints the contents of the folder, with owners, modes, sizes and digests.
listed() {
    find . -printf '%P %u %m\n' | LC_ALL=C sort
    find . -type f -exec sha256sum {} + | LC_ALL=C sort
}

# refused PATH WORDS ACT..: makes another user the owner of a path, and then tries to use the device. Prints
# whether all files stay unchanged.
refused() {
    path=$1
    shift
    chown "$other" "$path" || exit 1
    listed >"$room/before"
    ask "$path" "$@"
    listed | cmp "$room/before" -
    chown 0 "$path"
}

ask 'a new device' state=state "$startup"
cp state/journal copy
refused state state=state "$get_random"
refused state/journal state=state "$get_random"
refused state/lock state=state "$get_random"
cp copy state/journal.new
refused state/journal.new state=state power
ask 'where all is its own again' state=state "$get_random"
mkdir fresh
: >fresh/lock
cp copy image
refused image state=fresh,image=image "$startup"
