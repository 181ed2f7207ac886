# Tests a device in a folder whose user may enter and write the parent folder, but not read it. Therefore the
# program cannot sync the name of the device's folder. It reports this once. If it has just made the device's
# folder, this is a fault.
tests=$(cd "$(dirname "$0")/.." && pwd -P)
. "$tests/common/cases.sh"
[ "$(id -u)" -ne 0 ] || needs setpriv

# plain LABEL WORDS..: runs the program as an ordinary user, even if the test runs as root, and prints the
# result.
plain() {
    label=$1
    shift
    if [ "$(id -u)" -eq 0 ]; then
        set -- setpriv --reuid=65534 --regid=65534 --clear-groups "$room/plain" "$@"
    else
        set -- "$room/plain" "$@"
    fi
    status=0
    "$@" <script >"$room/output" 2>"$room/error" || status=$?
    echo "$label: status $status, $(wc -l <"$room/output") lines, error \"$(cat "$room/error")\""
}

printf 'do GetRandom 4\npower\ndo Startup 0\n' >script
cp "$program" "$room/plain" && chmod 755 "$room/plain"
chmod 711 "$room" . && mkdir above || exit 1
[ "$(id -u)" -ne 0 ] || chown 65534 above
plain 'a device' run --state above/state -
chmod 300 above
plain 'a folder above that may not be read' run --state above/state -
plain 'a power cycle' power above/state
plain 'a new folder' run --state above/new -
chmod 700 above
plain 'read again' run --state above/state -
