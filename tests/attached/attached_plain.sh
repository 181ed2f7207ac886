# Tests a device in a folder as a user who is not root. Either the umask denies the user access to the folder,
# or the parent folder is unreadable. See attached/ask.c.
tests=$(cd "$(dirname "$0")/.." && pwd -P)
. "$tests/common/cases.sh"
. "$tests/common/library.sh"
. "$tests/common/attached.sh"
[ "$(id -u)" -ne 0 ] || needs setpriv

attach ask ask

# plain WORDS..: runs a command as an ordinary user, even if the test runs as root.
plain() {
    if [ "$(id -u)" -eq 0 ]; then
        setpriv --reuid=65534 --regid=65534 --clear-groups "$@"
    else
        "$@"
    fi
}

# ask LABEL: makes a device in the folder `above`, and uses it.
ask() {
    plain "$room/ask" state=above/state,force=always 80010000000c000001440000 power >"$room/asked" ||
        cat "$room/asked"
    echo "$1: $(stat -c '%n %a' above/state above/state/journal above/state/lock | tr '\n' ' ')"
}

chmod 711 "$room" . && chmod 755 "$room/ask" && mkdir above || exit 1
[ "$(id -u)" -ne 0 ] || chown 65534 above
for mask in 000 022 077 377 777; do
    (umask "$mask" && ask "umask $mask")
    plain rm -r above/state
done
chmod 300 above
ask 'a folder above that may not be read'
plain "$room/ask" state=above/state 80010000000c0000017b0000
chmod 700 above
