# Checks that only a device's user may access its files, whatever the umask. See attached/ask.c.
tests=$(cd "$(dirname "$0")/.." && pwd -P)
. "$tests/common/cases.sh"
. "$tests/common/library.sh"
. "$tests/common/attached.sh"

attach ask ask

for mask in 000 022 077 777; do
    (umask "$mask" && "$room/ask" state=state,force=always 80010000000c000001440000 power) \
        >"$room/asked" || echo 'it is not asked'
    echo "umask $mask: $(stat -c '%n %a' state state/journal state/lock | tr '\n' ' ')"
    rm -r state
done
