# Kills processes that use a device in a folder, 300 times at random moments. See attached/kills.c.
tests=$(cd "$(dirname "$0")/.." && pwd -P)
. "$tests/common/cases.sh"
. "$tests/common/library.sh"
. "$tests/common/attached.sh"
needs python3

attach kills kills
extended 4500 >"$room/values"
"$room/kills" "$room/values" 300 2>"$room/counts"
echo "status $?"
! grep WRONG "$room/counts" >&2
