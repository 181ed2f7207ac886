# Tests a device that is kept in a folder while the host's clock runs, stops, goes back and jumps. See
# attached/clock.c.
tests=$(cd "$(dirname "$0")/.." && pwd -P)
. "$tests/common/cases.sh"
. "$tests/common/library.sh"
. "$tests/common/attached.sh"

attach_both clock -Wl,--wrap=clock_gettime
both clock
