# Checks the random bytes of a device that is kept in a folder. See attached/random.c.
tests=$(cd "$(dirname "$0")/.." && pwd -P)
. "$tests/common/cases.sh"
. "$tests/common/library.sh"
. "$tests/common/attached.sh"

attach_both random -Wl,--wrap=getrandom
both random
