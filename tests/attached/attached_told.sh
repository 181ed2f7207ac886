# Checks the host's message about a damaged journal, for each fault number that the library can return. See
# attached/told.c.
tests=$(cd "$(dirname "$0")/.." && pwd -P)
. "$tests/common/cases.sh"
. "$tests/common/library.sh"
. "$tests/common/attached.sh"
needs python3

attach_both told -Wl,--wrap=tpmsim_journal_open
extended 32 >"$room/values"
both told "$room/values"
