# Uses a device that is kept in a folder, through the public header tpmsim_kept.h. The calling program is
# attached/exported.c.
tests=$(cd "$(dirname "$0")/.." && pwd -P)
. "$tests/common/cases.sh"
. "$tests/common/library.sh"
. "$tests/common/attached.sh"

attach_both exported
both exported
