# Tests the module's option `rm`: when a process ends, the module flushes the objects, sequences and sessions that
# the process loaded. The test program is attached/rm.c, linked with the module's sources.
tests=$(cd "$(dirname "$0")/.." && pwd -P)
. "$tests/common/cases.sh"
. "$tests/common/library.sh"
needs tss2/tss2_tcti.h
. "$tests/common/attached.sh"

attach_both rm "$hosts/tcti/tcti.c" "$hosts/tcti/loaded.c"
both rm
