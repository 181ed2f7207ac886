# Checks which file names a process syncs to the disk before it answers a command, after other processes were
# killed before they synced these names. See attached/names.c.
tests=$(cd "$(dirname "$0")/.." && pwd -P)
. "$tests/common/cases.sh"
. "$tests/common/library.sh"
. "$tests/common/attached.sh"

attach_both names -Wl,--wrap=mkdir -Wl,--wrap=renameat -Wl,--wrap=fsync -Wl,--wrap=syncfs
both names
