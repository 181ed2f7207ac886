# Tests a device on a file system without hard links. By default a finished journal then is not kept; with --keep 1,
# a power cycle fails. With hard links, one finished journal is kept by default.
tests=$(cd "$(dirname "$0")/.." && pwd -P)
. "$tests/common/cases.sh"
. "$tests/common/library.sh"
needs tss2/tss2_tcti.h
. "$tests/common/attached.sh"

TPMSIM_ARCHIVE=$archive "$hosts/build.sh" tcti "$room/made" || exit 1
attach ask ask
cat >no_links.c <<'END'
#include <errno.h>
#include <stdlib.h>

int linkat(int from, const char *name, int to, const char *other, int flags);

int linkat(int from, const char *name, int to, const char *other, int flags) {
    (void)from, (void)name, (void)to, (void)other, (void)flags;
    errno = atoi(getenv("LINK_ERROR"));
    return -1;
}
END
cc -std=c11 -Wall -Wextra -Werror -shared -fPIC -o no_links.so no_links.c || exit 1

# power LABEL ERROR WORDS..: makes a device, cycles its power where links fail with this error, unless it is empty, and
# prints what is in the folder.
power() {
    label=$1 error=$2 linked=$PWD/no_links.so status=0
    [ -n "$error" ] || linked=
    shift 2
    "$room/ask" state=kept 80010000000c000001440000 >asked
    LINK_ERROR=$error LD_PRELOAD=$linked "$room/made/tpmsim-power" kept "$@" 2>&1 || status=$?
    echo "$label: status $status, $(cd kept && echo journal*)"
    rm -r kept
}

power 'with links' ''
power 'with links, --keep 0' '' --keep 0
for error in 1 95 38 31; do
    power "error $error" "$error"
done
power 'another error' 5
power 'without links, --keep 1' 95 --keep 1
