# Checks which names the library's shipped files define, and which names they need. The header must compile
# without any other header, in C and in C++.
tests=$(cd "$(dirname "$0")/.." && pwd -P)
. "$tests/common/cases.sh"
. "$tests/common/library.sh"
needs cc g++ nm objdump

# names WORDS..: runs nm with these arguments, and prints the listed names, sorted.
names() {
    nm --format=posix "$@" | awk 'NF > 1 { sub(/@.*/, "", $1); print $1 }' | LC_ALL=C sort -u
}

echo 'the archive defines:'
names --extern-only --defined-only "$archive"
echo 'the shared object defines:'
names --dynamic --defined-only "$shared"
echo 'the shared object needs:'
names --dynamic --undefined-only "$shared"
objdump -p "$shared" | sed -n 's/^ *\(NEEDED\|SONAME\) */\1 /p'
objdump -h "$shared" | awk '/ \.(data|bss) / { print $2, $3 }'

printf '#include "tpmsim.h"\n#include "tpmsim.h"\n' >header.c
cc -std=c11 -Wall -Wextra -Wpedantic -Werror -I"$dist" -c header.c && echo 'the header is C'
g++ -x c++ -std=c++11 -Wall -Wextra -Wpedantic -Werror -I"$dist" -c header.c &&
    echo 'the header is C++'
cmp "$tests/../clients/c/tpmsim.h" "$dist/tpmsim.h" && echo 'the header is that of the sources'
cmp "$tests/../clients/c/tpmsim.pc" "$dist/tpmsim.pc" && cat "$dist/tpmsim.pc"
cat >version.c <<'PROGRAM'
#include "tpmsim.h"
#include <stdio.h>
int main(void) {
    uint32_t version = tpmsim_version();
    printf("Version: %u.%u.%u\n", version >> 16, version >> 8 & 255, version & 255);
}
PROGRAM
cc -I"$dist" -o tell_version version.c "$archive" && ./tell_version >version
grep -qxFf version "$dist/tpmsim.pc" && echo 'the version is that of tpmsim.pc'
