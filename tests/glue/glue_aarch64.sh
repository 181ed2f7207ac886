# Tests the glue of tools/glue/ on ARM64, in qemu. It must print the lines of glue.out, which the glue of Rattle's kit
# prints on x86-64.
tests=$(cd "$(dirname "$0")/.." && pwd -P)
. "$tests/common/cases.sh"
needs aarch64-linux-gnu-gcc /usr/aarch64-linux-gnu/include/stdlib.h
needs qemu-aarch64 /usr/aarch64-linux-gnu/lib/libc.so.6
glue=${tests%/*}/tools/glue

aarch64-linux-gnu-gcc -std=c11 -O2 -Wall -Wextra -Werror -Wconversion -I"$glue" -o calls \
    "$tests/glue/glue_calls.c" "$glue"/*.c || exit 1
qemu-aarch64 -L /usr/aarch64-linux-gnu ./calls '' four eightish >said
grep -vx 'ours does the same' "$tests/glue/glue.out" | cmp - said && echo 'the same on ARM64'
