# Tests the glue: nine functions in C that proved code calls. Rattle's kit contains a compiled version for
# x86-64, and tools/glue/ contains a version for other machines. For the same calls, both versions must produce the
# same output on this machine. glue_aarch64.sh tests the version in tools/glue/ on ARM64.
tests=$(cd "$(dirname "$0")/.." && pwd -P)
. "$tests/common/cases.sh"
needs cc
rattle=$(readlink -f "$(command -v rattle)") || skip "there is no rattle, whose glue ours is compared with"
kit=${rattle%/bin/*}
glue=${tests%/*}/tools/glue
flags='-std=c11 -O2 -Wall -Wextra -Werror -Wconversion'

# play NAME SOURCES..: compiles glue_calls.c with one version of the glue, runs it, and stores its output. The
# program's own name is the same for each version.
play() {
    name=$1
    shift
    # shellcheck disable=SC2086 # word splitting is intended
    mkdir "$name" && cc $flags -I"$glue" -o "$name/calls" "$tests/glue/glue_calls.c" "$@" &&
        (cd "$name" && ./calls '' four eightish) >"$name.said" || echo "$name: status $?"
}

play kit "$kit/c/liblibc_c.a" "$kit/c/libos_c.a"
play ours "$glue"/*.c
cat kit.said
cmp kit.said ours.said && echo 'ours does the same'
