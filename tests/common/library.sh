# Functions for the tests of the library, which read this file after cases.sh. Each test gets the path of the
# archive as its argument. The shared object and the header are next to the archive.
# shellcheck shell=sh disable=SC2034,SC2154 # cases.sh has `program` and `room`
dist=$(dirname "$(readlink -f "$program")")
archive=$dist/libtpmsim.a
shared=$dist/libtpmsim.so.0
sources=$tests/library
sanitizers='-g -fsanitize=address,undefined -fno-sanitize-recover=all'

# compile CALLER SOURCE WORDS..: compiles a test program in C. Warnings are errors.
compile() {
    caller=$room/$1
    source=$sources/$2.c
    shift 2
    cc -std=c11 -O0 -Wall -Wextra -Werror -I"$dist" -pthread -o "$caller" "$source" "$@" || exit 1
}
