# Functions for the tests of a device that is kept in a folder. Each test gets the path of the archive as its
# argument, and reads this file after cases.sh and library.sh.
# shellcheck shell=sh disable=SC2154 # library.sh has `archive` and `sanitizers`
hosts=$tests/../hosts
callers=$tests/attached
needs cc nm
nm --defined-only "$archive" 2>/dev/null | grep -q ' tpmsim_fault_text$' ||
    skip 'the archive has no keeper of a device'

# in_c WORDS..: compiles C with these options and files. Warnings are errors.
in_c() {
    cc -std=c11 -O1 -Wall -Wextra -Werror -Wconversion -I"$dist" -I"$hosts/kept" "$@" || exit 1
}

# parts WORDS..: prints the folder with the compiled parts of the host in C, and compiles them first if
# necessary. Passes the arguments that begin with -f or -g to the compiler. If tools/scripts.sh sets
# TPMSIM_BUILT to a folder, the parts are compiled once for all its tests.
parts() {
    how=$(printf '%s\n' "$@" | grep '^-[fg]')
    built=${TPMSIM_BUILT:-$room/built}/attached-$(echo "$how" | cksum | tr ' ' -)
    if [ ! -d "$built" ]; then
        mkdir -p "$room/parts" "${built%/*}" || exit 1
        for part in "$hosts"/kept/*.c; do
            # shellcheck disable=SC2086 # word splitting is intended
            in_c $how -c -o "$room/parts/$(basename "$part" .c).o" "$part"
        done
        # Another test may have compiled the parts first.
        mv -T "$room/parts" "$built" 2>"$room/moved" || rm -r "$room/parts"
    fi
    echo "$built"
}

# attach CALLER SOURCE WORDS..: compiles a test program in C, or a source of hosts/tcti, and links it with the
# compiled parts of the host in C.
attach() {
    caller=$room/$1
    source=$callers/$2.c
    [ -f "$source" ] || source=$hosts/tcti/$2.c
    shift 2
    built=$(parts "$@") || exit 1
    in_c -O0 -o "$caller" "$source" "$built"/*.o "$@" "$archive"
}

# attach_both SOURCE WORDS..: compiles a test program twice. SOURCE is compiled without sanitizers, and
# sanitized_SOURCE with them.
attach_both() {
    attach "$1" "$@"
    # shellcheck disable=SC2086 # word splitting is intended
    attach "sanitized_$1" "$@" $sanitizers
}

# both NAME WORDS..: runs both programs of attach_both, each in its own folder. Prints the output of the first
# program, and whether the output of the second one is the same.
both() {
    name=$1
    shift
    for way in "$name" "sanitized_$name"; do
        mkdir "$room/$way.folder" || exit 1
        (cd "$room/$way.folder" && timeout 3600 "$room/$way" "$@") >"$room/$way.out" 2>&1
        echo "status $?" >>"$room/$way.out"
    done
    cat "$room/$name.out"
    if cmp -s "$room/$name.out" "$room/sanitized_$name.out"; then
        echo 'the same beside sanitizers'
    else
        diff "$room/$name.out" "$room/sanitized_$name.out"
    fi
}

# extended COUNT: prints the values of a SHA-256 PCR after 0, 1, .. COUNT extends. Each extend has the same digest,
# 32 bytes with the value 5a.
extended() {
    python3 -c '
import hashlib, sys
value = bytes(32)
for count in range(int(sys.argv[1]) + 1):
    sys.stdout.buffer.write(value)
    value = hashlib.sha256(value + b"\x5a" * 32).digest()
' "$1"
}

# Linker options that replace these functions with those of tests/attached/calls.h.
# shellcheck disable=SC2034 # tests use them
wrapped_calls=$(printf -- '-Wl,--wrap=%s ' mkdir fchmod fchmodat fstat fstatat flock ftruncate fsync \
    fdatasync unlinkat renameat clock_gettime mmap munmap madvise pread pwrite getrandom malloc calloc \
    strndup open openat geteuid)
