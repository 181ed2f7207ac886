#!/bin/sh
# Tests the files for ARM64 in qemu more thoroughly than the gate. It plays each script of tests/ with the
# program and with both files of the library, whose functions may use no more stack than tpmsim.h documents. It
# also runs tests of hosts/ with test programs that are compiled for ARM64. One of these tests kills 300
# processes that use a device. It takes some ten minutes. Needs Debian's qemu-user and gcc-aarch64-linux-gnu,
# and what tools/lib/arm64.sh needs.
#
# The other tests of hosts/ need features that qemu 7.2 lacks: sanitizers, adopting orphaned processes, and
# memory that is wiped in a forked child, with which the module detects a fork.
#
#   tools/soak/aarch64.sh           all tests
#   tools/soak/aarch64.sh NAME..    only these: scripts, library, or tests of hosts/ by name
set -u
top=$(CDPATH='' cd "$(dirname "$0")/../.." && pwd -P) || exit 1
cd "$top" || exit 1
. tools/lib/arm64.sh
work=$(mktemp -d) || exit 1
trap 'rm -rf "$work"' EXIT
failed=0

for tool in qemu-aarch64 aarch64-linux-gnu-gcc unshare; do
    command -v "$tool" >"$work/found" || { echo "$0: there is no $tool" >&2 && exit 2; }
done
note=$(note_of_arm64 "$(command -v qemu-aarch64)" F)

# The tools for ARM64 come before those of this machine on the path.
mkdir "$work/tools"
for tool in nm ar strip objdump; do
    ln -s "$(command -v "aarch64-linux-gnu-$tool")" "$work/tools/$tool"
done
ln -s "$(command -v aarch64-linux-gnu-gcc)" "$work/tools/cc"

# compare NAME TEST COMMAND..: checks whether a command prints the expected output, which is in the file next
# to the test.
compare() {
    name=$1
    test=$2
    shift 2
    "$@" >"$work/output" 2>"$work/error"
    if cmp -s "$work/output" "${test%.sh}.out"; then
        echo "ok: $name"
        return
    fi
    echo "FAILED: $name"
    diff "${test%.sh}.out" "$work/output"
    cat "$work/error"
    failed=$((failed + 1))
}

# Tests the library without sanitizers. The output lacks the lines of the programs with sanitizers.
cat >"$work/library.sh" <<END
tests=$top/tests
. "\$tests/common/cases.sh"
. "\$tests/common/library.sh"
needs cc python3
compile static play "\$archive"
compile shared play "\$shared" -Wl,-rpath,"\$dist"
compile stack stack "\$archive"
python3 "\$sources/scripts.py" "\$room/stack" "\$room/static" "\$room/shared"
END
grep -v '^sanitized:' tests/library/library_scripts.out >"$work/library.out"

[ "$#" -gt 0 ] || set -- scripts library kills document full_disk modes no_proc script state
for name do
    case $name in
    scripts)
        test=tests/machines/aarch64.sh
        compare scripts "$test" env EVERY=1 sh "$test" dist/tpmsim
        continue
        ;;
    library) test=$work/library.sh ;;
    *) test=tests/attached/attached_$name.sh ;;
    esac
    compare "$name" "$test" with_arm64 "$note" env PATH="$work/tools:$PATH" \
        QEMU_LD_PREFIX=/usr/aarch64-linux-gnu timeout 600 sh "$test" dist/aarch64/libtpmsim.a
done
[ "$failed" -eq 0 ]
