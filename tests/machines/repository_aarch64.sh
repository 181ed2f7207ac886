# Runs the two commands of the README as on an ARM64 machine. In a copy of the repository, uname reports an
# ARM64 machine, and programs for ARM64 run in qemu, in a separate namespace. There the launcher verifies the
# program for ARM64 instead of the one for x86-64.
tests=$(cd "$(dirname "$0")/.." && pwd -P)
. "$tests/common/cases.sh"
needs git qemu-aarch64 unshare python3 /usr/aarch64-linux-gnu/lib/libc.so.6
(cd "${tests%/*}" && . tools/lib/proved.sh && ship aarch64 && is_proved sources "$(sources_checksum tpmsim)") ||
    skip 'dist/aarch64 was proved of other sources than these'

. "$tests/../tools/lib/arm64.sh"
note=$(note_of_arm64 "$(command -v qemu-aarch64)" F)
mkdir "$room/machine" "$room/copy"
printf '#!/bin/sh\necho Linux aarch64\n' >"$room/machine/uname"
printf '#!/bin/sh\necho "rt builds nothing here" >&2\nexit 1\n' >"$room/machine/rt"
chmod +x "$room/machine"/*

# on_arm COMMAND..: runs a command in the copy as on an ARM64 machine.
on_arm() {
    (cd "$room/copy" && PATH=$room/machine:$PATH QEMU_LD_PREFIX=/usr/aarch64-linux-gnu \
        with_arm64 "$note" timeout 600 "$@")
}

on_arm true 2>"$room/error" || skip 'there is no namespace that runs programs for ARM64'
(cd "$tests/.." && tar cf - --exclude=out tpmsim tools crates.txt HANDLES crates dist clients/python tests examples) |
    (cd "$room/copy" && tar xf -)

echo '== the first command'
echo 'do Startup 0' >"$room/script"
on_arm ./tpmsim run --trace "$room/script"
on_arm sh -c '. tools/lib/program.sh' | sed "s|$room/||"

echo '== the second one'
on_arm env JOBS=2 tools/scripts.sh nv_locks disk_pin

echo '== a program that is not the proved one'
echo >>"$room/copy/dist/aarch64/tpmsim"
on_arm ./tpmsim --version 2>&1 | head -n 1
mv "$room/machine/uname" "$room/"
(cd "$room/copy" && PATH=$room/machine:$PATH && . tools/lib/program.sh) | sed "s|$room/||"
mv "$room/uname" "$room/machine/"
on_arm ./tpmsim --version 2>&1 | head -n 1
