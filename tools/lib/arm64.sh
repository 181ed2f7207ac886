# Runs programs for ARM64 on another kind of machine. The kernel runs them with qemu, in separate namespaces, so
# that other programs are not affected. Needs unshare, and Linux 6.7 or newer with user namespaces. Other
# scripts source this file.
# shellcheck shell=sh

# note_of_arm64 QEMU FLAGS: prints the kernel's entry that names QEMU as the interpreter of programs for
# ARM64.
note_of_arm64() {
    magic='\x7fELF\x02\x01\x01\x00\x00\x00\x00\x00\x00\x00\x00\x00\x02\x00\xb7\x00'
    mask='\xff\xff\xff\xff\xff\xff\xff\x00\xff\xff\xff\xff\xff\xff\xff\xff\xfe\xff\xff\xff'
    printf '%s\n' ":tpmsim-arm64:M::$magic:$mask:$1:$2"
}

# with_arm64 NOTE COMMAND..: runs a command in namespaces in which the kernel has the entry NOTE.
with_arm64() {
    # shellcheck disable=SC2016 # the inner shell expands the variables
    unshare --map-root-user --mount sh -c '
        note=$1
        shift
        mount -t binfmt_misc none /proc/sys/fs/binfmt_misc &&
            printf %s "$note" >/proc/sys/fs/binfmt_misc/register && exec "$@"
    ' sh "$@"
}
