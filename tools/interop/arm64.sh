#!/bin/sh
# Runs a command as on an ARM64 machine with Debian: in a root file system made of Debian's packages for arm64,
# in which the package from tools/deb.sh is installed. qemu runs the programs for ARM64. The script changes
# nothing on this machine: apt works in its own folder, nothing is installed, and the root file system and the
# kernel's entry for qemu are visible only in their own namespaces. Not part of the gate.
#
#   tools/interop/arm64.sh FOLDER              tests the package there (arm64_package.sh)
#   tools/interop/arm64.sh FOLDER COMMAND..    runs a command there, in a clone of the last commit, for example
#                                              tools/scripts.sh 'nv/*'
#
# The root file system stays in FOLDER for the next run: 700 MB, of which 180 MB are downloaded. Needs what
# tools/lib/arm64.sh needs, Debian's apt, git, and what tools/deb.sh needs for ARM64.
set -u
umask 022
[ "$#" -gt 0 ] || { echo "usage: $0 FOLDER [COMMAND..]" >&2; exit 2; }
mkdir -p "$1" || exit 1
folder=$(realpath "$1")
shift
cd "$(dirname "$0")/../.." && top=$(pwd -P) || exit 1
. tools/lib/arm64.sh
root=$folder/root
log=$folder/log
: >"$log" || exit 1

# The packages that a machine needs for the repository's commands.
packages='base-files base-passwd bash binutils coreutils dash debianutils diffutils findutils g++ gcc git
    grep gzip hostname libc-bin libc6-dev libtpms-dev libtss2-dev make mawk ncurses-base pkg-config
    procps python3 sed socat swtpm tar tpm2-tools util-linux'

# fail REASON: ends the script with a message, and prints the end of the log.
fail() {
    tail -n 20 "$log" >&2
    echo "$0: $1" >&2
    exit 1
}

# foreign WORDS..: runs apt-get for ARM64, independently of the packages that are installed on this machine.
foreign() {
    apt-get -q -y -o APT::Architecture=arm64 -o APT::Architectures::=arm64 -o APT::Sandbox::User= \
        -o Dir::State="$folder/state" -o Dir::State::status="$folder/status" \
        -o Dir::Cache="$folder/cache" "$@" >>"$log" 2>&1
}

# Downloads the packages, and qemu as a single, statically linked file.
fetch() {
    mkdir -p "$folder/state/lists/partial" "$folder/cache/archives/partial" && : >"$folder/status" &&
        foreign update || return 1
    # shellcheck disable=SC2086 # word splitting is intended
    foreign --no-install-recommends --download-only install $packages &&
        (cd "$folder" && apt-get -q download qemu-user-static) >>"$log" 2>&1
}

# Unpacks the packages. Then performs those parts of their installation scripts that are needed here.
unpack() {
    mkdir -p "$root.new" "$folder/qemu" &&
        dpkg-deb -x "$folder"/qemu-user-static_*.deb "$folder/qemu" || return 1
    for package in "$folder"/cache/archives/*.deb; do
        dpkg-deb -x "$package" "$root.new" || return 1
    done
    for names in 'awk mawk' 'cc gcc' 'c++ g++'; do
        ln -sf "${names#* }" "$root.new/usr/bin/${names% *}" || return 1
    done
    echo 'root:x:0:0:root:/root:/bin/sh' >"$root.new/etc/passwd" &&
        echo 'root:x:0:' >"$root.new/etc/group" && mv "$root.new" "$root"
}

# Copies tpmsim's package and a clone of the last commit into the root file system. Both replace those of the
# previous run.
bring() {
    rm -rf "$folder/made" "$root/repository"
    tools/deb.sh --machine aarch64 "$folder/made" >>"$log" 2>&1 &&
        for it in "$folder"/made/*_arm64.deb; do dpkg-deb -x "$it" "$root" || return 1; done &&
        git clone -q "$top" "$root/repository" >>"$log" 2>&1
}

if [ ! -d "$root" ]; then
    fetch || fail 'the packages are not fetched'
    unpack || fail 'the packages are not unpacked'
fi
bring || fail 'the package is not there'
[ "$#" -gt 0 ] || set -- tools/interop/arm64_package.sh

# shellcheck disable=SC2016 # the inner shells expand the variables
with_arm64 "$(note_of_arm64 "$folder/qemu/usr/bin/qemu-aarch64-static" FO)" sh -c '
    root=$1
    shift
    mount --rbind /dev "$root/dev" && mount --rbind /proc "$root/proc" &&
        exec chroot "$root" env -i HOME=/root LC_ALL=C PATH=/usr/bin:/bin:/usr/sbin:/sbin \
            sh -c "ldconfig && cd /repository && exec \"\$@\"" sh "$@"
' sh "$root" "$@"
