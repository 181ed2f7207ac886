# Makes new Debian systems for the scripts of tools/soak, which source this file. These scripts set `work` to a
# temporary folder, `machine` to the folder of the machine, and `mirror` to a Debian mirror. They also define
# `fail REASON`.
# shellcheck shell=sh disable=SC2154 # those scripts set the variables

# needs_for_machines: ends the script if this user cannot make a machine, or if a tool is missing.
needs_for_machines() {
    [ "$(id -u)" -eq 0 ] || fail 'only root can make a machine'
    for tool in debootstrap unshare chroot; do
        command -v "$tool" >/dev/null || fail "there is no $tool"
    done
}

# make_base: makes the machine $work/base. All other machines are copies of it.
make_base() {
    mkdir "$work/cache" || fail 'there is no folder for packages'
    debootstrap --cache-dir="$work/cache" --variant=minbase bookworm "$work/base" "$mirror" \
        >"$work/told" 2>&1 || { tail -n 5 "$work/told"; fail 'no Debian is made'; }
    machine=$work/base
    apt update
}

# in_machine SHM WORDS..: runs a command in the machine, as root, with a /dev/shm of size SHM, or without one if
# SHM is `none`. The machine's mounts end with the command.
in_machine() {
    # shellcheck disable=SC2016 # the inner shell expands the variables
    unshare --mount --propagation private --pid --fork --kill-child sh -c '
        machine=$1 shm=$2
        shift 2
        mount --bind "$machine" "$machine" && mount -t proc proc "$machine/proc" &&
            mount --bind "$machine/../cache" "$machine/var/cache/apt/archives" || exit 125
        if [ "$shm" = none ]; then
            rm -rf "$machine/dev/shm"
        else
            mkdir -p "$machine/dev/shm" &&
                mount -t tmpfs -o "mode=1777,size=$shm" shm "$machine/dev/shm" || exit 125
        fi
        exec chroot "$machine" env -i HOME=/root DEBIAN_FRONTEND=noninteractive \
            PATH=/usr/local/sbin:/usr/local/bin:/usr/sbin:/usr/bin:/sbin:/bin "$@"
    ' sh "$machine" "$@" </dev/null
}

# apt WORDS..: runs apt-get in the machine.
apt() {
    in_machine none apt-get -y --no-install-recommends "$@" >"$work/told" 2>&1 ||
        { tail -n 5 "$work/told"; fail "apt-get $1 fails"; }
}
