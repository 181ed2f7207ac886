#!/bin/sh
# Uses libvirt to start, save, restore and stop a guest, and to revert it to a snapshot. One guest has a TPM of
# type `emulator`, with the swtpm and swtpm_setup of `hosts/build.sh libtpms`, which come first on the daemon's
# path. Another guest has a TPM of type `external`, whose swtpm is already running. The daemon runs as the
# current user, or as the user nobody if the current user is root. Not part of the gate. It installs nothing,
# and leaves no files.
#
#   tools/interop/libvirt.sh
#
# Needs Debian's libvirt-daemon, libvirt-daemon-driver-qemu, libvirt-clients, qemu-system-x86, qemu-utils,
# swtpm, libtpms-dev and util-linux. $ATTACHED is the folder of `hosts/build.sh libtpms`; if it is not set, the
# script makes one.
set -u

top=$(CDPATH='' cd "$(dirname "$0")/../.." && pwd -P) || exit 1
for needed in libvirtd virsh qemu-system-x86_64 qemu-img swtpm setpriv; do
    PATH=$PATH:/usr/sbin command -v "$needed" >/dev/null || {
        echo "$0: $needed is not there; the head of this file says what is needed" >&2
        exit 2
    }
done
folder=$(mktemp -d) || exit 1
passed=0
failed=0
tpm=

# as_user WORDS..: runs a command as the user of the session, with this repository's swtpm first on the path.
as_user() {
    set -- env HOME="$folder/home" XDG_RUNTIME_DIR="$folder/home/run" \
        PATH="$folder/attached:$PATH:/usr/sbin" TPMSIM_RECORD="$folder/home/record" "$@"
    [ "$(id -u)" -ne 0 ] || set -- setpriv --reuid 65534 --regid 65534 --clear-groups "$@"
    "$@"
}

virsh() {
    as_user virsh -q -c qemu:///session "$@" >>"$folder/virsh" 2>&1
}

# shellcheck disable=SC2317,SC2329 # the trap calls it
end() {
    virsh destroy emulator
    virsh destroy external
    [ -z "$tpm" ] || kill "$tpm" 2>/dev/null
    [ ! -f "$folder/home/libvirtd" ] || kill "$(cat "$folder/home/libvirtd")"
    sleep 1
    rm -rf "$folder"
}
trap end EXIT
trap 'exit 1' HUP INT PIPE TERM

# check LABEL COMMAND..: runs and counts a command that must succeed.
check() {
    label=$1
    shift
    if "$@"; then
        echo "ok: $label"
        passed=$((passed + 1))
    else
        echo "FAILED: $label: $(tail -n 2 "$folder/virsh" | tr '\n' ' ')"
        failed=$((failed + 1))
    fi
}

# guest NAME BACKEND [DEVICE]: writes the description of a guest whose TPM has this backend. DEVICE describes an
# additional device.
guest() {
    cat >"$folder/home/$1.xml" <<END
<domain type='qemu'><name>$1</name><memory unit='MiB'>64</memory><vcpu>1</vcpu>
<os><type arch='x86_64' machine='q35'>hvm</type></os><features><acpi/></features>
<devices><emulator>/usr/bin/qemu-system-x86_64</emulator>
<tpm model='tpm-crb'>$2</tpm>${3:-}</devices></domain>
END
    virsh define "$folder/home/$1.xml"
}

# is_ours NAME: succeeds if the swtpm that libvirt started for this guest uses this repository's device.
is_ours() {
    for process in $(pgrep -x swtpm); do
        tr '\0' ' ' <"/proc/$process/cmdline" | grep -q "$folder/home" || continue
        ! grep -q "$folder/attached/libtpms.so.0" "/proc/$process/maps" || return 0
    done
    return 1
}

is_stored() {
    find "$folder/home" -name tpm2-00.permall | grep -q .
}

# Succeeds if the firmware's last command before it boots, TPM2_HierarchyChangeAuth, was executed.
is_used() {
    grep -q '^cmd 8002.\{8\}00000129' "$folder/home/record"/boot-*.tpm
}

is_in_state() {
    [ "$(as_user virsh -q -c qemu:///session domstate "$1" 2>&1 | head -n 1)" = "$2" ]
}

mkdir -p "$folder/home/run" "$folder/home/record"
chmod 755 "$folder"
"$top/hosts/build.sh" libtpms "$folder/attached" || exit 1
[ "$(id -u)" -ne 0 ] || chown -R 65534:65534 "$folder/home"
chmod 700 "$folder/home/run"
as_user libvirtd -d -t 600 -p "$folder/home/libvirtd" >"$folder/virsh" 2>&1 || exit 1
as_user qemu-img create -q -f qcow2 "$folder/home/disk.qcow2" 64M || exit 1
disk="<disk type='file'><driver name='qemu' type='qcow2'/><source file='$folder/home/disk.qcow2'/>"
check 'a guest is defined' guest emulator "<backend type='emulator' version='2.0'/>" \
    "$disk<target dev='vda' bus='virtio'/></disk>"
check 'it starts' virsh start emulator
check 'its swtpm has the device in it' is_ours emulator
sleep 20
check 'its device is kept' is_stored
check 'the firmware has used it to the end' is_used
check 'a snapshot is taken as it runs' virsh snapshot-create-as emulator one
check 'it is reset' virsh reset emulator
check 'it goes back to the snapshot' virsh snapshot-revert emulator one --running
check 'and runs' is_in_state emulator running
check 'the snapshot is deleted' virsh snapshot-delete emulator one
check 'it is saved as it runs' virsh managedsave emulator
check 'it is off' is_in_state emulator 'shut off'
check 'it goes on from there' virsh start emulator
check 'and runs' is_in_state emulator running
check 'it is reset' virsh reset emulator
check 'it ends' virsh destroy emulator
check 'it starts again, with the device that it had' virsh start emulator
check 'it ends again' virsh destroy emulator
mkdir "$folder/home/tpm"
[ "$(id -u)" -ne 0 ] || chown 65534:65534 "$folder/home/tpm"
as_user tpmsim-swtpm socket --tpm2 --tpmstate "dir=$folder/home/tpm" \
    --ctrl "type=unixio,path=$folder/home/ctrl" --terminate &
tpm=$!
until [ -S "$folder/home/ctrl" ]; do
    kill -0 "$tpm" || exit 1
    sleep 0.1
done
check 'a guest is defined whose TPM runs already' guest external \
    "<backend type='external'><source type='unix' mode='connect' path='$folder/home/ctrl'/></backend>"
check 'it starts' virsh start external
check 'it runs' is_in_state external running
check 'it ends' virsh destroy external
echo "$passed passed, $failed failed"
[ "$failed" -eq 0 ]
