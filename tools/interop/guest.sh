#!/bin/sh
# Boots Linux guests in QEMU, whose TPM is tpmsim in swtpm. The firmware is SeaBIOS or OVMF, each with tpm-tis
# and tpm-crb. Firmware and kernel must leave the same PCR values as with swtpm's own libtpms. The guest extends
# a PCR, seals data to it, hashes a file with a sequence, sleeps and wakes (S3), reboots and unseals the data.
# After it has slept, the guest uses contexts from before, and a process that holds /dev/tpmrm0 goes on. In
# another run of QEMU, the guest unseals the data again. Then a running guest is saved with its TPM, and
# continues in another QEMU. Not part of the gate, because it takes minutes. It installs nothing, and leaves only
# its folder, if one is named.
#
#   tools/interop/guest.sh [FOLDER]                   all of these tests
#   tools/interop/guest.sh FOLDER FIRMWARE DEVICE     one combination, for example seabios tpm-tis
#   tools/interop/guest.sh FOLDER moves               only the guest that is saved while it runs
#
# Needs Debian's qemu-system-x86, qemu-utils, ovmf, swtpm, libtpms-dev, busybox-static, tpm2-tools, socat, and a
# kernel with the TPM's drivers built in: the file that $KERNEL names, or Debian's cloud kernel, which apt-get
# downloads. $ATTACHED is the folder of `hosts/build.sh libtpms`; if it is not set, the script makes one. QEMU
# emulates the processor, unless $ACCELERATOR is kvm.
set -u

top=$(CDPATH='' cd "$(dirname "$0")/../.." && pwd -P) || exit 1
for needed in qemu-system-x86_64 qemu-img swtpm busybox tpm2 socat python3; do
    command -v "$needed" >/dev/null || {
        echo "$0: $needed is not there; the head of this file says what is needed" >&2
        exit 2
    }
done
if [ "$#" -eq 0 ] || [ -z "$1" ]; then
    folder=$(mktemp -d)
    trap 'rm -rf "$folder"' EXIT
else
    mkdir -p "$1"
    folder=$(realpath "$1")
fi
passed=0
failed=0

ok() {
    echo "ok: $1"
    passed=$((passed + 1))
}

fail() {
    echo "FAILED: $1"
    failed=$((failed + 1))
}

# Makes the files for the guest: the kernel, and an initial file system with busybox, tpm2-tools and the
# libraries that these need.
make_guest() {
    if [ -z "${KERNEL:-}" ]; then
        mkdir -p "$folder/kernel"
        package=$(apt-cache depends linux-image-cloud-amd64 | sed -n 's/.*Depends: //p' | head -n 1)
        (cd "$folder/kernel" && { [ -e "$package".deb ] || apt-get download -q "$package"; } &&
            dpkg-deb -x "$package"_*.deb .) >"$folder/kernel.log" 2>&1
        KERNEL=$(ls "$folder"/kernel/boot/vmlinuz-*)
    fi
    root=$folder/root
    rm -rf "$root"
    mkdir -p "$root/bin" "$root/lib" "$root/lib64" "$root/usr/bin" "$root/tmp"
    cp "$(command -v busybox)" "$root/bin/busybox"
    ln -s busybox "$root/bin/sh"
    cp "$top/tools/interop/guest_init.sh" "$root/init"
    chmod +x "$root/init"
    cp -L "$(command -v tpm2)" "$root/usr/bin/tpm2"
    tcti=$(ldconfig -p | sed -n 's/.*libtss2-tcti-device\.so\.0 .*=> //p' | head -n 1)
    for file in "$(command -v tpm2)" "$tcti"; do
        ldd "$file" | grep -o '/[^ ]*' | while read -r library; do
            cp -L "$library" "$root/lib/"
        done
    done
    cp -L "$tcti" "$root/lib/"
    cp -L /lib64/ld-linux-x86-64.so.2 "$root/lib64/"
    (cd "$root" && find . | busybox cpio -o -H newc 2>/dev/null | gzip -1) >"$folder/initramfs"
}

# begin_tpm swtpm|tpmsim NAME: starts the TPM for a guest, with its state in the folder NAME.
begin_tpm() {
    rm -f "$run/ctrl"
    mkdir -p "$folder/$2"
    program=swtpm
    [ "$1" = swtpm ] || program=$attached/tpmsim-swtpm
    mkdir -p "$run/record"
    TPMSIM_RECORD=$run/record "$program" socket --tpm2 --tpmstate "dir=$folder/$2" \
        --ctrl "type=unixio,path=$run/ctrl" --log "file=$run/log,level=1" &
    tpm=$!
    until [ -S "$run/ctrl" ]; do
        kill -0 "$tpm" || { fail "$run: no TPM"; return 1; }
        sleep 0.05
    done
}

# boot NAME TPM STATE WORDS: boots a guest, and waits until it has shut down. NAME is the folder of the run.
# WORDS are added to the kernel's command line.
boot() {
    run=$folder/$1
    rm -rf "$run"
    mkdir -p "$run"
    begin_tpm "$2" "$3" || return
    words=$4
    set --
    if [ "$firmware" = ovmf ]; then
        cp /usr/share/OVMF/OVMF_VARS_4M.fd "$run/variables"
        code=/usr/share/OVMF/OVMF_CODE_4M.fd
        set -- -drive "if=pflash,format=raw,readonly=on,file=$code" \
            -drive "if=pflash,format=raw,file=$run/variables"
    fi
    begun=$(date +%s%N)
    timeout 1500 qemu-system-x86_64 -machine q35,accel="${ACCELERATOR:-tcg}" -cpu max -m 512 \
        -display none -nodefaults -serial "file:$run/serial" \
        -chardev "socket,id=chrtpm,path=$run/ctrl" -tpmdev emulator,id=tpm0,chardev=chrtpm \
        -device "$device,tpmdev=tpm0" -kernel "$KERNEL" -initrd "$folder/initramfs" \
        -append "console=ttyS0 quiet panic=-1 $words" "$@" >"$run/qemu" 2>&1
    status=$?
    echo "$(basename "$run"): $((($(date +%s%N) - begun) / 1000000)) ms"
    kill "$tpm" 2>/dev/null
    wait "$tpm" 2>/dev/null
    [ "$status" -eq 0 ] || fail "$run: QEMU ended with status $status: $(tail -n 1 "$run/qemu")"
    tr -d '\r' <"$run/serial" | sed -n 's/^.*RESULT //p' >"$run/results"
}

# measured NAME: prints the PCR values after firmware and kernel, as the guest reported them at the first boot
# of a run.
measured() {
    awk '/^VERSION/ { boots++ } boots == 1 && /^(VERSION|PCR|LOG)/' "$folder/$1/results"
}

# check NAME BOOTS COUNT: checks that the guest of a run booted BOOTS times, and reported COUNT correct results.
check() {
    while IFS= read -r line; do
        case $line in
        ok*) ok "$1: ${line#ok }" ;;
        FAILED*) fail "$1: ${line#FAILED }" ;;
        esac
    done <"$folder/$1/results"
    boots=$(grep -c '^VERSION 2$' "$folder/$1/results")
    right=$(grep -c '^ok' "$folder/$1/results")
    if [ "$boots" -ne "$2" ] || [ "$right" -ne "$3" ]; then
        fail "$1: $boots boots and $right results, and not $2 and $3"
    fi
}

# replays NAME: executes the recorded commands of all boots of a run again, and checks that the responses are
# the same.
replays() {
    for record in "$folder/$1"/record/*.tpm; do
        if python3 - "$top/dist/libtpmsim.so.0" "$record" <<'END'; then
import ctypes
import sys

library, record = sys.argv[1:]
text = open(record, "rb").read()
device, taken, size = ctypes.c_void_p(), ctypes.c_size_t(), ctypes.c_size_t(len(text))
journal_open = ctypes.CDLL(library).tpmsim_journal_open
told = journal_open(ctypes.byref(device), text, size, ctypes.byref(taken))
sys.exit(told != 0 or taken.value != len(text))
END
            ok "$1: $(basename "$record") plays again, $(grep -c '^cmd' "$record") commands"
        else
            fail "$1: $(basename "$record") does not play again"
        fi
    done
}

# combination FIRMWARE DEVICE: runs all tests of one combination.
combination() {
    firmware=$1
    device=$2
    name=$1-$2
    rm -rf "$folder/$name-swtpm-state" "$folder/$name-pcrs-state" "$folder/$name-state"
    boot "$name-swtpm" swtpm "$name-swtpm-state" guest=pcrs
    boot "$name-pcrs" tpmsim "$name-pcrs-state" guest=pcrs
    measured "$name-swtpm" >"$folder/wanted"
    measured "$name-pcrs" >"$folder/given"
    if [ -s "$folder/wanted" ] && cmp -s "$folder/wanted" "$folder/given"; then
        ok "$name: the PCRs are those under swtpm ($(wc -l <"$folder/given") lines)"
    else
        fail "$name: the PCRs are not those under swtpm"
        diff "$folder/wanted" "$folder/given"
    fi
    boot "$name-first" tpmsim "$name-state" 'guest=work sleep'
    check "$name-first" 2 26
    boot "$name-again" tpmsim "$name-state" guest=work
    check "$name-again" 1 5
    for run in "$name-pcrs" "$name-first" "$name-again"; do replays "$run"; done
}

# machine NAME WORDS..: starts a QEMU for the guest that is moved. Its TPM has a separate state.
machine() {
    run=$folder/$1
    shift
    rm -rf "$run"
    mkdir -p "$run"
    begin_tpm tpmsim "$(basename "$run")/state" || return
    timeout 1500 qemu-system-x86_64 -machine q35,accel="${ACCELERATOR:-tcg}" -cpu max -m 512 \
        -display none -nodefaults -serial "file:$run/serial" \
        -chardev "socket,id=chrtpm,path=$run/ctrl" -tpmdev emulator,id=tpm0,chardev=chrtpm \
        -device tpm-tis,tpmdev=tpm0 -kernel "$KERNEL" -initrd "$folder/initramfs" \
        -append "console=ttyS0 quiet panic=-1 iomem=relaxed guest=move" \
        -drive "if=virtio,format=qcow2,file=$folder/snapshots.qcow2" \
        -monitor "unix:$run/monitor,server=on,wait=off" "$@" >"$run/qemu" 2>&1 &
    qemu=$!
}

# monitor WORDS..: sends a command to QEMU's monitor, and prints the output.
monitor() {
    echo "$*" | timeout 60 socat -t 10 - "UNIX-CONNECT:$run/monitor" 2>&1 | tr -d '\r'
}

# `told TEXT TIMES`: waits until the guest has printed a text TIMES times.
told() {
    for _ in $(seq 3000); do
        times=$(grep -c "RESULT $1" "$run/serial" 2>/dev/null)
        [ "${times:-0}" -lt "$2" ] || return 0
        kill -0 "$qemu" 2>/dev/null || break
        sleep 0.2
    done
    fail "$run: the guest does not tell $1: $(tail -n 1 "$run/qemu")"
    return 1
}

# moved NAME: checks that the last printed PCR values are those after two extends of PCR 20 and one of PCR 15.
moved() {
    tr -d '\r' <"$run/serial" | sed -n 's/^.*RESULT MOVE //p' | tail -n 2 >"$run/pcrs"
    if cmp -s "$run/pcrs" "$folder/moved_pcrs"; then ok "$1"; else fail "$1: $(cat "$run/pcrs")"; fi
}

# Saves a guest whose TPM is at locality 2, and loads it again. Then moves it to another QEMU with another
# swtpm.
moves() {
    printf '20 %s\n15 %s\n' \
        6A4F8C2FE171394674DC8F8CCEFB497B809900F19A5E0A00D7B10CEE285954FD \
        2EBE6807995C988B9D292B535A81546078D93D753A42BF8D15DDCAF2D84BE200 >"$folder/moved_pcrs"
    qemu-img create -q -f qcow2 "$folder/snapshots.qcow2" 1G || return
    machine moves-from || return
    told READY 1 || return
    monitor 'savevm one' >"$run/savevm"
    told MOVED 1 || return
    moved 'a guest that was saved goes on'
    monitor 'loadvm one' >"$run/loadvm"
    told MOVED 2 || return
    moved 'and does the same from where it was saved'
    monitor 'loadvm one' >"$run/loadvm"
    monitor "migrate \"exec:cat >$folder/moving\"" >"$run/migrate"
    monitor quit >"$run/quit"
    wait "$qemu" "$tpm"
    machine moves-to -incoming "exec:cat $folder/moving" || return
    told MOVED 1 || return
    moved 'it moves to another QEMU, at locality 2'
    monitor quit >"$run/quit"
    wait "$qemu" "$tpm"
}

attached=${ATTACHED:-$folder/attached}
[ -n "${ATTACHED:-}" ] || "$top/hosts/build.sh" libtpms "$attached" || exit 1
make_guest
case $# in
3) combination "$2" "$3" ;;
2) moves ;;
*)
    for firmware in seabios ovmf; do
        for device in tpm-tis tpm-crb; do combination "$firmware" "$device"; done
    done
    moves
    ;;
esac
echo "$passed passed, $failed failed"
[ "$failed" -eq 0 ]
