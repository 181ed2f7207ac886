#!/bin/sh
# Tests the installed package on an ARM64 machine: the program, the module for libtss2, the module for swtpm,
# Microsoft's simulator protocol and the Python package; and, in a clone of the repository, the two commands of
# the README. tools/interop/arm64.sh copies this script to the machine. Each line of the output is the result
# of one check.
set -u
top=$(CDPATH='' cd "$(dirname "$0")/../.." && pwd -P) || exit 1
work=$(mktemp -d) || exit 1
server=
failed=0
# shellcheck disable=SC2329 # the trap calls it
end() {
    [ -z "$server" ] || kill "$server" 2>/dev/null
    rm -rf "$work"
}
trap end EXIT
cd "$work" || exit 1

# check LABEL COMMAND..: reports whether a command or a function succeeds.
check() {
    label=$1
    shift
    if "$@" >said 2>&1; then
        echo "ok: $label"
    else
        echo "FAILED: $label"
        sed 's/^/    /' said
        failed=$((failed + 1))
    fi
}

# tool WORDS..: runs one of tpm2-tools, with a generous time limit, since qemu is slow.
tool() {
    timeout 120 tpm2 "$@"
}

is_refused() {
    ! "$@"
}

is_arm64() {
    [ "$(uname -m)" = aarch64 ]
}

reads_pcr() {
    tool pcrread sha256:16 | grep -q 90F4B39548DF55AD6187A1D20D731ECE
}

draws() {
    [ "$(tool getrandom --hex 8 | wc -c)" -eq 16 ]
}

reads_back() {
    tool nvread -C o -s 8 0x1000001 | cmp - data
}

# starts PROGRAM WORDS..: succeeds if a program answers TPM2_Startup with SUCCESS.
starts() {
    echo 'do Startup 0' | "$@" - | grep -qx 80010000000a00000000
}

# serve COMMAND..: starts a server, and waits for its first output or its socket.
serve() {
    "$@" >served 2>&1 &
    server=$!
    tries=0
    until [ -S "$work/tpm.ctrl" ] || grep -q . served || [ "$tries" -ge 300 ]; do
        sleep 0.1
        tries=$((tries + 1))
    done
}

# measure LABEL: uses tpm2-tools to extend and read a PCR, and to draw random bytes.
measure() {
    check "$1: pcrextend" tool pcrextend "16:sha256=$(printf %064d 1)"
    check "$1: pcrread" reads_pcr
    check "$1: getrandom" draws
}

# keep LABEL: defines, writes and reads an NV index.
keep() {
    printf 12345678 >data
    check "$1: nvdefine" tool nvdefine -C o -s 8 0x1000001
    check "$1: nvwrite" tool nvwrite -C o -i data 0x1000001
    check "$1: nvread" reads_back
}

check 'this is ARM64' is_arm64
check 'the program' starts tpmsim run

TPM2TOOLS_TCTI=tpmsim:state=$work/kept
export TPM2TOOLS_TCTI
check 'libtss2: startup' tool startup -c
measure libtss2
keep libtss2
check 'libtss2: createprimary' tool createprimary -C o -G aes128cfb -c primary.ctx
check 'tpmsim-power' tpmsim-power "$work/kept"
check 'libtss2: refused after a power cycle' is_refused tool pcrread sha256:16
check 'the program on that folder' starts tpmsim run --state kept

mkdir state
serve tpmsim-swtpm socket --tpm2 --tpmstate "dir=$work/state" --ctrl "type=unixio,path=$work/tpm.ctrl" \
    --server "type=unixio,path=$work/tpm" --flags not-need-init,startup-clear --seccomp action=none
TPM2TOOLS_TCTI=swtpm:path=$work/tpm
measure swtpm
keep swtpm
kill "$server" && wait "$server" 2>/dev/null
check 'swtpm: its state' test -s state/tpm2-00.permall

rm -f tpm.ctrl
serve tpmsim-simulator --port 23210
TPM2TOOLS_TCTI=mssim:host=127.0.0.1,port=23210
check 'simulator: startup' tool startup -c
check "simulator: pcrextend" tool pcrextend "16:sha256=$(printf %064d 1)"
check "simulator: pcrread" reads_pcr
kill "$server" && wait "$server" 2>/dev/null
server=

cat >devices.py <<'END'
import sys

from tpmsim.caller import Caller
from tpmsim.device import ChildDevice, Device, KeptDevice, LibraryDevice

assert Device.preferred is LibraryDevice
for kind in (LibraryDevice, ChildDevice, lambda: KeptDevice(sys.argv[1])):
    with kind() as device:
        tpm = Caller(device)
        tpm.start_up()
        assert len(tpm.call("GetRandom", bytesRequested=4)["randomBytes"]) == 4
END
check 'Python: the installed package' python3 devices.py by-package
check 'Python: that of the repository' env PYTHONPATH="$top/clients/python" python3 devices.py by-repository
check 'the first command of the README' starts "$top/tpmsim" run
check 'the second one, of a few tests' "$top/tools/scripts.sh" pcr_read disk_pin
[ "$failed" -eq 0 ]
