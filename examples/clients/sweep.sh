# Functions of the scripts in this folder, which read this file.
# shellcheck shell=sh
set -u
top=$(CDPATH='' cd "$(dirname "$0")/../.." && pwd -P) || exit 2
work=$(mktemp -d) || exit 2
server=
trap '[ -z "$server" ] || kill "$server"; rm -rf "$work"' EXIT
cd "$work" || exit 2

# The clients report nothing but their results.
TSS2_LOG=all+none
export TSS2_LOG

# The word `swtpm` asks for the fault with swtpm, and without tpmsim.
case ${*:-tpmsim} in
tpmsim | swtpm) tpm=${1:-tpmsim} ;;
*) echo "usage: sh $0 [swtpm]" >&2; exit 2 ;;
esac

# needs TOOL..: ends the script if a tool is missing.
needs() {
    for tool do
        command -v "$tool" >"$work/found" || { echo "there is no $tool" >&2; exit 2; }
    done
}

# sweep OPTION.. -- COMMAND..: runs tpmsim-sweep, that of the clone if it is not installed.
sweep() {
    if command -v tpmsim-sweep >"$work/found"; then
        tpmsim-sweep "$@"
    else
        PYTHONPATH=$top/clients/python python3 -m tpmsim.sweep.main "$@"
    fi
}

# begin_swtpm: starts swtpm with a new device after TPM2_Startup, and names it in TPM2TOOLS_TCTI.
begin_swtpm() {
    needs swtpm socat
    mkdir "$work/state"
    swtpm socket --tpm2 --tpmstate "dir=$work/state" --server "type=unixio,path=$work/tpm.sock" \
        --ctrl "type=unixio,path=$work/control.sock" --flags not-need-init,startup-clear >"$work/served" 2>&1 &
    server=$!
    until [ -S "$work/tpm.sock" ]; do
        kill -0 "$server" || { cat "$work/served" >&2; exit 2; }
        sleep 0.1
    done
    TPM2TOOLS_TCTI="cmd:socat - UNIX-CONNECT:$work/tpm.sock"
    export TPM2TOOLS_TCTI
}
