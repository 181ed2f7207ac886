#!/bin/sh
# Starts a TPM for a CI job, and prints the job's variables as NAME=VALUE. The TPM ends with the job.
#
#   start.sh serve FOLDER       on a Unix socket: TPMSIM_SOCKET
#   start.sh simulator FOLDER   by Microsoft's protocol: TPMSIM_HOST, TPMSIM_PORT, TPM2TOOLS_TCTI
#
# The script makes FOLDER, which then has the socket, the image, the process's number and its output. The
# program is that of dist/ for this machine. The simulator is compiled first, by cc and binutils.
set -u

top=$(CDPATH='' cd "$(dirname "$0")/../../.." && pwd -P) || exit 1
program=$top/dist/tpmsim
[ "$(uname -sm)" != 'Linux aarch64' ] || program=$top/dist/aarch64/tpmsim

# fail REASON: ends the script, and prints what the device said.
fail() {
    echo "$0: $1" >&2
    [ ! -s "$folder/log" ] || cat "$folder/log" >&2
    exit 1
}

# start WORDS..: starts a program that goes on when this script ends.
start() {
    nohup "$@" >"$folder/said" 2>"$folder/log" </dev/null &
    process=$!
    echo "$process" >"$folder/pid"
}

# waited CONDITION..: waits up to ten seconds, while the program runs, until a condition holds.
waited() {
    tries=0
    until "$@"; do
        kill -0 "$process" 2>/dev/null && [ "$tries" -lt 100 ] || return 1
        tries=$((tries + 1))
        sleep 0.1
    done
}

serve() {
    start "$program" serve --socket "$folder/tpm.sock" --image "$folder/tpm.image" --entropy /dev/urandom \
        --locality 0 --connections 4294967295
    waited test -S "$folder/tpm.sock" || fail 'the device does not start'
    echo "TPMSIM_SOCKET=$folder/tpm.sock"
}

simulator() {
    "$top/hosts/build.sh" simulator "$folder" || exit 1
    start "$folder/tpmsim-simulator" --port 0 --image "$folder/tpm.image"
    waited test -s "$folder/said" || fail 'the simulator does not start'
    read -r host port <"$folder/said"
    printf 'TPMSIM_HOST=%s\nTPMSIM_PORT=%s\n' "$host" "$port"
    echo "TPM2TOOLS_TCTI=mssim:host=$host,port=$port"
}

case $#:${1:-} in
2:serve | 2:simulator) ;;
*)
    echo "usage: $0 serve|simulator FOLDER" >&2
    exit 2
    ;;
esac
mkdir -p "$2" || exit 1
folder=$(CDPATH='' cd "$2" && pwd -P) || exit 1
"$1"
