#!/bin/sh
# Sends millions of commands to a served device over one connection, and reads the responses at the same time, as
# tests/serving/serve_clients.sh does with five million bytes. It is not part of the gate. Needs python3.
#
#   tools/soak/long_stream.sh          100 million bytes of commands
#   tools/soak/long_stream.sh 500      500 million bytes
#
# Each command must be answered with SUCCESS. The last line reports how the program ended.
set -u

top=$(CDPATH='' cd "$(dirname "$0")/../.." && pwd -P) || exit 1
program=${PROGRAM:-$(cd "$top" && . tools/lib/program.sh)} || exit 1
folder=$(mktemp -d) || exit 1
trap 'rm -rf "$folder"' EXIT
cd "$folder" || exit 1

export PYTHONDONTWRITEBYTECODE=1
client=$top/tests/common/client.py
"$program" serve --socket socket --image image --entropy /dev/zero --locality 0 --connections 2 &
python3 "$client" socket 4096 "$("$program" asm 'Startup 0')" \
    "$("$program" asm 'NV_DefineSpace OWNER pw:- - 01000001000b0002000200000400')"
python3 "$top/tests/common/clients.py" long socket "${1:-100}" \
    "$("$program" asm "NV_Write OWNER 01000001 pw:- $(printf '%02048d' 7) 0")"
status=0
wait "$!" || status=$?
echo "status $status"
[ "$status" -eq 0 ]
