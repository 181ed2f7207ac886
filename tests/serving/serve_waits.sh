# Tests a client that has to wait because another client's connection is still open. With TPMSIM_VERBOSE=1, the
# program must report this once. Without the variable it must report nothing, so that a run that fails prints
# exactly one line.
tests=$(cd "$(dirname "$0")/.." && pwd -P)
. "$tests/common/cases.sh"
. "$tests/common/served.sh"

startup=$(words 'Startup 0')
system='--entropy /dev/urandom --locality 0'

# begin_at SOCKET WORDS..: serves a device in the background. SOCKET is also the name of the files with the output.
begin_at() {
    socket=$1
    shift
    timeout 600 "$program" serve --socket "$socket" "$@" >"$room/$socket.output" 2>"$room/$socket.error" &
}

# ended_at LABEL SOCKET PID: prints how a run ended.
ended_at() {
    status=0
    wait "$3" || status=$?
    mv "$room/$2.output" "$room/output"
    mv "$room/$2.error" "$room/error"
    report "$1" "$status"
}

# serve LABEL WORDS..: serves three clients with TPMSIM_VERBOSE=1. The second and the third have to wait.
serve() {
    label=$1
    shift
    export TPMSIM_VERBOSE=1
    begin_at socket "$@" --connections 3
    unset TPMSIM_VERBOSE
    until [ -S socket ]; do sleep 0.01; done
    echo "$label:"
    python3 -m tests.common.waiting three socket "$room/socket.error" "$startup" | sed 's/^/    /'
    ended_at "$label" socket "$!"
}
# shellcheck disable=SC2086 # word splitting is intended
serve 'an image' --image image $system
serve 'a folder' --state state

# fail LABEL OPTION: serves two devices, each with random bytes for one command: without the variable, and with
# it. On each, one client is silent while another one waits. The second run reports that. Then each silent client
# sends a second command.
fail() {
    begin_at without "$2" without.device --entropy few --locality 0 --connections 2
    without=$!
    export TPMSIM_VERBOSE=1
    begin_at with "$2" with.device --entropy few --locality 0 --connections 2
    unset TPMSIM_VERBOSE
    with=$!
    until [ -S without ] && [ -S with ]; do sleep 0.01; done
    python3 -m tests.common.waiting fail without with "$room/with.error" "$startup"
    ended_at "$1, without the variable" without "$without"
    ended_at "$1, with the variable" with "$with"
    rm -rf with.device* without.device*
}
head -c 512 entropy >few
fail 'an image' --image
fail 'a folder' --state

# If no other client waits, nothing is reported about a client that sends nothing for four seconds.
export TPMSIM_VERBOSE=1
begin_at socket --state state --connections 1
unset TPMSIM_VERBOSE
until [ -S socket ]; do sleep 0.01; done
python3 -c "
import time
from tests.common.client import connected
client = connected('socket')
time.sleep(4)
client.close()
"
ended_at 'nobody waits' socket "$!"
