# Tests the completing layer of a device that is kept in a folder. Until the next power cycle, a process can
# load a context that another process saved. A session's context can be loaded once, and an object's context
# any number of times, even after the object was flushed. If a process disables the layer, the device alone
# answers the process. See attached/ask.c.
tests=$(cd "$(dirname "$0")/.." && pwd -P)
. "$tests/common/cases.sh"
. "$tests/common/library.sh"
. "$tests/common/attached.sh"

# shellcheck disable=SC2086 # word splitting is intended
attach ask ask $sanitizers

startup=80010000000c000001440000
stir=80010000000e0000014600020102
session=80010000002b0000017640000007400000070010$(printf '%032d' 0)0000000010000b
save=80010000000e0000016202000000
# TPM2_CreatePrimary of a storage key, and the commands on that key.
primary=80020000003b00000131400000010000000940000009000001000000040000000000120025000b0003047200000006008000430000
primary=${primary}000000000000
save_object=80010000000e0000016280000000
flush_object=80010000000e0000016580000000
command_count=8001000000160000017a000000060000012900000001

# loading SAVE: executes SAVE, a command that saves a context, and prints the command that loads that context.
loading() {
    "$room/ask" state=state "$1" >"$room/saved"
    context=$(cut -c 21- "$room/saved")
    printf '8001%08x00000161%s' "$((10 + ${#context} / 2))" "$context"
}

# ask LABEL WORDS ACT..: runs attached/ask.c on a device, and prints the result.
ask() {
    label=$1
    shift
    status=0
    "$room/ask" "$@" >"$room/asked" 2>&1 || status=$?
    echo "$label: status $status"
    sed 's/^/    /' "$room/asked"
}

ask 'random bytes, with the layer' state=state "$startup" "$stir"
ask 'and without it' state=state,device "$stir"
ask 'a session' state=state "$session" >"$room/session"
sed 's/^\(    .\{28\}\).*/\1../' "$room/session"
load=$(loading "$save")
ask 'the context of the session, loaded without the layer' state=state,device "$load"
ask 'loaded' state=state "$load"
ask 'loaded twice' state=state "$load"
ask 'an object' state=state "$primary" >"$room/object"
sed 's/^\(    .\{28\}\).*/\1../' "$room/object"
load_object=$(loading "$save_object")
ask 'the context of the object, loaded without the layer' state=state,device "$load_object"
ask 'its flush, and the context' state=state "$flush_object" "$save_object" "$load_object"
ask 'loaded again' state=state "$load_object"
load=$(loading "$save")
ask 'after a power cycle' state=state power "$startup" "$load" "$load_object"
ask 'the number of commands' state=state "$command_count"
ask 'and without it' state=state,device "$command_count"
