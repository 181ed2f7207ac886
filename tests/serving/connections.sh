# Plays scripts over the socket, with a new connection for each command. Sessions, objects and PCR values
# persist from one connection to the next, and the responses are the same as when the program plays the
# script.
tests=$(cd "$(dirname "$0")/.." && pwd -P)
. "$tests/common/cases.sh"
. "$tests/common/served.sh"

make_scripts sealed_to_pcrs object_sessions session_encryption
for name in sealed_to_pcrs object_sessions session_encryption; do
    script=$(script $name)
    rm -f image
    count=$(python3 "$tests/common/replay.py" prepare "$script")
    begin "$count"
    python3 "$tests/common/replay.py" send socket >"$room/responses"
    ended "$name"
    head -n "$count" "${script%.tpm}.out" | cmp - "$room/responses"
done
