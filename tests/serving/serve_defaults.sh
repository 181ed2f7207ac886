# Tests which options of `serve` may be left out. A device in a folder can be served without --entropy, --locality
# and --connections: by default, the program uses the system's random bytes and locality 0, and serves any number
# of connections. A device in an image needs all three options.
tests=$(cd "$(dirname "$0")/.." && pwd -P)
. "$tests/common/cases.sh"
. "$tests/common/served.sh"

startup=$(words 'Startup 0')
read=$(words 'PCR_Read sha256:17')
# PCR 17 cannot be extended from locality 0.
extend=$(words "PCR_Extend 00000011 pw:- sha256:$(printf '%064d' 1)")

# serve LABEL FOLDER: serves three connections of the device in a folder, and then kills the program.
serve() {
    timeout 600 "$program" serve --socket socket --state "$2" >"$room/served" 2>&1 &
    serving=$!
    there
    talk "$1, first connection" 4096 "$startup" "$extend"
    talk "$1, second connection" 4096 "$read"
    python3 "$client" socket 4096 "$(words 'GetRandom 16')" >>random
    { kill "$serving" && wait "$serving"; } 2>"$room/killed"
    echo "$1: $(told "$room/served")"
    rm -f socket
}

serve 'a folder' state
serve 'another folder' other

# The two devices must have returned different random bytes.
sort -u random | grep -c .

# Each of the three options can be given alone, and --socket has no default.
run 'no connection' serve --socket socket --state state --connections 0
run 'locality 5' serve --socket socket --state state --locality 5
run 'no random bytes' serve --socket socket --state state --entropy none
run 'no socket' serve --state state

# If one of the three options is left out, no device in an image is served, and no file is made.
for options in '' '--entropy entropy' '--locality 0' '--connections 0' '--entropy entropy --locality 0' \
    '--entropy entropy --connections 0' '--locality 0 --connections 0'; do
    # shellcheck disable=SC2086 # word splitting is intended
    run "an image, ${options:-no options}" serve --socket socket --image image $options
done
[ -e image ] || [ -e image.lock ] || [ -e socket ] || echo 'no file was made'
