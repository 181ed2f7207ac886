# Serves a device in a folder on a socket while other runs use the same device.
tests=$(cd "$(dirname "$0")/.." && pwd -P)
. "$tests/common/cases.sh"
. "$tests/common/served.sh"

# begin CONNECTIONS OPTION..: serves the device in the folder `state` in the background.
begin() {
    count=$1
    shift
    timeout 600 "$program" serve --socket socket --state state --entropy /dev/urandom \
        --locality 0 --connections "$count" "$@" >"$room/served" 2>&1 &
}

# ended LABEL: prints how the serving program ended.
ended() {
    status=0
    wait "$!" || status=$?
    echo "$1: status $status, $(told "$room/served")"
    [ ! -e socket ] || echo '    the socket is still there'
}

extend=$(words "PCR_Extend 00000010 pw:- sha256:$(printf '%064d' 1)")
read=$(words 'PCR_Read sha256:16')
echo 'do PCR_Read sha256:16
do PCR_Reset 00000010 pw:-' >script

begin 3
there
talk 'a new device' 100 "$(words 'Startup 0')" "$extend" "$read"
run 'a run between two connections' run --state state script
talk 'the next connection' 1 "$read" "$extend"
"$program" power state || echo 'no power cycle'
talk 'behind a power cycle' 7 "$read" "$(words 'Startup 0')"
ended 'three connections'
begin 1 --save-each
there
talk 'once more' 1000 "$read" 800100000000
ended 'with each response forced to the disk'
grep -c '^cmd' state/journal

# The device's folder is removed while the device is served, and then another device is put at its path.
begin 2
there
cp -R state other
rm state/journal
talk 'a journal that is gone' 100 "$read"
ended 'a journal that is gone'

# Invalid command lines, and devices that cannot be served.
run 'both an image and a state' serve --socket socket --state state --image image \
    --entropy entropy --locality 0 --connections 0
run 'random bytes that are not there' serve --socket socket --state other --entropy none \
    --locality 0 --connections 1
