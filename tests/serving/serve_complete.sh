# Tests `serve --state DIR --complete`: with this option, the completing layer answers commands that the device
# in the folder does not support.
tests=$(cd "$(dirname "$0")/.." && pwd -P)
. "$tests/common/cases.sh"
. "$tests/common/served.sh"

startup=$(words 'Startup 0')
# TPM2_GetTestResult, TPM2_StirRandom without bytes, and TPM2_GetCapability of the algorithms.
result=80010000000a0000017c
stir=80010000000c000001460000
algorithms=8001000000160000017a000000000000000000000001

# serve LABEL WORDS..: serves the device in the folder `state` for one connection, with these options.
serve() {
    label=$1
    shift
    rm -f "$room/output" "$room/error"
    timeout 600 "$program" serve --socket socket --state state --connections 1 "$@" \
        >"$room/output" 2>"$room/error" &
    serving=$!
    there
    talk "$label" 4096 "$startup" "$result" "$stir" "$algorithms"
    status=0
    wait "$serving" || status=$?
    report "$label" "$status"
}

serve 'without the layer'
cp state/journal without
"$program" power state || echo 'no power cycle'
serve 'with the layer' --complete
# Each journal entry records whether the completing layer was on, with or without --save-each.
"$program" power state || echo 'no power cycle'
serve 'with the layer, and each response forced to the disk' --save-each --complete
"$program" script state | grep -c '^# completed'
"$program" replay state/journal | grep -v '[^0-9a-f]' >again
sed 's/^/    /' again
"$program" replay without | grep -v '[^0-9a-f]' | sed 's/^/    /'

# An image cannot store the state of the completing layer.
run 'an image' serve --socket socket --image image --entropy /dev/urandom --locality 0 --connections 0 --complete
run 'neither' serve --socket socket --complete --connections 0
run 'a script' run --state state --complete -
