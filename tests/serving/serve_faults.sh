# Tests command lines of `tpmsim serve`, and files that it cannot use, which required.txt does not have.
common=$(cd "$(dirname "$0")/.." && pwd -P)/common
tests=$(cd "$(dirname "$0")/.." && pwd -P)
. "$tests/common/cases.sh"
needs python3

startup=80010000000c000001440000
small=

head -c 768 /dev/zero >entropy
mkdir a_folder

# serve LABEL WORDS..: runs `serve` with these options and valid values for the other options. Unless WORDS
# contain --connections, `serve` exits without accepting a connection.
serve() {
    label=$1
    shift
    for option in 'socket socket' 'image image' 'entropy entropy' 'locality 0' 'connections 0'; do
        case " $* " in
        *" --${option% *} "*) ;;
        *) set -- "$@" "--${option% *}" "${option#* }" ;;
        esac
    done
    run "$label" serve "$@"
    [ ! -e socket ] || echo '    the socket is still there'
}

# small WORDS..: runs a program that cannot make a file larger than 512 bytes.
small() {
    trap '' XFSZ
    ulimit -f 1
    exec "$@"
}

# talk LABEL BUFFER..: serves one connection that sends these commands, and prints how it ended.
talk() {
    label=$1
    shift
    $small timeout 600 "$program" serve --socket socket --image "${image:-image}" --entropy entropy \
        --locality 0 --connections 1 >"$room/output" 2>"$room/error" &
    python3 "$common/client.py" socket 4096 "$@" >"$room/responses"
    status=0
    wait "$!" || status=$?
    report "$label" "$status"
    sed 's/^/    /' "$room/responses"
    [ ! -e socket ] || echo '    the socket is still there'
}

# Numbers with leading zeros, a number without digits, and words that `serve` does not take.
serve 'no connection'
serve 'leading zeros' --connections 00 --locality 04
serve 'a word too many' more
serve 'no digits' --connections ''

# An image that can be read, and paths of an image, of random bytes and of a socket that cannot be used.
talk 'the image of a new device' "$startup"
echo "    $(($(wc -c <image))) bytes"
serve 'the image' --image image
serve 'a file in place of a folder' --image image/image
serve 'a folder of random bytes' --image new --entropy a_folder
serve 'a path that is too long' --socket "$(printf '%0108d' 0)"

# An image that is too large to be written, because it contains an NV index of 1,024 bytes. The old image
# remains.
define=$("$program" asm 'NV_DefineSpace OWNER pw:- - 01000001000b0002000200000400')
write=$("$program" asm "NV_Write OWNER 01000001 pw:- $(printf '%02048d' 0) 0")
talk 'an NV index' "$startup" "$define" "$write"
cp image kept
small=small
talk 'no room for the new image' "$startup"
small=
cmp image kept && echo '    the image is as it was'
