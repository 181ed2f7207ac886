# Functions for the tests of a served device. The tests read this file after cases.sh, which sets `program` and
# `room`. A client in Python sends the commands, and prints each response on a separate line.
needs python3
client=$tests/common/client.py

# bytes_of COUNT OCTAL: prints COUNT bytes with the value OCTAL.
bytes_of() {
    head -c "$1" /dev/zero | tr '\0' "\\$2"
}

# The 256 random bytes with which the device is manufactured are zeros. The first command gets random bytes with
# the value 1, the second command with the value 2, and so on.
bytes_of 256 000 >entropy
for octal in 001 002 003 004 005 006 007 010 011 012 013 014 015; do
    bytes_of 256 "$octal" >>entropy
done

# begin CONNECTIONS: serves CONNECTIONS connections in the background, with the options in `options`. The
# locality is 0 unless the test sets the variable `locality`, and the image is the file `image` unless it sets
# the variable `image`.
begin() {
    rm -f "$room/output" "$room/error"
    # shellcheck disable=SC2086 # word splitting is intended
    timeout 600 "$program" serve --socket socket --image "${image:-image}" --entropy entropy \
        --locality "${locality:-0}" --connections "$1" ${options:-} >"$room/output" \
        2>"$room/error" &
}

# there: waits until the socket exists, or the program in the background has ended.
there() {
    until [ -S socket ] || ! kill -0 "$!" 2>"$room/gone"; do sleep 0.01; done
}

# talk LABEL SIZE HEX..: connects to the socket, sends the bytes of the arguments HEX in pieces of SIZE bytes, and
# prints the responses.
talk() {
    echo "$1:"
    shift
    python3 "$client" socket "$@" | sed 's/^/    /'
}

# ended LABEL: prints how the program ended, and whether its socket still exists.
ended() {
    status=0
    wait "$!" || status=$?
    report "$1" "$status"
    [ ! -e socket ] || echo '    the socket is still there'
}

# words LINE: assembles a command in words, and prints its buffer.
words() {
    "$program" asm "$1"
}
