# A function for the tests that execute the shell blocks of a document that its reader is meant to copy. The tests
# read this file after cases.sh, which sets `room`.
# shellcheck shell=sh disable=SC2154 # cases.sh has `room`

# type_blocks PAGE: executes the shell blocks of a document, those that begin with ```sh, each in its own shell. Each
# must print the block that begins with ```text, if one follows it before the next shell block, or else nothing. At
# the end the function prints the number of shell blocks.
type_blocks() {
    # The file `N.typed` contains block number N, and `N.wanted` its expected output.
    awk -v room="$room" '
        /^```/ && part { part = ""; next }
        /^```sh$/ { part = room "/" ++blocks ".typed"; printf "" >(room "/" blocks ".wanted"); next }
        /^```text$/ { part = room "/" blocks ".wanted"; next }
        /^```/ { part = "none"; next }
        part && part != "none" { print >part }
    ' "$1"

    blocks=0
    wrong=0
    while [ -e "$room/$((blocks + 1)).typed" ]; do
        blocks=$((blocks + 1))
        timeout 600 sh "$room/$blocks.typed" >"$room/output" 2>&1 </dev/null
        cmp -s "$room/$blocks.wanted" "$room/output" && continue
        wrong=$((wrong + 1))
        printf 'wrong: %s\n' "$(head -n 1 "$room/$blocks.typed")"
        diff "$room/$blocks.wanted" "$room/output"
    done
    echo "$blocks blocks typed, $wrong wrong"
}
