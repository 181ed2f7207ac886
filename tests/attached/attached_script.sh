# Checks that `tpmsim replay` of a device's journal prints the responses that the device returned. See
# attached/ask.c.
tests=$(cd "$(dirname "$0")/.." && pwd -P)
. "$tests/common/cases.sh"
. "$tests/common/library.sh"
. "$tests/common/attached.sh"
needs python3

attach ask ask
shipped=$dist/tpmsim

# words LINE: assembles a command in words, and prints its buffer.
words() {
    "$shipped" asm "$1"
}

# replay LABEL: plays the journal as a script, and compares the responses with those of the device, in the file
# `asked`.
replay() {
    "$shipped" replay state/journal | grep '^80' >answers
    cmp asked answers && echo "$1: $(grep -c . answers) answers, and the journal has the same"
}

"$room/ask" state=state "$(words 'Startup 0')" "$(words 'GetRandom 64')" '' 00 \
    "$(words 'ReadClock')" locality 3 \
    "$(words "PCR_Extend 00000014 pw:- sha256:$(printf '%064d' 0)")" \
    "$(words 'StartAuthSession NULL NULL 00000000000000000000000000000000 - 0 null sha256')" \
    "$(printf '%08194d' 0)" "$(printf '%010000d' 0)" >asked
"$room/ask" state=state,locality=2 "$(words 'PCR_Read sha256:20')" "$(words 'GetRandom 8')" \
    "$(words 'NV_DefineSpace OWNER pw:- - 01000002000b0002000200000008')" \
    "$(words 'NV_Write OWNER 01000002 pw:- 0102030405060708 0')" >>asked
replay 'two processes'
"$room/ask" state=state power "$(words 'Startup 0')" "$(words 'NV_Read OWNER 01000002 pw:- 8 0')" \
    "$(words 'ReadClock')" >asked
tail -n 2 asked | head -n 1
replay 'behind a power cycle'
