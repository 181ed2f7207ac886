# Checks the buffers that `tpmsim asm` assembles from the lines of assemble.lines, and from some lines that are
# too long for that file. The lines may contain printf escapes (\ooo is a byte in octal). assemble.py, next to
# this script, computes assemble.out.
here=$(cd "$(dirname "$0")" && pwd -P)
tests=${here%/*}
. "$tests/common/cases.sh"

# assembled LABEL LINE: prints the output of `tpmsim asm` for a line, its status and its standard error.
assembled() {
    status=0
    output=$("$program" asm "$2" 2>"$room/error") || status=$?
    error=
    read -r error <"$room/error" || :
    printf '%s: status %s, output "%s", error "%s"\n' "$1" "$status" "$output" "$error"
}

# zeros DIGITS: prints this number of zeros.
zeros() {
    printf '%0*d' "$1" 0
}

while IFS= read -r written; do
    case $written in
    '' | '#'*) printf '%s\n' "$written" ;;
    *)
        # shellcheck disable=SC2059 # the lines contain printf escapes
        assembled "\"$written\"" "$(printf "$written")"
        ;;
    esac
done <"$here/assemble.lines"

# A number with tens of thousands of digits, and commands of 4,096 and of 4,097 bytes.
assembled 'GetRandom and 60000 digits' "GetRandom $(zeros 59999)7"
assembled 'GetRandom and 0x and 60000 digits' "GetRandom 0x$(zeros 59999)7"
assembled 'GetRandom and a number of 60000 digits' "GetRandom 1$(zeros 59999)"
for bytes in 4067 4068 4096 32767 40000; do
    data=$(zeros "$((2 * bytes))")
    assembled "PCR_Event and $bytes bytes" "PCR_Event 00000000 pw:- $data"
done

# If the line has another fault, that fault is reported rather than the command's size.
data=$(zeros 8192)
assembled 'NV_Write of 4096 bytes' "NV_Write OWNER 01000000 pw:- $data 0"
assembled 'NV_Write of 4096 bytes without an offset' "NV_Write OWNER 01000000 pw:- $data"
assembled 'NV_Write of 4096 bytes and a half' "NV_Write OWNER 01000000 pw:- ${data}0 0"
assembled 'NV_Write of 4096 bytes at x' "NV_Write OWNER 01000000 pw:- $data x"
assembled 'NV_Write of 4096 bytes at 65536' "NV_Write OWNER 01000000 pw:- $data 65536"
assembled 'NV_Write of 4096 bytes and a space' "NV_Write OWNER 01000000 pw:- $data 0 "
assembled 'NV_Write by a password of 4096 bytes' "NV_Write OWNER 01000000 pw:$data - 0"
assembled 'NV_Write by a password of 4096 bytes at x' "NV_Write OWNER 01000000 pw:$data - x"
