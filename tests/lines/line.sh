# Checks the lines that `tpmsim line` finds for commands. common/line.py tests the commands in `do` and `cmd`
# lines of scripts. This test adds some other commands.
tests=$(cd "$(dirname "$0")/.." && pwd -P)
. "$tests/common/cases.sh"
needs cc python3

python3 "$tests/common/line.py" "$program"

# line LABEL HEX: prints the line of the command with this buffer.
line() {
    run "$1" line "$2"
}

# An authorization entry with a password has only one valid form. Any other entry is written like a session's
# entry.
line 'a password' 80020000001d0000012940000001000000094000000900000100000000
line 'one with a nonce' 80020000001e00000129400000010000000a400000090001610100000000
line 'digits of both cases' 80010000000C0000017b0020
line 'a handle that is a parameter' 80010000000e0000016503000000
line 'a list of no digests' 80020000001f00000182000000000000000940000009000001000000000000

# Buffers for which there is no line.
entry=400000090000010000
line 'no bytes' ''
line 'a header that is cut' 80010000000c00000144
line 'a command that is cut' 80010000000b00000144ff
line 'another tag' 80030000000c000001440000
line 'another size' 80010000000d000001440000
line 'a byte more' 80010000000d00000144000000
line 'a command that is not served' 80010000000a00000146
line 'an area of four entries' "8002000000360000013d0000001000000024$entry$entry$entry$entry"
line 'a list that is longer than its command' 80010000000e0000017effffffff
line '4,097 bytes' "800200001001$(printf '%08190d' 0)"

# Arguments that are not hexadecimal.
line 'an odd number of digits' 8
line 'another digit' 8g
line 'a space' '80 01'
run 'no word' line
run 'two words' line 80 01
run 'an option' line --trace 80
