# Tests lines that are invalid in a script. Each of them is the third of four lines, between two commands. The
# program answers the first command but not the second. Lines are written and printed with printf's escapes:
# \t is a tab, \r a carriage return, and \ooo a byte in octal.
tests=$(cd "$(dirname "$0")/.." && pwd -P)
. "$tests/common/cases.sh"

# third LINE [LABEL]: plays a script whose third line is LINE.
third() {
    # shellcheck disable=SC2059 # the line contains printf escapes
    printf "$startup\n# the second\n$1\n$startup\n" >script
    run "${2:-\"$1\"}" run script
}

# zeros BYTES: prints this number of zero bytes in hex.
zeros() {
    printf '%0*d' "$((2 * $1))" 0
}

# Digits that are not hexadecimal, an odd number of digits, and more than one space.
third 'cmd 0'
third 'cmd 0g'
third 'cmd 800'
third 'cmd  00'
third 'cmd 00 '
third 'cmd 00 00'
third 'cmd 0x00'
third 'cmd 00\r'
third 'cmd\r'
third 'cmd 00\000'
third 'cmd\t00'

# Lines whose first word is not `cmd`.
third ' cmd 00'
third 'CMD 00'
third 'cmd00'
third 'command 00'

# A locality that is not 0 to 4, or not a decimal number.
third 'loc'
third 'loc '
third 'loc 5'
third 'loc -1'
third 'loc +1'
third 'loc 0x1'
third 'loc 1 '
third 'loc  1'
third 'loc 1\r'
third 'loc 256'
third 'loc 4294967296'
third 'loc 18446744073709551616'

# A wait that is more than 4,294,967,295 milliseconds, or not a decimal number.
third 'wait'
third 'wait '
third 'wait 4294967296'
third 'wait 99999999999999999999'
third 'wait 18446744073709551616'
third 'wait +1'
third 'wait -1'
third 'wait 1\r'
third 'wait 1 '
third 'wait  1'
third 'wait 1.5'
third 'wait 1s'

# No random bytes, more than 256 of them, or digits that are not hexadecimal.
third 'entropy'
third 'entropy '
third 'entropy 0'
third 'entropy 0x00'
third 'entropy 00 '
third 'entropy 0g'
third "entropy $(zeros 257)" 'entropy and 257 bytes'
third "entropy $(zeros 512)" 'entropy and 512 bytes'

# More text after the word `power`, and unknown first words.
third 'power '
third 'power 1'
third 'Power'
third 'power\r'
third 'poweroff'
third 'trace'

# Invalid commands in words. assemble.sh tests more of these.
third 'do'
third 'do '
third 'do GetRandom'
third 'do GetRandom 65536'
third 'do GetRandom 4 '
third 'do GetRandom 4\r'
third 'do GetRandom 4\000'
third 'do GetRandom \377'
third 'do  GetRandom 4'
third 'do\tGetRandom 4'
third 'do random 4'
third 'do 80010000000c0000017b0004'
third 'DO GetRandom 4'
third 'GetRandom 4'
third "do PCR_Event NULL pw:- $(zeros 4096)" 'do PCR_Event with 4096 bytes'

# A line with only white space, and a comment that does not begin with `#`.
third ' '
third '\t'
third '\r'
third ' # late'
third '; late'

# Bytes that are not ASCII.
third '\303\251'
third '\377'
third '\000'

# Valid lines that resemble invalid ones.
third 'cmd '
third 'cmd 00'
third 'do GetRandom 4'
third 'loc 4'
third 'wait 4294967295'
third "entropy $(zeros 256)" 'entropy and 256 bytes'
third 'power'
third ''
third '#\377'

# An invalid first line, and an invalid last line without a line break.
printf '\377\n' >script
run 'the first line' run script
printf '%s\n\n\n\ncmd 8' "$startup" >script
run 'the last line, the fifth' run script

# If two lines are invalid, the first one is reported, even if the script is read from standard input.
printf '%s\nbad\nworse\n' "$startup" >script
run 'two of them' run script
run 'two of them on standard input' run - <script
