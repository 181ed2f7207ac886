# Checks the output of `tpmsim check` for scripts: the number of each invalid line, its fault and column, and
# what is expected there (docs/SCRIPTS.md). Each tested line is between two valid ones. Lines are
# written and printed with printf's escapes.
tests=$(cd "$(dirname "$0")/.." && pwd -P)
. "$tests/common/cases.sh"

# second LINE [LABEL]: checks a script whose second line is LINE.
second() {
    # shellcheck disable=SC2059 # the line contains printf escapes
    printf "# the first\n$1\n$startup\n" >script
    run "${2:-\"$1\"}" check script
}

# zeros BYTES: prints this number of zero bytes in hex.
zeros() {
    printf '%0*d' "$((2 * $1))" 0
}

# Invalid first words of a line.
second 'random'
second ' do GetRandom 4'
second 'DO GetRandom 4'
second 'cmd\t00'
second ' '
second '\377'

# Valid first words without the words that must follow them.
second 'do'
second 'loc'
second 'wait'
second 'entropy'

# Valid first words, followed by wrong words.
second 'cmd 0'
second 'cmd 0g'
second 'cmd  00'
second 'cmd 00\r'
second 'loc '
second 'loc x'
second 'loc -1'
second 'loc 5'
second 'loc 1 2'
second 'loc 18446744073709551616'
second 'wait '
second 'wait 1s'
second 'wait 0x10'
second 'wait 4294967296'
second 'entropy '
second 'entropy 0'
second "entropy $(zeros 257)" 'entropy and 257 bytes'
second 'power '
second 'power 1'

# The invalid lines that docs/SCRIPTS.md shows.
second 'do Bogus'
second 'do GetRandom'
second 'do GetRandom x'
second 'do GetRandom 65536'
second 'do PCR_Read sha1:24,x'
second 'do PCR_Read sha1:x,24'
second 'do PCR_Read sha1:24x'
second 'do Startup  0'
second 'do Startup 0 '
second 'do '
second 'do  Startup 0'
second "do PCR_Event NULL pw:- $(zeros 4096)" 'do PCR_Event with 4096 bytes'

# Faults in words of each kind: in handles, entries and parameters; an extra word; and a missing word.
second 'do PCR_Reset 10 pw:-'
second 'do NV_Write OWNER 0100000 pw:- 616263 0'
second 'do NV_Write 4000000 01000000 pw:- 616263 0'
second 'do Unseal key pw:-'
second 'do PolicyPassword -'
second 'do Clear lockout pw:-'
second 'do PolicyNV OWNER 01000000 3000000 pw:- 00 0 0'
second 'do NV_Write OWNER 01000000 pw:0 616263 0'
second 'do NV_Write OWNER 01000000 s:02000000:-:01 616263 0'
second 'do NV_Write OWNER 01000000 pw:- pw:- pw:- pw:- 616263 0'
second 'do NV_Write OWNER 01000000 pw:- pw:-'
second 'do NV_Write OWNER 01000000 616263'
second 'do NV_Write OWNER 01000000'
second 'do NV_Write OWNER'
second 'do NV_Write'
second 'do NV_Write OWNER 01000000 pw:- 616263 0 0'
second 'do SelfTest 256'
second 'do GetCapability 6 x 1'
second 'do NV_SetBits OWNER 01000000 pw:- 0x'
second 'do HMAC 80000000 pw:- 616263 SHA256'
second 'do StartAuthSession NULL NULL 00 - 0 des sha256'
second 'do PolicyPCR 03000000 - sha256'
second 'do PCR_Extend 0000000a pw:- sha256:00'
second 'do PolicyOR 03000000 00+'

# A hint follows if the program knows what is probably meant. Names of commands: in another case, with the prefix
# of the standard, or without `do`. Only the names of the symmetric profile count.
second 'do startup 0'
second 'do TPM2_Startup 0'
second 'do tpm2_getrandom 4'
second 'do NV_WRITE'
second 'Startup 0'
second 'tpm2_pcr_read sha256:0'
second 'do TPM2_'
second 'do TPM_Startup 0'
second 'do stirrandom 00'

# Passwords that are texts, and an empty one.
second 'do Clear LOCKOUT pw:secret'
second 'do Clear LOCKOUT pw:7'
second 'do Clear LOCKOUT pw:'
second 'do Clear LOCKOUT pw:\303\274'
second 'do Clear LOCKOUT secret'
second 'do NV_Write OWNER 01000000 pw:- s:02000000:pw 616263 0'

# Handles in decimal, and with 0x.
second 'do Clear 1073741834 pw:-'
second 'do Clear 0x4000000A pw:-'
second 'do PCR_Reset 16 pw:-'
second 'do PCR_Reset 24 pw:-'
second 'do NV_Read OWNER 0x1000001 pw:- 8 0'
second 'do NV_Read OWNER 16777215 pw:- 8 0'
second 'do NV_Read OWNER 0xffffff pw:- 8 0'
second 'do Unseal 4294967295 pw:-'
second 'do Unseal 4294967296 pw:-'
second 'do PCR_Event NULL pw:- 123'

# Lines that end with CR LF.
second 'do startup 0\r'
second 'power\r'
second '\r'
second '#\r'

# Valid lines that resemble invalid ones.
second 'cmd'
second 'cmd '
second 'cmd 00'
second 'do GetRandom 4'
second 'loc 4'
second 'wait 4294967295'
second "entropy $(zeros 256)" 'entropy and 256 bytes'
second 'power'
second ''
second '#\377'

# The sum of the waits before a command has a limit. An invalid wait adds nothing to the sum, and a power cycle
# does not reset the sum.
cat >script <<'END'
wait 4294967295
power
wait 1
wait 0
cmd
wait 4294967295
cmd 0
wait 1
do GetRandom 4
wait 1
END
run 'waits' check script

# Each invalid line is reported with its number, even after lines that are too long.
{
    printf 'bad\n%s\n' "$startup"
    printf '#%065535d\n#%065536d\n' 0 0
    printf 'worse\n\ndo GetRandom x'
} >script
run 'several' check script
run 'several on standard input' check - <script
run 'several, run' run script

# A text without any line of a script has a report of one line.
foreign() {
    # shellcheck disable=SC2059 # the text contains printf escapes
    printf "$2" >script
    run "$1" check script
}
foreign 'a dump' '00000000: 8001 0000 000c 0000 017b 0004            .........{..\n'
foreign 'an array' 'unsigned char command[] = {\n  0x80, 0x01, 0x00, 0x00,\n};\n'
foreign 'a trace' 'trace:tcti:src/tss2-tcti/tcti-device.c:88:tcti_device_transmit() sending 12 byte\n0000: 8001'
foreign 'a capture' '\324\303\262\241\002\000\004\000\000\000\n\200\001\000'
foreign 'comments before a dump' '# of a device\n\n80 01 00 00\n80 02 00 00\n'
foreign 'a dump with a line of a script' '80 01 00 00\npower now\n'
foreign 'a dump after a name' 'startup\n80 01 00 00\n'
foreign 'only comments' '# one\n\n#two\n'

# Good scripts: one without lines, one whose last line has no line break, and one whose commands the device
# refuses.
: >script
run 'an empty script' check script
printf 'cmd' >script
run 'a line without an end' check script
printf 'do Unseal 80000000 pw:-\n' >script
run 'a command that the device refuses' check script

# A script with the maximum number of lines, and one with one more line.
yes '' 2>"$room/yes" | head -n 1048576 >script
run '1,048,576 lines' check script
echo >>script
run 'a line more' check script
echo bad >script
yes '' 2>"$room/yes" | head -n 1048576 >>script
run 'a line more, the first of which is bad' check script

# A missing script, and wrong command lines.
run 'no file' check missing
run 'a folder' check .
run 'no word' check
run 'two words' check script script
run 'an option' check --trace script
printf 'bad\n' >./-
run 'standard input, though there is a file' check - <script
run 'that file' check ./-
