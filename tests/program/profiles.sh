# The options `run --complete` and `asm --complete`. A device of the symmetric profile refuses each command of the
# scripts in tests/complete that only the complete profile has, with COMMAND_CODE; and only a device that is not
# kept can be of the complete profile.
tests=$(cd "$(dirname "$0")/.." && pwd -P)
. "$tests/common/cases.sh"
needs python3

# The commands of the complete profile in these scripts, as buffers, each once.
grep -hE '^do (StirRandom|GetTestResult|ClockSet|ClockRateAdjust|IncrementalSelfTest|TestParms|Hash)( |$)' "$tests"/complete/*.tpm |
    sed 's/^do //' | sort -u >lines
while read -r line; do
    "$program" asm --complete "$line" | sed 's/^/cmd /'
done <lines >buffers
echo "as many buffers as lines: $([ "$(grep -c . lines)" = "$(grep -c . buffers)" ] && echo yes)"
sed 's/^cmd .\{12\}\(.\{8\}\).*/\1/' buffers | sort -u

echo '== on a device of the symmetric profile'
{ echo 'do Startup 0' && cat buffers; } >script
"$program" run script | sort -u
"$program" run --trace script | sed -n 's/^\(.*\) 0.*/\1/p' | sort -u
while read -r line; do
    echo "do $line" >bad
    "$program" run bad 2>&1
    "$program" check bad 2>&1
    "$program" asm "$line" 2>&1
    "$program" line "$("$program" asm --complete "$line")" 2>&1
done <lines | sort -u

echo '== of the complete profile'
printf 'do Startup 0\ndo StirRandom 616263\n' >script
run 'a device that is not kept' run --complete script
run 'on standard input' run --complete - <script
run 'with traces' run --trace --complete script
run 'a device in an image' run --complete --image image script
run 'a device in a folder' run --complete --state folder script
python3 -c "
from tpmsim.model import image
from tpmsim.model.machine import Model
from tpmsim.standard import Profile
open('complete', 'wb').write(image.image(Model(profile=Profile.COMPLETE)))
"
run 'an image of the complete profile' run --image complete script
[ -e image ] || [ -e folder ] || echo 'neither is there'
run 'a command of both' asm --complete 'GetRandom 4'
run 'a command of neither' asm --complete 'FirmwareRead 0'
run 'a bad field' asm --complete 'ClockSet OWNER pw:- now'
"$program" lines | grep -cE '^(StirRandom|GetTestResult|ClockSet|ClockRateAdjust|IncrementalSelfTest|TestParms|Hash)( |$)' || true

echo '== words that only these commands have'
while IFS= read -r line; do
    run "$line" asm --complete "$line"
done <<'lines'
IncrementalSelfTest -
IncrementalSelfTest 4
IncrementalSelfTest 0x4+0xb
IncrementalSelfTest 0004+0x00000B+65535
IncrementalSelfTest 65536
IncrementalSelfTest 0x10000
IncrementalSelfTest 4+99999999999999999999999
IncrementalSelfTest 65536+x
IncrementalSelfTest x+65536
IncrementalSelfTest 4+
IncrementalSelfTest +4
IncrementalSelfTest 4++5
IncrementalSelfTest 4,5
IncrementalSelfTest -+4
IncrementalSelfTest sha1
IncrementalSelfTest 0x
IncrementalSelfTest
IncrementalSelfTest 4 5
TestParms -
TestParms 00080005000b
TestParms 00080005000B
TestParms 00
TestParms 000
TestParms 0x08
TestParms -00
TestParms sha1
TestParms
TestParms 0008 0010
Hash 616263 sha256 NULL
Hash 616263 sha256 OWNER
Hash 616263 sha256 LOCKOUT
Hash 616263 sha1 ENDORSEMENT
Hash 616263 sha1 PLATFORM
Hash - null 4000000c
Hash - sha1 FFFFFFFF
Hash - sha1 null
Hash - sha1 4000000
Hash - sha1 40000001a
Hash - sha1 0x40000001
Hash - sha1 1
Hash - sha1 -
Hash - sha1
Hash - sha1 NULL NULL
lines
run 'parameters of 4,087 bytes' asm --complete "TestParms $(printf '%08174d' 0)"
