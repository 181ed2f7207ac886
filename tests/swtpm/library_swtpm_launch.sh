# Tests a dynamic launch of a device in swtpm, with TPM_IO_Hash_Start, Data and End. PCR 17 must have the value
# that Python's hashlib computes, for texts of each length modulo the block size of SHA-1 and SHA-256. See
# swtpm/caller.c.
tests=$(cd "$(dirname "$0")/.." && pwd -P)
. "$tests/common/cases.sh"
. "$tests/common/swtpm.sh"
one=0000000000000000000000000000000000000000000000000000000000000001

label 'before TPM2_Startup'
play <<END
on
hash start
hash data 61
hash end
established
END

label 'a launch, which is told until it is taken back from locality 3 or 4'
play <<END
on
do Startup 0
established
loc 4
do PCR_Extend 00000013 pw:- sha256:$one
loc 0
hash start
hash data 61
do PCR_Read sha256:17,18,19,20,21,22
hash data 6263
hash data
hash end
hash end
do PCR_Read sha1:17+sha256:17,22
established
reset
loc 2
reset
save launched
get permanent permanent
loc 3
reset
established
save taken_back
loc 4
reset
off
established
END

label 'it is told in another process, and that it was taken back'
play <<END
set permanent permanent
set volatile launched
on
established
do PCR_Read sha256:17
set volatile taken_back
off
set permanent permanent
set volatile taken_back
on
established
END

label 'there is none any more once the power was off'
play <<END
set permanent permanent
set volatile launched
on
established
off
established
on
established
END

label 'a command of no bytes from locality 4 is no launch'
play <<END
on
do Startup 0
loc 4
cmd
save volatile
off
set volatile volatile
on
established
END

label 'a state that is not written'
play <<END
on
store fails
do Startup 0
hash start
END

# The update counter of the PCRs counts 2 changes for each reset or extend of a PCR, and a launch has 6 resets and one
# extend. At its end, the device answers FAILURE. The device goes on, and its record has each command.
label 'a launch that the device refuses, because the update counter can count no, 2, 12, or 14 changes'
rm -f permall permanent
cc -I"$(dirname "$TPMSIM_ARCHIVE")" -o "$room/opened" "$tests/common/opened.c" "$TPMSIM_ARCHIVE" || exit 1
play <<END
on
do Startup 0
loc 4
do PCR_Extend 00000011 pw:- sha256:$one
loc 0
save launched
get permanent permanent
END
TPMSIM_RECORD=.
export TPMSIM_RECORD
for left in 0 2 12 14; do
    rm -f boot-*.tpm
    python3 "$tests/swtpm/volatile_states.py" count launched "$left" counted
    echo "$left changes"
    play <<END
set permanent permanent
set volatile counted
on
hash start
hash data 61
hash end
hash end
established
do PCR_Read sha256:17,18
hash start
established
off
on
do Startup 0
hash start
hash data 61
hash end
do PCR_Read sha256:17,18
END
    "$room/opened" boot-1.tpm boot-2.tpm
    echo "$(grep -c '^cmd' boot-1.tpm) commands are recorded"
done
unset TPMSIM_RECORD

label 'texts of each length from 0 to 130 bytes, and of 4,000 and 100,000'
python3 - <<'END'
import hashlib
import subprocess
import sys

room = ".."
lengths = [*range(131), 4000, 100_000]
lines, wanted = ["on", "cmd 80010000000c000001440000"], []
for length in lengths:
    text = bytes((7 * place + length) % 251 for place in range(length))
    lines += ["hash start"]
    pieces = [text[place : place + 4096] for place in range(0, length, 4096)]
    lines += [f"hash data {piece.hex()}" for piece in pieces]
    lines += ["hash end", "cmd 80010000001a0000017e00000002000403000002000b03000002"]
    values = [
        hashlib.new(name, bytes(size) + hashlib.new(name, text).digest()).digest()
        for name, size in (("sha1", 20), ("sha256", 32))
    ]
    wanted += [b"\0\x14".hex() + values[0].hex() + b"\0\x20".hex() + values[1].hex()]
for kind, caller in (("swtpm", "caller"), ("sanitized", "caller.sanitized")):
    words = [f"{room}/{caller}", f"{room}/{kind}/libtpms.so.0"]
    given = subprocess.run(words, input="\n".join(lines) + "\n", text=True, capture_output=True, timeout=3600)
    values = [line[-len(wanted[0]) :] for line in given.stdout.split() if line.startswith("8001") and len(line) > 100]
    print(f"{len(values)} launches, {sum(a != b for a, b in zip(values, wanted, strict=True))} wrong")
END
