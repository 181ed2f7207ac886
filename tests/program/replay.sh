# `replay` executes the commands of a journal or a log again. It prints the same traces and responses as `run
# --trace` did the first time. An incomplete last entry is ignored, because its command was not answered. If the
# text is damaged, or a response differs, the fault names the first line of the entry.
tests=$(cd "$(dirname "$0")/.." && pwd -P)
. "$tests/common/cases.sh"
needs python3

echo 'do Startup 0
wait 1500
loc 3
do PCR_Extend 00000011 pw:- sha256:0101010101010101010101010101010101010101010101010101010101010101
entropy 0123456789
do GetRandom 16
do PCR_Read sha256:17
cmd 80010000000a00000999' >script
"$program" run --trace --state state script >answers
"$program" replay state/journal >replayed && cmp answers replayed && wc -l <replayed

# The log of a served device, with the image from which the log begins.
head -c 4096 /dev/zero >entropy
"$program" serve --socket socket --image image --log log --entropy entropy --locality 3 \
    --connections 1 &
python3 "$tests/common/client.py" socket 4096 80010000000c000001440000 \
    80010000000c0000017b0004 >answers
wait
# The log has the times that the host's clock measured. Therefore the test does not compare them.
status=0
timeout 600 "$program" replay log >replayed 2>"$room/error" || status=$?
sed 's/ +[0-9]* / +TIME /' replayed >"$room/output"
report 'a log' "$status"
cat answers

echo 'do Startup 0
do GetRandom 4
do GetRandom 8' >script
"$program" run --state other script >answers

# changed LABEL LINES: changes a copy of the journal by executing the Python code LINES, and replays it. The
# Python function `answered` changes the checksum of an entry's response, and then updates the checksum in the
# entry's mark.
changed() {
    python3 -c "
lines = open('other/journal', 'rb').read().splitlines(keepends=True)

def answered(at, sum):
    _, mark, _ = lines[at].split()
    mark = mark[:-16] + sum
    total = int(lines[at - 5].split()[2], 16)
    for byte in bytes.fromhex(mark.decode()):
        total = (total ^ byte) * 0x100000001B3 % 2**64
    lines[at] = b'# %s %016x\n' % (mark, total)

$2
open('journal', 'wb').write(b''.join(lines))
"
    run "$1" replay journal
}
changed 'an entry that is cut' 'lines[-1] = lines[-1][:-3]'
changed 'zeros after the last entry' 'lines.append(bytes(5000))'
changed 'the second entry with another command' 'lines[11] = lines[11].replace(b"0004", b"0005")'
changed 'the second entry with another answer' 'answered(7, b"0123456789abcdef"); del lines[12:]'
changed 'an entry left out' 'del lines[2:7]'
changed 'no head' 'del lines[:1]'
changed 'no image' 'lines[1] = b"# 00\n"'
run 'no file' replay none
run 'no word' replay
