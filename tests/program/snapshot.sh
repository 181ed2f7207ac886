# Writes the state text of a device in a folder, and restores it. The device has an HMAC session, a policy
# session with some of its assertions, a transient object and an extended PCR. The restored device must continue
# like the original one. If a text is refused, the folder must stay unchanged. common/restored_folders.py kills
# `restore` at each of its system calls.
tests=$(cd "$(dirname "$0")/.." && pwd -P)
. "$tests/common/cases.sh"
needs cc nm python3

echo 'do Startup 0
wait 1500
loc 3
do PCR_Extend 00000014 pw:- sha256:0000000000000000000000000000000000000000000000000000000000000002
loc 0
entropy 0102030405060708
do StartAuthSession NULL NULL 00000000000000000000000000000000 - 0 null sha256
entropy 1112131415161718
do StartAuthSession NULL NULL 00000000000000000000000000000000 - 1 null sha256
do PolicyCommandCode 03000001 0x17e
do CreatePrimary OWNER pw:- 0006706172656e740000 0025000b0003047200000006008000430000 - -' >before
echo 'do PolicyGetDigest 03000001
do PolicyAuthValue 03000001
do PolicyGetDigest 03000001
do ReadPublic 80000000
do GetCapability 1 02000000 8
do PCR_Read sha256:20
wait 250
do ReadClock
entropy 2122232425262728
do StartAuthSession NULL NULL 00000000000000000000000000000000 - 0 null sha256' >after
echo 'do GetRandom 4' >one

# same LABEL FILE FILE: prints whether two files are the same.
same() {
    if cmp "$2" "$3"; then echo "$1: the same"; else echo "$1: NOT THE SAME"; fi
}

# same_device LABEL FILE FILE: prints whether two state texts are the same. It ignores the digest at the end,
# and the start number of the completing layer, which is 176 bytes before the end. A restored device has a new
# start number.
same_device() {
    for text in "$2" "$3"; do
        head -c -176 "$text" >"$text.before"
        tail -c 168 "$text" | head -c 136 >"$text.after"
    done
    if cmp "$2.before" "$3.before" && cmp "$2.after" "$3.after"; then echo "$1: the same"; else echo "$1: NOT THE SAME"; fi
}

"$program" run --trace --state first before | sed -n 's/ .* \(ok\|[GAM][0-9]*\) / \1 /p'
cp first/journal journal
"$program" snapshot first >text || echo 'there is no text'
same 'the journal after a snapshot' journal first/journal
"$program" snapshot first >again
same 'another snapshot' text again

# If the folder does not exist, `restore` makes it.
run 'a new folder' restore second text
stat -c '%n %a' second second/* | LC_ALL=C sort
head -c 19 second/journal && echo
"$program" snapshot second >again
same_device 'the snapshot of what was restored' text again
if cmp -s text again; then echo 'the layer has its old start'; fi
"$program" run --trace --state first after >answers
"$program" run --trace --state second after >again
same 'what both answer then' answers again
sed -n 's/ .* \(ok\|[GAM][0-9]*\) / \1 /p' answers
"$program" snapshot first >later
"$program" snapshot second >again
same_device 'the snapshots then' later again

# A journal that begins with a state text can be executed again, and printed as a script.
"$program" replay second/journal >again && same 'what is answered again' answers again
"$program" script second | sed -n '1s/\(tpmsim v[0-9a-f]*\) .*/\1/p; 3p'

# The device is replaced while a process uses it. That process continues with the restored device.
mkfifo input
"$program" run --state first - <input >"$room/held" &
exec 3>input
cat one >&3
while [ ! -s "$room/held" ]; do sleep 0.05; done
run 'over a device' restore first text
cat after >&3
exec 3>&-
wait
"$program" run --state second one >again
"$program" run --state third one >again 2>&1
sed '1d' "$room/held" >again
grep -v '[^0-9a-f]' answers >told
same 'what the process that held it answers then' told again

# After a power cycle, an earlier state text is restored. The restored device has the sessions again.
run 'a power cycle' power first
run 'what was before' restore first text
"$program" run --trace --state first after >again
same 'what is answered then' answers again

# bent LABEL LINE: changes a state text by executing the Python code LINE, and tries to restore it. The folder
# must stay unchanged.
bent() {
    python3 -c "
import hashlib
text = bytearray(open('text', 'rb').read())
$2
open('bent', 'wb').write(text)
"
    cp first/journal journal
    run "$1" restore first bent
    cmp journal first/journal
    run "$1, no folder" restore none bent
    [ ! -e none ] || echo 'a folder was made'
}
right='text[-32:] = hashlib.sha256(text[:-32]).digest()'
bent 'too few bytes' 'del text[41:]'
bent 'another word' 'text[3] = 0x49'
bent 'another version' 'text[5] = 4'
bent 'one byte fewer' 'del text[-1:]'
bent 'one byte more' 'text += bytes(1)'
bent 'more bytes than any text has' 'text += bytes(100_000)'
bent 'a byte turned' 'text[100] ^= 1'
bent 'no such state' "text[10] ^= 1; $right"
bent 'nothing' 'text = bytes()'
"$program" run --image image before >"$room/output"
run 'an image' restore first image

# journal_head TEXT: prints the head of a journal with the bytes in the file TEXT. Its checksums are correct.
journal_head() {
    python3 -c "
import sys

def fnv(data, total=0xCBF29CE484222325):
    for byte in data:
        total = (total ^ byte) * 0x100000001B3 % 2**64
    return total

text = open(sys.argv[1], 'rb').read()
mark = bytes(8) + len(text).to_bytes(4, 'big') + fnv(text).to_bytes(8, 'big')
print(f'# tpmsim journal 2 {mark.hex()} {fnv(mark):016x}\n# {text.hex()}')
" "$1"
}

# refused_head LABEL: tries to open devices whose journal has the head `none`, which must stay unchanged.
refused_head() {
    run "a journal of $1" replay none
    cp -R second bent_state && cp none bent_state/journal
    run "a device of $1" power bent_state
    run 'its snapshot' snapshot bent_state
    cmp none bent_state/journal && rm -r none bent_state
}

bent 'a text of version 1' "text[5] = 1; $right"
journal_head bent >none
refused_head 'version 1'
printf none >>bent
journal_head bent >none
refused_head 'no state'

# Other faults.
run 'no such text' restore first nothing
run 'a folder in the place of the text' restore first second
run 'no device' snapshot none
mkdir empty
run 'an empty folder' snapshot empty
run 'in an empty folder' restore empty text
ln -s first link
run 'a link to the folder' restore link text
"$program" run --state second one >again
python3 -c "
text = bytearray(open('second/journal', 'rb').read())
text[-3] ^= 1
open('second/journal', 'wb').write(text)
"
run 'damage' snapshot second
run 'over damage' restore second text
"$program" snapshot second >again && same_device 'what is there then' text again
rm second/journal && ln -s ../first/journal second/journal
run 'a link in the place of the journal' restore second text
run 'no words' restore
run 'no text' restore first
run 'two folders' snapshot first second

python3 "$tests/common/restored_folders.py" "$program"
