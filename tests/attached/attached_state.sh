# The program `tpmsim` and the host in C use one device's folder at the same time. Each executes the commands
# that the other added to the journal. Both report the same errors. See attached/ask.c.
tests=$(cd "$(dirname "$0")/.." && pwd -P)
. "$tests/common/cases.sh"
. "$tests/common/library.sh"
. "$tests/common/attached.sh"
shipped=$dist/tpmsim
"$shipped" power --help >"$room/help" 2>&1 || skip 'the program has no kept device'

attach ask ask

# words LINE: assembles a command in words, and prints its buffer.
words() {
    "$shipped" asm "$1"
}

extend=$(words "PCR_Extend 00000010 pw:- sha256:$(printf '%064d' 1)")
read=$(words 'PCR_Read sha256:16')
printf 'do PCR_Extend 00000010 pw:- sha256:%064d\ndo PCR_Read sha256:16\n' 1 >script

echo 'begun in C'
"$room/ask" state=state "$(words 'Startup 0')" "$extend" "$read"
"$shipped" run --state state script
"$room/ask" state=state "$read" "$extend"
"$shipped" script state >told
grep -c '^cmd' told
"$shipped" power state
"$room/ask" state=state "$read" "$(words 'Startup 0')"
"$room/ask" state=state power
"$shipped" run --trace --state state script

echo 'begun by the program'
printf 'do Startup 0\n' | "$shipped" run --state another -
"$room/ask" state=another "$extend"
"$shipped" run --state another script
stat -c '%n %a' another another/* | LC_ALL=C sort

echo 'both at once'
for process in 1 2; do
    i=0
    while [ "$i" -lt 20 ]; do
        echo "do PCR_Extend 00000017 pw:- sha256:$(printf '%064d' 1)"
        i=$((i + 1))
    done | "$shipped" run --state another - >"$room/run.$process" &
done
i=0
while [ "$i" -lt 20 ]; do
    "$room/ask" state=another "$(words 'PCR_Extend 00000017 pw:- sha256:'"$(printf '%064d' 1)")"
    i=$((i + 1))
done >"$room/asked"
wait
cat "$room/run.1" "$room/run.2" "$room/asked" | uniq -c | tr -s ' '
grep -c '^cmd' another/journal

echo 'a last entry that is not whole'
truncate -s -20 another/journal
"$room/ask" state=another "$read" | cut -c 1-20
truncate -s -20 another/journal
"$shipped" run --state another script 2>&1 | sed "s/^\(80[0-9a-f]\{18\}\).*/\1/"
grep -c '^cmd' another/journal
