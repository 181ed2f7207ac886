# Tests `--keep N`, which keeps N finished journals in the folder of a device, like the option keep=N of the
# module for libtss2.
tests=$(cd "$(dirname "$0")/.." && pwd -P)
. "$tests/common/cases.sh"
. "$tests/common/served.sh"

# journals: prints the journals in the folder, each with the number of commands that it contains.
journals() {
    for journal in state/journal*; do
        printf ' %s=%s' "${journal#state/}" "$(grep -c '^cmd' "$journal")"
    done
    echo
}

# asks COUNT WORDS..: runs a script of COUNT commands on the device in the folder, with these options.
asks() {
    count=$1
    shift
    while [ "$count" -gt 0 ]; do
        echo 'do GetRandom 4'
        count=$((count - 1))
    done | "$program" run --state state "$@" >answers || echo 'the run failed'
}

# Without `--keep`, no finished journal is kept.
asks 1
"$program" power state
journals

# Three journals are kept. The fourth power cycle removes the oldest one.
for count in 1 2 3 4 5; do
    asks "$count"
    "$program" power --keep 3 state
    journals
done
for number in 1 2 3; do
    "$program" replay "state/journal.$number" | grep -c GetRandom
done

# The numbers have a gap, which a killed process left. The journals with higher numbers are kept.
asks 6
rm state/journal.2
"$program" power state --keep=3
journals

# With a smaller N, the last of the N journals is replaced, and journals with higher numbers are kept.
asks 7
"$program" power --keep 1 state
journals

# The other subcommands that restart the journal.
asks 8 --keep 2
echo power | "$program" run --state state --keep 2
journals
"$program" snapshot state >text
asks 9
"$program" restore --keep 2 state text
journals
timeout 600 "$program" serve --socket socket --state state --keep 2 --connections 1 2>&1 &
talk 'a served device' 4096 "$(words 'GetRandom 4')"
wait
journals

# If a killed process has already linked the journal as a finished one, it is not linked again.
ln -f state/journal state/journal.1
asks 0
"$program" power --keep 3 state
journals

# If a folder or a link has the name of a finished journal, the power cycle fails. The journal stays unchanged,
# and the device continues.
asks 1
rm -f state/journal.[23] && mkdir state/journal.2 && echo >state/journal.3
run 'a folder in place of the second journal' power --keep 3 state
rm -r state/journal.[123] && mkdir state/journal.1
run 'a folder in place of the last journal' power --keep 3 state
rmdir state/journal.1 && ln -s journal state/journal.1
run 'a link in place of the last journal' power --keep 3 state
rm state/journal.1
journals
run 'nothing in the way' power --keep 3 state
journals

# N must be 0 to 99, and the option needs a device in a folder.
run 'keep 99' power --keep 99 state
run 'keep 100' power --keep 100 state
run 'keep -1' power --keep -1 state
run 'keep nothing' power --keep= state
run 'keep with an image' run --image image --keep 1 -
run 'keep without a place' run --keep 1 -
run 'keep with a served image' serve --socket socket --image image --entropy /dev/urandom --locality 0 \
    --connections 0 --keep 1
run 'keep of a snapshot' snapshot --keep 1 state
