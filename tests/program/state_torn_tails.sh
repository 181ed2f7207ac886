# A crash of the host can leave three things at the end of a device's journal: an incomplete entry, an
# incomplete entry followed by zeros, or only zeros. The next command or power cycle removes these bytes, and
# reports their number on standard error. Anything else is damage, which makes the program refuse the journal
# and leave it unchanged. `power --cut` then drops everything after the last complete entry before the damage,
# and reports the dropped size.
tests=$(cd "$(dirname "$0")/.." && pwd -P)
. "$tests/common/cases.sh"

echo 'do Startup 0
do GetRandom 4
do GetRandom 8' >script
echo 'do GetRandom 2' >one
echo 'do Startup 0' >start
run 'a device' run --state state script
cp -R state kept

zeros() {
    head -c "$1" /dev/zero
}

# ending WHAT BYTES COMMAND..: makes a journal, cuts off its last BYTES bytes, and appends the output of
# COMMAND.
ending() {
    what=$1
    bytes=$2
    shift 2
    rm -rf state && cp -R kept state
    truncate -s "-$bytes" state/journal
    "$@" >>state/journal
    cp state/journal before
}

# entries: prints the number of commands in the script that `tpmsim script` makes from the journal.
entries() {
    "$program" script state >told 2>"$room/error" || echo "script: status $?, $(told "$room/error")"
    echo "    entries: $(grep -c '^cmd' told)"
}

# cut WHAT BYTES COMMAND..: makes a journal with `ending`, and prints how a power cycle and a command change it.
cut() {
    ending "$@"
    run "$what, power" power state
    cp before state/journal
    entries
    cmp before state/journal
    run "$what, run" run --state state one
    run 'the next run' run --state state one
    entries
}

# refused WHAT BYTES COMMAND..: like `cut`, but for a journal whose end is damaged.
refused() {
    ending "$@"
    run "$what, run" run --state state one
    run "$what, power" power state
    cmp before state/journal
    run "$what, power --cut" power --cut state
    run 'the next run' run --state state start
    entries
}

cut 'the front of an entry' 1 true
cut 'one zero' 0 zeros 1
cut 'as many zeros as a mark has bytes' 0 zeros 72
cut 'a page of zeros' 0 zeros 4096
cut 'more zeros than are read at once' 0 zeros 600000
cut 'a zero in the place of the last byte' 1 zeros 1
cut 'the front of a mark, and zeros' 150 zeros 3000
cut 'a mark, the front of its lines, and zeros' 20 zeros 100
cut 'the front of an entry, and more zeros than are read at once' 20 zeros 600000
cut 'fewer bytes than a mark has, whatever they are' 0 printf x
cut 'fewer bytes than a mark says, whatever they are' 20 printf z
refused 'fewer bytes than a mark says, and a line end in a wrong place' 20 echo
refused 'as many bytes as a mark has, and no zeros' 0 printf '%072d' 1
refused 'as many bytes as a mark says, and no entry' 20 printf '%020d' 1
refused 'zeros, and a byte that is none' 0 sh -c 'head -c 4096 /dev/zero; printf x'
refused 'more zeros than are read at once, and a byte that is none' 0 \
    sh -c 'head -c 600000 /dev/zero; printf x'
refused 'zeros, and an entry' 0 sh -c 'head -c 72 /dev/zero; tail -n 5 kept/journal'
refused 'an entry twice' 0 tail -n 5 kept/journal
