# Checks that `hosts/build.sh tcti` produces the same bytes each time, and which names the module exports. If
# something that hosts/build.sh needs is missing, it must report that.
tests=$(cd "$(dirname "$0")/.." && pwd -P)
. "$tests/common/cases.sh"
. "$tests/common/library.sh"
needs cc nm objdump tss2/tss2_tcti.h
. "$tests/common/attached.sh"

# make TOP FOLDER: builds everything in FOLDER from the sources in TOP.
make() {
    TPMSIM_ARCHIVE=$archive "$1/hosts/build.sh" tcti "$2" 2>&1 |
        sed -e "s,^[^:]*build.sh: ,," -e "s,$room,ROOM,g"
}

module=libtss2-tcti-tpmsim.so.0
top=$tests/..
make "$top" first
mkdir "$room/other"
cp -R "$top/hosts" "$room/other/"
(umask 077 && make "$room/other" second/folder)
ls first
for file in "$module" tpmsim-power; do
    cmp "first/$file" "second/folder/$file" && echo "$file: the same bytes each time"
done
echo 'the module shows:'
nm --dynamic --defined-only --format=posix "first/$module" | cut -d ' ' -f 1
echo 'the module needs:'
objdump -p "first/$module" | sed -n 's/^ *\(NEEDED\|SONAME\) */\1 /p'
objdump -h "first/$module" | grep -c 'build-id\|debug_info'
nm "first/$module" 2>&1 | sed 's/^nm: //'
echo 'tpmsim-power:'
mkdir empty
attach ask ask
"$room/ask" state=kept 80010000000c000001440000 80010000000c0000017b0000
for words in '' 'one two' '--cut kept' '--frob kept' 'kept --keep' 'kept --keep 100' 'kept --keep x' --help none empty kept 'kept --keep 1'; do
    # shellcheck disable=SC2086 # word splitting is intended
    first/tpmsim-power $words
    echo "status $?"
done 2>&1
ls empty
ls kept
"$room/ask" state=kept 80010000000c0000017b0000
echo 'tpmsim-power with a journal that is cut, and with one that is damaged:'
"$room/ask" state=kept 80010000000c000001440000
cp kept/journal journal
for words in kept 'kept --cut'; do
    head -c -1 journal >kept/journal
    # shellcheck disable=SC2086 # word splitting is intended
    first/tpmsim-power $words
    echo "status $?"
    { head -c -2 journal && printf xx; } >kept/journal
    cp kept/journal damaged
    # shellcheck disable=SC2086 # word splitting is intended
    first/tpmsim-power $words
    echo "status $?"
    cmp -s damaged kept/journal && echo 'the journal is as it was'
done 2>&1
"$room/ask" state=kept 80010000000c0000017b0000
rm journal damaged
echo 'faults:'
for words in '' tcti 'none third'; do
    # shellcheck disable=SC2086 # word splitting is intended
    "$top/hosts/build.sh" $words 2>&1 | sed 's,^[^:]*build.sh: ,,'
done
archive=$room/none
make "$top" third
: >"$room/empty.a"
archive=$room/empty.a
make "$top" third
archive=$(readlink -f "$program")
make "$top" "$room/empty.a/folder" | tail -n 1
archive=$dist/libtpmsim.a
make "$room/other" "$room/other/hosts"
make "$room/other" "$room/other/hosts/tcti/new"
diff -r "$top/hosts" "$room/other/hosts"
ls
