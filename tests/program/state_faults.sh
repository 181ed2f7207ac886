# Checks that the program refuses to open a device in a folder in two cases: one of the device's paths is not
# a folder or file of the user, or the journal is damaged or missing. In both cases, the program must change
# nothing.
tests=$(cd "$(dirname "$0")/.." && pwd -P)
. "$tests/common/cases.sh"
needs python3

echo 'do Startup 0
do GetRandom 4
do GetRandom 8' >script
echo 'do GetRandom 2' >one
run 'a device' run --state state script
cp -R state kept

# If the folder has no device, `tpmsim run` makes one; every other subcommand fails.
run 'no folder, power' power none
run 'no folder, script' script none
mkdir empty
run 'an empty folder, power' power empty
run 'an empty folder, script' script empty
ls empty

# Links, folders and files of other wrong kinds at the paths of the device's files.
echo elsewhere >elsewhere
cp elsewhere elsewhere.kept
for name in journal lock journal.new; do
    for kind in link 'link to nothing' pipe folder; do
        rm -rf state && cp -R kept state && rm -f "state/$name"
        case $kind in
        link) ln -s ../elsewhere "state/$name" ;;
        'link to nothing') ln -s ../nothing "state/$name" ;;
        pipe) mkfifo "state/$name" ;;
        folder) mkdir "state/$name" ;;
        esac
        run "$name, a $kind" power state
        cmp elsewhere elsewhere.kept
        [ ! -e nothing ] || echo 'a file was made behind a link'
    done
done
rm -rf state && cp -R kept state
ln -s state link
run 'a link to the folder' run --state link one
run 'a link to the folder, with a slash' run --state link/ one
run 'a file in the place of the folder' run --state script one
run 'a folder above that is not there' run --state none/state one
# damage LABEL CODE: changes the journal's bytes by executing the Python code CODE, and prints whether the
# program leaves the file unchanged.
damage() {
    rm -rf state && cp -R kept state
    python3 -c "
path = 'state/journal'
text = bytearray(open(path, 'rb').read())
lines = text.splitlines(keepends=True)
$2
open(path, 'wb').write(text)
"
    cp state/journal before
    for words in 'run --state state one' 'power state' 'script state'; do
        # shellcheck disable=SC2086 # word splitting is intended
        timeout 600 "$program" $words >"$room/output" 2>"$room/error"
        echo "$1, ${words%% *}: status $?, $(cat "$room/error")"
        cmp before state/journal || cp before state/journal
    done
}
damage 'a byte of a command turned' 'text[-3] ^= 1'
damage 'a byte of a sum turned' 'text[len(text) - len(lines[-1]) - 60] ^= 1'
damage 'an entry left out' 'text = b"".join(lines[:7] + lines[12:])'
damage 'an entry doubled' 'text = b"".join(lines[:7] + lines[2:])'
damage 'a byte of the head turned' 'text[30] ^= 1'
damage 'a byte of the image turned' 'text[200] ^= 1'
damage 'no journal' 'text = b"something else\n"'
damage 'an empty file' 'text = b""'
damage 'a random byte turned' 'text = text.replace(b"entropy 00000000\n", b"entropy 00000001\n")'

# If the last entry is incomplete, its command was not answered. The program cuts this entry off before it
# writes the next one.
for count in 1 40 100 180; do
    rm -rf state && cp -R kept state
    truncate -s "-$count" state/journal
    "$program" script state >told || echo 'there is no script'
    echo "$count bytes cut: $(grep -c '^cmd' told) told"
    "$program" run --state state one >"$room/output" 2>"$room/error"
    echo "the next run: $(told "$room/error"), $(grep -c '^cmd' state/journal) in the journal"
    "$program" script state | tail -n 1
done
