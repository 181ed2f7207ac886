# Tests the log of a device that is served with --log. `tpmsim run` plays the log, and prints the responses
# that the clients received. common/logged.py checks this for sessions, NV indices, lockout, cut logs and
# killed programs.
tests=$(cd "$(dirname "$0")/.." && pwd -P)
. "$tests/common/cases.sh"
. "$tests/common/served.sh"

startup=$(words 'Startup 0')
random=$(words 'GetRandom 8')
change=$(words 'HierarchyChangeAuth OWNER pw:- 6f776e')

# A device that does not have an image yet. An incomplete command is not logged.
umask 000
options='--log log'
begin 3
talk 'a new device' 7 "$startup" "$random" "$change"
talk 'a size that no command has, and more behind it' 4096 "$random" 800100000000 "$startup"
talk 'a second connection' 4096 "$random" 8001
ended 'three connections'
stat -c 'the log: %A' log
grep -v '^# ' log | sed 's/^wait .*/wait, which is the host'"'"'s/'
run 'the log on a new device with these random bytes' run --image anew --entropy entropy log

# A program that is started with an existing image writes a separate log.
cp image start
cp image played
cp image traced
options='--log second'
begin 1
talk 'the device behind a power cycle' 4096 "$startup" "$change" "$random"
ended 'one connection'
run 'its log on the image of the start' run --image played second
"$program" run --trace --image traced second >trace
for reader in audit explain; do
    python3 "$tests/../tools/$reader.py" second trace --image start >"$room/read"
    echo "the log is read by $reader: status $?"
    python3 "$tests/../tools/$reader.py" second trace >"$room/alone"
    echo "the same by the image in the log: status $?"
    cmp "$room/read" "$room/alone"
done

# If there is a file at the path of the log, it stays unchanged, and no device is served.
options=''
tried() {
    run "$1" serve --socket socket --image image --entropy entropy --locality 0 --connections 1 \
        --log "$2"
    [ ! -e socket ] || echo '    the socket is still there'
}
cp image kept
cp log kept_log
ln -s log link
ln -s nowhere dangling
mkfifo pipe
mkdir folder
tried 'a log that is there' log
tried 'a link to it' link
tried 'a link to nowhere' dangling
tried 'a pipe' pipe
tried 'a folder' folder
tried 'in no folder' nowhere/log
tried 'in a folder that is a file' log/log
tried 'the image' image
tried 'the socket' socket
tried 'a full device' /dev/full
tried 'no name' ''
cmp log kept_log && cmp image kept && echo 'the log and the image are as they were'
[ ! -e nowhere ] || echo 'nowhere is there'

rm -rf ./*
python3 "$tests/common/logged.py" "$program" 12
