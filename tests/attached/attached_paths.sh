# Puts links, pipes, folders and sockets at the paths of a device that is kept in a folder. The device must
# refuse them, and leave them unchanged. See attached/ask.c.
tests=$(cd "$(dirname "$0")/.." && pwd -P)
. "$tests/common/cases.sh"
. "$tests/common/library.sh"
. "$tests/common/attached.sh"
needs python3

# shellcheck disable=SC2086 # word splitting is intended
attach ask ask $sanitizers

startup=80010000000c000001440000
get_random=80010000000c0000017b0000

# ask LABEL WORDS ACT..: runs attached/ask.c on a device for at most ten minutes, and prints the result.
ask() {
    label=$1
    shift
    status=0
    timeout 600 "$room/ask" "$@" >"$room/asked" 2>&1 || status=$?
    echo "$label: status $status, $(tail -n 1 "$room/asked")"
}

# Makes a device in the folder `state`, and starts it.
renew() {
    rm -rf state
    timeout 600 "$room/ask" state=state "$startup" >"$room/asked" || echo 'there is no state'
}

# listed FILE: lists the contents of the folder in FILE, each with its kind, its mode and, for a link, its
# target.
listed() {
    find . -printf '%P %y %m %l\n' | LC_ALL=C sort >"$1"
}

# put KIND PATH: creates a file, folder, link, pipe or socket at a path.
put() {
    case $1 in
    link) ln -s "$room/elsewhere" "$2" ;;
    'link to nothing') ln -s "$room/nothing" "$2" ;;
    pipe) mkfifo "$2" ;;
    folder) mkdir "$2" ;;
    socket) python3 -c 'import socket, sys; socket.socket(socket.AF_UNIX).bind(sys.argv[1])' "$2" ;;
    file) : >"$2" ;;
    esac
}

# refused KIND PATH WORDS ACT..: creates something of this kind at a path, and then tries to use the device.
# Prints whether all files stay unchanged.
refused() {
    kind=$1
    path=$2
    shift 2
    rm -rf "$path"
    put "$kind" "$path"
    cp -R state "$room/before" 2>/dev/null
    listed "$room/listed"
    ask "$kind" "$@"
    listed "$room/listed_behind"
    cmp "$room/listed" "$room/listed_behind"
    cmp "$room/elsewhere" "$room/elsewhere.kept"
    [ ! -e "$room/nothing" ] || echo 'a file was made behind a link'
    rm -rf "$path" "$room/before"
}

renew
cp state/journal "$room/elsewhere"
cp state/journal "$room/elsewhere.kept"
for name in journal lock; do
    echo "state/$name"
    for kind in link 'link to nothing' pipe folder socket; do
        renew
        refused "$kind" "state/$name" state=state "$get_random"
    done
done
echo 'state/journal.new'
for kind in link 'link to nothing' pipe folder socket; do
    renew
    refused "$kind" state/journal.new state=state power
    ask '    and behind it' state=state "$get_random"
done
echo 'state'
for kind in link 'link to nothing' pipe socket file; do
    refused "$kind" state state=state "$startup"
done
mkdir elsewhere
ln -s ../folder/elsewhere state
ask 'a link to a folder' state=state "$startup"
ask 'a link with a slash behind it' state=state/ "$startup"
ls elsewhere
rm state
ask 'a folder above that is not there' state=none/state "$startup"
ask 'a folder above that is a file' state="$room/elsewhere/state" "$startup" |
    sed "s,$room,ROOM,"
ask 'a name that is too long' "state=$(printf '%0300d' 0)" "$startup" | sed 's/00000*/LONG/'
ask 'a path that is too long' "state=$(printf '%05000d' 0)" "$startup"
ask 'a folder with slashes behind it' state=state// "$startup"
ls state
echo 'image'
rm -rf state
mkdir fresh
: >fresh/lock
for kind in link 'link to nothing' pipe folder socket file; do
    refused "$kind" image state=fresh,image=image "$startup"
done
rm -r fresh
ask 'no image' state=state,image=image "$startup"
ls state
head -c 100000 /dev/zero >image
ask 'an image of zeros' state=state,image=image "$startup"
python3 -c '
import sys
from tpmsim.model import image, machine
sys.stdout.buffer.write(image.image(machine.Model()))
' >image
ask 'an image' state=state,image=image "$startup"
rm image
ask 'a state that is there, and no image' state=state,image=image "$get_random"
ask 'a device in memory of no image' image=image "$startup"
echo 'a journal that goes while the device is open'
renew
ln state/journal another
ask 'it is still there under another name' state=state "$get_random"
rm state/lock
ask 'no lock' state=state "$get_random"
