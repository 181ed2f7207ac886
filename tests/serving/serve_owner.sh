# Checks that only the owner of a served device may access its files, whatever the umask: the image, which
# contains the device's seeds and authorization values, and the socket. Also tests valid and invalid paths of
# the socket.
tests=$(cd "$(dirname "$0")/.." && pwd -P)
. "$tests/common/cases.sh"
. "$tests/common/served.sh"

startup=$(words 'Startup 0')

for mask in 000 022 077; do
    umask "$mask"
    rm -f image
    begin 1
    there
    echo "umask $mask: the socket is $(stat -c %A socket)"
    talk 'a connection' 4096 "$startup"
    ended 'one connection'
    # shellcheck disable=SC2012 # the files have simple names
    echo "umask $mask: the image is $(stat -c %A image), and beside it: $(ls -A | tr '\n' ' ')"
done
umask 000

# An image that everybody may read becomes private after the first connection.
chmod 666 image
begin 1
talk 'an image that everybody may read' 4096 "$startup"
ended 'one connection'
stat -c %A image

# At the path of the new image, first there is a file that a killed run left, and then a link. The link's target
# must stay unchanged.
echo untouched >target
echo unfinished >image.new
begin 1
talk 'a file at the path of the new image' 4096 "$startup"
ended 'one connection'
stat -c %A image
for leads_to in target nowhere; do
    ln -s "$leads_to" image.new
    begin 1
    talk "a link to $leads_to at the path of the new image" 4096 "$startup"
    ended 'one connection'
    stat -c '%A %F' image
    [ ! -e image.new ] && [ ! -L image.new ] || echo 'image.new is still there'
done
[ ! -e nowhere ] || echo 'nowhere is there'
cat target

# tried LABEL PATH: runs `serve` with the socket at this path. It exits without accepting a connection.
tried() {
    run "$1" serve --socket "$2" --image image --entropy entropy --locality 0 --connections 0
}

# A link at the socket's path is not a socket, and is not replaced.
ln -s nowhere link
tried 'a link in place of a socket' link
[ -L link ] || echo 'the link is gone'

# The path of a socket may have at most 107 bytes, and the path of the socket's folder at most 103.
folder_of_103=$(printf '%0102d' 0)
mkdir "$folder_of_103" "$folder_of_103"0
tried 'a name of 107 bytes' "$(printf '%0107d' 0)"
tried 'a name of 108 bytes' "$(printf '%0108d' 0)"
tried 'a folder of 103 bytes' "$folder_of_103/sock"
tried 'a folder of 104 bytes' "$folder_of_103"0/sck
tried 'no path' ''
ls -A "$folder_of_103" "$folder_of_103"0

# A run first binds its socket in a temporary folder next to the socket's path, and then removes that folder.
# Folders that killed runs have left are not removed.
mkdir .0 .1
tried 'two folders that were left' socket
ls -Ad .[0-9]

# Two runs begin at the same time with the same socket path. Only one of them continues.
two() {
    timeout 600 "$program" serve --socket socket --image "$1" --entropy entropy --locality 0 \
        --connections 2 >"$room/$1" 2>&1
    echo "status $?, $(told "$room/$1")" >>"$room/two"
}
two first &
first=$!
two second &
there
until [ -s "$room/two" ]; do sleep 0.01; done
talk 'two runs with one socket' 4096 "$startup"
wait "$first" "$!"
sort "$room/two"
