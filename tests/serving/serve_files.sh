# Tests the files of a served device: links, files that are removed or replaced while the device is served, and
# random bytes that run out.
tests=$(cd "$(dirname "$0")/.." && pwd -P)
. "$tests/common/cases.sh"
. "$tests/common/served.sh"

startup=$(words 'Startup 0')
change=$(words 'HierarchyChangeAuth OWNER pw:- 6f776e')
back=$(words 'HierarchyChangeAuth OWNER pw:6f776e -')

# tried LABEL IMAGE: runs `serve` with this image. It exits without accepting a connection.
tried() {
    run "$1" serve --socket socket --image "$2" --entropy entropy --locality 0 --connections 0
}

# The image is a link. The device is read from the link's target. When it is saved, a new file replaces the
# link, and the target stays unchanged.
begin 1
talk 'an authorization value' 4096 "$startup" "$change"
ended 'one connection'
mv image target
cp target kept
ln -s target link
image='link'
begin 1
talk 'a link to the image: the value is asked for' 4096 "$startup" "$change" "$back"
ended 'one connection'
echo "the link is a $(stat -c %F link)"
cmp target kept && echo 'what it led to is as it was'
rm link
ln -s nowhere link
begin 1
talk 'a link to nowhere: a new device' 4096 "$startup" "$change"
ended 'one connection'
echo "the link is a $(stat -c %F link)"
[ ! -e nowhere ] || echo 'nowhere is there'
image=
mkdir folder
ln -s folder leads_to_folder
ln -s itself itself
tried 'a link to a folder' leads_to_folder
tried 'a link to itself' itself

# meanwhile LABEL LINE: runs the shell line LINE while a connection is served.
meanwhile() {
    begin 1
    echo "$1:"
    python3 "$tests/common/clients.py" during socket "$startup" "$2" | sed 's/^/    /'
    ended 'one connection'
}

# The image is removed or blocked while the device is served. If the image was removed, it is written again. If
# it cannot be written, the program reports that.
cp kept image
meanwhile 'the image is removed' 'rm image'
[ ! -f image ] || echo 'the image is there again'
meanwhile 'a folder takes the place of the image' 'rm image; mkdir image'
rmdir image
mkdir state
image=state/image
meanwhile 'the folder of the image is removed' 'rm -r state'
[ ! -e state ] || echo 'the folder is there again'
image=

# The socket file is removed, or replaced by a folder, while the device is served. Every connected client is
# served, even one that is still in the queue. The program does not remove a folder at the socket's path.
for kind in removed folder; do
    rm -f image
    begin 2
    echo "two clients, and their socket's path: $kind"
    python3 "$tests/common/clients.py" "$kind" socket "$startup" | sed 's/^/    /'
    ended 'two connections'
done
rmdir socket

# Another file, or another run's socket, replaces the socket. At the end, the program does not remove that file
# or socket.
rm -f image
meanwhile 'a file takes the place of the socket' 'rm socket; echo taken >socket'
cat socket
rm -f socket image
meanwhile 'another run takes the place of the socket' "rm socket
    '$program' serve --socket socket --image image2 --entropy entropy --locality 0 \
        --connections 1 >'$room/others' 2>&1 & until [ -S socket ]; do sleep 0.01; done"
talk 'that run is answered' 4096 "$startup"
until [ ! -e socket ]; do sleep 0.01; done
cat "$room/others"
echo 'it has removed its socket'

# The random bytes suffice to manufacture the device and for two commands, but not for a third one. They run out
# during the second connection. The effects of the earlier commands are saved.
mv entropy enough
head -c 868 enough >entropy
rm -f image
begin 3
talk 'random bytes for the first connection' 4096 "$startup"
talk 'and for one command of the second' 4096 "$change" "$back"
ended 'three connections'
mv enough entropy
begin 1
talk 'what that command did was saved' 4096 "$startup" "$back"
ended 'one connection'
