# Tests a device that is served on a socket: how a stream of bytes is divided into commands, what the image
# keeps from one run to the next, and how the program ends.
tests=$(cd "$(dirname "$0")/.." && pwd -P)
. "$tests/common/cases.sh"
. "$tests/common/served.sh"

startup=$(words 'Startup 0')
random=$(words 'GetRandom 4')
change=$(words 'HierarchyChangeAuth OWNER pw:- 6f776e')

# Commands are sent all at once, byte by byte, and three bytes at a time.
for size in 4096 1 3; do
    rm -f image
    begin 1
    talk "a new device, pieces of $size" "$size" "$startup" "$random" "$random"
    ended 'one connection'
done

# Ten commands are sent before the first response is read.
rm -f image
begin 1
talk 'ten commands at once' 4096 "$startup" "$random" "$random" "$random" "$random" "$random" \
    "$random" "$random" "$random" "$random"
ended 'one connection'

# A connection ends in the middle of a command. The incomplete command is dropped, and the device serves the
# next connection. The effects of the complete commands remain.
rm -f image
begin 3
talk 'half a command' 4096 "$startup" 80010000
talk 'nothing' 4096
talk 'the next connection' 4096 "$startup" "$random"
ended 'three connections'

# Two connections send their bytes alternately. The first connection is served until it ends, and then the
# second. Each client gets the responses to its own commands.
rm -f image
begin 2
echo 'two connections that take turns with each byte:'
python3 "$tests/common/clients.py" turns socket "$startup" "$random" "$random" | sed 's/^/    /'
ended 'two connections'

# A command whose size field is 9 or 4,097 is answered, and then the connection is closed.
rm -f image
begin 2
talk 'a size of 9' 4096 "$startup" 800100000009 "$random"
talk 'a size of 4,097' 4096 800100001001 "$random"
ended 'two connections'

# The next run still has the non-volatile state, here ownerAuth. Sessions are lost between runs.
rm -f image
begin 1
talk 'an authorization value' 4096 "$startup" "$change"
ended 'one connection'
begin 1
talk 'it is asked for in the next run' 4096 "$startup" "$change" \
    "$(words 'HierarchyChangeAuth OWNER pw:6f776e -')"
ended 'one connection'

# A killed run left an unfinished image. The next run replaces it.
echo unfinished >image.new
begin 1
talk 'a new image left by a crash' 4096 "$startup"
ended 'one connection'
[ ! -e image.new ] || echo 'image.new is still there'

# With --connections 0, the socket is made and removed, and nothing is saved.
rm -f image
begin 0
ended 'no connection'
[ ! -e image ] || echo 'an image is there'

# A socket file left by an earlier run is replaced. A socket on which a process still listens is not replaced,
# and neither is any other file. To find out whether a process listens, the program connects to the socket. This
# counts as one of that process's connections.
begin 2
until [ -S socket ]; do sleep 0.01; done
run 'a socket that is answered' serve --socket socket --image other --entropy entropy \
    --locality 0 --connections 1
talk 'the device of that socket' 4096 "$startup"
wait "$!"
python3 -c "import socket; socket.socket(socket.AF_UNIX).bind('socket')"
begin 1
talk 'a socket that was left' 4096 "$startup"
ended 'one connection'
echo file >socket
begin 1
ended 'a file in place of a socket'
rm -f socket
