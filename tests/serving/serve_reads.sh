# Tests a client that never stops sending. Its connection ends after 1,048,576 reads that returned bytes.
# Because the shim single.c makes each read return one byte, the client gets responses to 95,325 commands of
# eleven bytes. Then the next connection is served.
tests=$(cd "$(dirname "$0")/.." && pwd -P)
. "$tests/common/cases.sh"
. "$tests/common/served.sh"
needs cc

cc -O1 -Wall -Wextra -Werror -shared -fPIC -o "$room/single.so" "$tests/common/single.c" || exit 1
rm -f entropy
ln -s /dev/zero entropy
export LD_PRELOAD="$room/single.so"
begin 2
unset LD_PRELOAD
there
python3 - socket "$(words 'SelfTest 1')" <<'PROGRAM'
import socket, sys, threading
client = socket.socket(socket.AF_UNIX)
client.connect(sys.argv[1])

def send():
    try:
        client.sendall(bytes.fromhex(sys.argv[2]) * 100_000)
    except OSError:
        pass  # The connection has ended.

sender = threading.Thread(target=send)
sender.start()
told = 0
try:
    while piece := client.recv(65_536):
        told += len(piece)
except ConnectionResetError:
    pass  # What was sent after the end was not read.
sender.join()
print(f"{told:,} bytes of responses")
PROGRAM
talk 'the next connection' 4096 "$(words 'Startup 0')"
ended 'two connections'
