# Tests clients that disconnect early, clients that make other clients wait, and a long connection. The program
# serves connections one after another, each until it ends.
tests=$(cd "$(dirname "$0")/.." && pwd -P)
. "$tests/common/cases.sh"
. "$tests/common/served.sh"

startup=$(words 'Startup 0')
random=$(words 'GetRandom 4')
rm -f entropy
ln -s /dev/zero entropy

# client_of KIND HEX [LENGTH]: runs one of the clients in common/clients.py. For the kind `long`, the
# arguments are the length and then the command.
client_of() {
    python3 "$tests/common/clients.py" "$1" socket "$2" ${3:+"$3"} | sed 's/^/    /'
}

# Clients that close the connection after sending nothing, a tag, a header, or a command without its last byte.
# None of their commands is executed, so a later TPM2_Startup succeeds. The last client sends a complete
# command, which is executed although nobody reads the response.
rm -f image
begin 6
client_of close ''
client_of close 8001
client_of close 80010000000c00000144
client_of close "${startup%00}"
talk 'behind four clients that sent no whole command' 4096 "$startup"
client_of close "$(words 'HierarchyChangeAuth OWNER pw:- 6f776e')"
ended 'six connections'
begin 1
talk 'one that did, and read no response, has changed ownerAuth' 4096 "$startup" \
    "$(words 'HierarchyChangeAuth OWNER pw:6f776e -')"
ended 'one connection'

# A client that sends nothing, or that does not read its responses, occupies the device until it closes the
# connection.
for kind in idle unread; do
    rm -f image
    begin 2
    echo "a client beside another one, which is $kind:"
    client_of "$kind" "$startup"
    ended 'two connections'
done

# A client sends five million bytes of commands, and gets responses while it is still sending.
rm -f image
begin 3
talk 'an NV index' 4096 "$startup" \
    "$(words 'NV_DefineSpace OWNER pw:- - 01000001000b0002000200000400')"
echo 'five million bytes:'
client_of long 5 "$(words "NV_Write OWNER 01000001 pw:- $(printf '%02048d' 7) 0")"
talk 'what was written at last' 4096 "$(words 'NV_Read OWNER 01000001 pw:- 4 1020')" "$random"
ended 'three connections'
