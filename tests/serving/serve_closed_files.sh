# Tests `serve` without permission to read the device's files, or to write to their folder. If the current user
# is root, who has all permissions, the program runs as the user nobody. It is copied to a folder that everybody
# may write to, like /tmp.
tests=$(cd "$(dirname "$0")/.." && pwd -P)
. "$tests/common/cases.sh"
. "$tests/common/served.sh"

as=
if [ "$(id -u)" -eq 0 ]; then
    needs setpriv
    as='setpriv --reuid 65534 --regid 65534 --clear-groups '
fi
chmod 711 "$room" "$room/folder"
mkdir -p theirs/closed
cp "$program" theirs/program
echo unread >theirs/unreadable
chmod 777 theirs
chmod 755 theirs/program
chmod 000 theirs/unreadable
printf '#!/bin/sh\nexec %s"%s" "$@"\n' "$as" "$PWD/theirs/program" >"$room/somebody"
chmod 755 "$room/somebody"
if ! "$room/somebody" --version >"$room/output" 2>&1 ||
    $as cat theirs/unreadable >"$room/output" 2>&1; then
    skip 'nobody can be kept from a file who can run the program'
fi

startup=$(words 'Startup 0')
change=$(words 'HierarchyChangeAuth OWNER pw:- 6f776e')
back=$(words 'HierarchyChangeAuth OWNER pw:6f776e -')

begin 1
talk 'an authorization value' 4096 "$startup" "$change"
ended 'one connection'
for copy in theirs theirs/closed; do
    cp image "$copy/image"
    chmod 644 "$copy/image"
done
cp entropy theirs/entropy
chmod 644 theirs/entropy
chmod 555 theirs/closed
cd theirs || exit 1
program=$room/somebody

# tried LABEL IMAGE ENTROPY SOCKET: runs `serve` with these files. It exits without accepting a connection.
tried() {
    run "$1" serve --socket "$4" --image "$2" --entropy "$3" --locality 0 --connections 0
}

tried 'an image that may not be read' unreadable entropy socket
tried 'random bytes that may not be read' image unreadable socket
tried 'a socket in a folder that may not be written to' image entropy closed/socket
tried 'an image in a folder that may not be written to' closed/image entropy socket
ls -A closed
chmod 777 closed
tried 'an image in a folder that may' closed/image entropy socket
chmod 555 closed
image=closed/image
begin 1
talk 'an image in a folder that may no more be written to' 4096 "$startup" "$back"
ended 'one connection'
options=--save-each
begin 1
talk 'the same, with --save-each' 4096 "$startup" "$back"
ended 'one connection'
options=
ls -A closed
cmp closed/image ../image && echo 'the image is as it was, too'
chmod 755 closed
