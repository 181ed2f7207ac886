# Tests connections that end with a fault because the program cannot read from them or write to them.
# Afterwards the image has the effects of the earlier commands, and the next connection is served.
tests=$(cd "$(dirname "$0")/.." && pwd -P)
. "$tests/common/cases.sh"
. "$tests/common/served.sh"

startup=$(words 'Startup 0')
change=$(words 'HierarchyChangeAuth OWNER pw:- 6f776e')
rm -f entropy
ln -s /dev/zero entropy

for kind in read write; do
    rm -f image
    begin 2
    python3 "$tests/common/clients.py" "$kind" socket "$startup" "$change"
    talk "behind a failed $kind the authorization value is asked for" 4096 "$change"
    ended 'two connections'

    rm -f image
    begin 1
    python3 "$tests/common/clients.py" "$kind" socket "$startup" "$change"
    ended "a connection that a failed $kind ends"
    begin 1
    talk 'and in the next run too' 4096 "$startup" "$change"
    ended 'one connection'
done
