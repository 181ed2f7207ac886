# Checks that the clock of a served device follows the host's clock, however many commands arrive in a
# millisecond.
tests=$(cd "$(dirname "$0")/.." && pwd -P)
. "$tests/common/cases.sh"
. "$tests/common/served.sh"

# Sends commands one after another for a second.
rm -f entropy image
ln -s /dev/zero entropy
begin 1
python3 "$tests/common/clients.py" clock socket
ended 'a second of commands'
