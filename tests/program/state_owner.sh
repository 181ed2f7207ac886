# Checks that the program refuses to open a device whose folder or files belong to another user, and leaves them
# unchanged.
tests=$(cd "$(dirname "$0")/.." && pwd -P)
. "$tests/common/cases.sh"
[ "$(id -u)" = 0 ] || skip 'only root can give a file to another user'

echo 'do Startup 0' >script
run 'a device' run --state state script
for what in state state/journal state/lock; do
    chown 1 "$what"
    run "$what of another user" run --state state script
    run "$what of another user, power" power state
    chown 0 "$what"
done
: >state/journal.new
chown 1 state/journal.new
run 'state/journal.new of another user' power state
run 'and a run' run --state state script
grep -c '^cmd' state/journal
