# Runs hosts of each kind on one device at the same time. They are killed and interrupted, they fork, and their
# clocks jump. all_at_once.py does this with a few processes and with 40.
tests=$(cd "$(dirname "$0")/.." && pwd -P)
. "$tests/common/cases.sh"
. "$tests/common/library.sh"
. "$tests/common/keeping_hosts.sh"

for seed in 1 2; do
    against failing all_at_once 4 6 "$seed" 2>"$room/said" || cat "$room/said"
done
against failing all_at_once 5 40 1 2>"$room/said" || cat "$room/said"
