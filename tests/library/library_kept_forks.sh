# Forks while Python has devices, and interrupts what Python runs at a fork. See library/kept_forks.py.
tests=$(cd "$(dirname "$0")/.." && pwd -P)
. "$tests/common/cases.sh"
. "$tests/common/library.sh"
needs python3

python3 "$sources/kept_forks.py" "$shared"
