# Proves the contracts of the hosts' functions that move bytes, hold the lock, or choose whom to answer. See
# tools/framac/prove.sh.
tests=$(cd "$(dirname "$0")/.." && pwd -P)
. "$tests/common/cases.sh"
needs cc frama-c why3 cvc4 libtpms/tpm_library.h

timeout 3600 "$tests/../tools/framac/prove.sh" 2>"$room/counted" || { echo "status $?" && cat "$room/counted"; }
