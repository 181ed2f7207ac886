# Refuses commands of the examples in C, C++, Python, Rust and Go, as tools/interop/sweep_own.py does. No example may
# go on as if nothing had been, or leave a session loaded.
tests=$(cd "$(dirname "$0")/.." && pwd -P)
. "$tests/common/cases.sh"
. "$tests/common/library.sh"
. "$tests/common/rust.sh"
. "$tests/common/go.sh"
needs python3 cc g++ objcopy cargo go

TPMSIM_ARCHIVE=$archive
export TPMSIM_ARCHIVE
python3 "$tests/../tools/interop/sweep_own.py" --only Startup --only PolicyPCR c cpp python rust go 2>told ||
    tail -n 20 told
