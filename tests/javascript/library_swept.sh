# Refuses TPM2_Startup of the programs in clients/js/README.md, as tools/interop/sweep_own.py does. No program that
# expects it to be accepted may go on.
tests=$(cd "$(dirname "$0")/.." && pwd -P)
. "$tests/common/cases.sh"
. "$tests/common/javascript.sh"
. "$tests/common/library.sh"
needs python3 cc objcopy

TPMSIM_ARCHIVE=$archive
export TPMSIM_ARCHIVE
python3 "$top/tools/interop/sweep_own.py" --only Startup js 2>told || tail -n 20 told
grep -c ' runs: js ' told
