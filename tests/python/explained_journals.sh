# Explains journals of devices in folders, and the scripts that `tpmsim script` prints from them. No accepted
# command may be explained as refused, and no refused command as accepted.
tests=$(cd "$(dirname "$0")/.." && pwd -P)
. "$tests/common/cases.sh"
needs python3
python3 "$tests/python/explained_journals.py" "$program"
