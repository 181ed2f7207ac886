# Tests a device in a folder whose journal another process began. That process may have been killed before it
# synced the journal's name to disk. common/forced_names.py prints what the program syncs before the first
# response.
tests=$(cd "$(dirname "$0")/.." && pwd -P)
. "$tests/common/cases.sh"
needs cc nm python3
python3 "$tests/common/forced_names.py" "$program"
