# Runs swtpm many times with this repository's libtpms.so.0. In each run, one call on the state files fails,
# takes effect but reports failure, or completes only half; or swtpm is killed at that call. swtpm_states.py
# executes every tenth of these runs.
tests=$(cd "$(dirname "$0")/.." && pwd -P)
. "$tests/common/cases.sh"
. "$tests/common/library.sh"
. "$tests/common/keeping_hosts.sh"
needs swtpm libtpms/tpm_library.h

swtpm_states "${SHARE:-10}" 2>"$room/said" || cat "$room/said"
