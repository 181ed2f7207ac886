# Runs each program or module that keeps a device in a folder many times. In each run, one system call fails,
# takes effect but reports failure, or completes only half; or the process is killed at that call. each_call.py
# executes every tenth of these runs.
tests=$(cd "$(dirname "$0")/.." && pwd -P)
. "$tests/common/cases.sh"
. "$tests/common/library.sh"
. "$tests/common/keeping_hosts.sh"

against failing each_call "${SHARE:-10}" 2>"$room/said" || cat "$room/said"
