# A program in C logs its commands with clients/c/tpmsim_log.h. From this log, tools/explain.py explains why a command
# was refused. The headers must describe the number of each check, of a response code and of a command.
tests=$(cd "$(dirname "$0")/.." && pwd -P)
. "$tests/common/cases.sh"
. "$tests/common/library.sh"
needs cc python3

compile caller explained "$archive" -I"$tests/../clients/c" && "$caller" log
python3 "$tests/../tools/explain.py" log
