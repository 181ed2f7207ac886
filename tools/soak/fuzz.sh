#!/bin/sh
# Plays random events, and compares the program's responses with those of the device in plain Python under
# clients/python/tpmsim/model. Needs python3. A round consists of a random script; of a script in which bytes of
# commands, lines and letters are altered; and of a stream. A stream consists of connections to `tpmsim serve`,
# in several runs with the same image. Some of the buffers in it are incomplete or have wrong sizes, and some
# images are altered. A round depends only on its seed.
#
#   tools/soak/fuzz.sh 600             rounds for 600 seconds; prints the first seed, taken from the clock
#   tools/soak/fuzz.sh 600 7           the same, with the seeds 7, 8, and so on
#   tools/soak/fuzz.sh --rounds 60 1   the rounds of the seeds 1 to 60, always the same: about a minute
#   tools/soak/fuzz.sh --replay FILE   plays a script or a stream that an earlier run kept
#
# It runs PROGRAM, or the one that tools/lib/program.sh names. If a response differs, it prints the seed and the
# line of the difference, and keeps the script or the stream. It also keeps the first of them in a reduced form,
# with only the lines that are needed to reproduce the difference. tests/common/streams.py defines the lines of
# a stream. The last lines contain the totals. The status is 1 if anything differs.
set -u

is_number() {
    case $1 in
    '' | *[!0-9]*) return 1 ;;
    esac
}

# are_words WORDS..: succeeds if the arguments have one of the forms of the usage.
are_words() {
    case $#,${1:-} in
    2,--replay) [ -f "$2" ] ;;
    3,--rounds) is_number "$2" && is_number "$3" ;;
    1,* | 2,*) is_number "$1" && is_number "${2:-0}" ;;
    *) return 1 ;;
    esac
}

top=$(CDPATH='' cd "$(dirname "$0")/../.." && pwd -P) || exit 1
if ! are_words "$@"; then
    sed -n '2,/^set/s/^# \{0,1\}//p' "$0" >&2
    exit 2
fi
program=${PROGRAM:-$(cd "$top" && . tools/lib/program.sh)} || exit 1
program=$(cd "$(dirname "$program")" && pwd -P)/$(basename "$program") || exit 1
exec "$top/tools/python.sh" "$top/tests/at_random/fuzz.py" "$program" "$@"
