# Makes many devices in one process, and other devices in threads with small stacks. Both programs also run with
# sanitizers. See library/devices.c and library/threads.c.
tests=$(cd "$(dirname "$0")/.." && pwd -P)
. "$tests/common/cases.sh"
. "$tests/common/library.sh"
needs cc python3

# A call uses at most 64 KB of stack. The other 16 KB are for the thread and the calling code.
stack=$(((64 + 16) * 1024))
large_stack=$((512 * 1024))

compile devices devices "$archive"
compile threads threads "$archive"
# shellcheck disable=SC2086 # word splitting is intended
{
    compile sanitized_devices devices $sanitizers "$archive"
    compile sanitized_threads threads $sanitizers "$archive"
}
python3 "$sources/scripts.py" --lines "$(script disk_unlock)" >lines || exit 1
sed -n 's/^cmd //p' lines >commands

"$room/devices" 1000 memory
"$room/sanitized_devices" 1000
"$room/threads" "$stack" <commands
"$room/sanitized_threads" "$large_stack" <commands
