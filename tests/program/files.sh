# Tests scripts and streams that cannot be opened, read or written. The program ends with status 3 and
# `tpmsim: file`.
tests=$(cd "$(dirname "$0")/.." && pwd -P)
. "$tests/common/cases.sh"

echo "$startup" >script
printf '%s\n%s' "$startup" "$startup" >without_line_break
printf '%s\nbad\n' "$startup" >bad_second_line
echo bad >bad_first_line
: >empty
mkdir a_folder

# Files that can be read: with a line break at the end, without one, and empty.
run 'a script' run script
run 'a script by its whole path' run "$room/folder/script"
run 'a script without a line break at its end' run without_line_break
run 'an empty script' run empty
run 'an empty script on standard input' run - <empty

# Files that cannot be read.
run 'a folder that is not there' run missing/script
run 'a file in place of a folder' run script/script
run 'a folder as standard input' run - <a_folder
run 'standard input that is closed' run - <&-
run 'standard input that is closed, and a script in a file' run script <&-

# Standard input that cannot be read after the first lines, because the pipe is non-blocking and nothing more is
# written to it.
mkfifo pipe
exec 3<>pipe
printf '%s\ncmd\n# half a line' "$startup" >&3
dd iflag=nonblock count=0 <&3 2>"$room/dd" || cat "$room/dd"
run 'standard input that fails after two lines and a half' run - <&3
exec 3<&-

# unseen LABEL SCRIPT: runs a script whose responses go to file descriptor 4.
unseen() {
    rm -f "$room/output"
    status=0
    timeout 600 "$program" run "$2" 2>"$room/error" >&4 4>&- || status=$?
    report "$1" "$status"
}

# The device file /dev/full. If responses are lost, the program reports that fault, even if an invalid line
# follows.
exec 4>/dev/full
unseen 'a full device' script
unseen 'a full device, and no response' empty
unseen 'a full device, and a bad line behind a command' bad_second_line
unseen 'a full device, and a bad line before any command' bad_first_line

# A pipe without a reader.
# shellcheck disable=SC2094 # both are ends of one pipe
exec 3<>pipe 4>pipe 3<&-
unseen 'a pipe that nobody reads' script
unseen 'a pipe that nobody reads, and no response' empty

# Closed standard output.
status=0
timeout 600 "$program" run script 2>"$room/error" >&- || status=$?
report 'standard output that is closed' "$status"

# If nothing can be written to standard error, the exit status stays the same.
rm "$room/error"
for script in script bad_second_line missing; do
    status=0
    timeout 600 "$program" run "$script" >"$room/output" 2>/dev/full || status=$?
    report "standard error on a full device, and $script" "$status"
done
