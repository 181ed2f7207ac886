# Checks that each response is printed before more of the script is read. Therefore a user or program that sends
# a script line by line gets each response before it sends the next line.
tests=$(cd "$(dirname "$0")/.." && pwd -P)
. "$tests/common/cases.sh"

# This test continues to run if the program ends early.
trap '' PIPE
mkfifo lines responses

# begin SCRIPT: starts the program, for at most ten minutes. The program reads from one pipe, and writes
# its responses to another pipe.
begin() {
    timeout 600 "$program" run "$1" <lines >responses 2>"$room/error" &
    exec 3>lines 4<responses
}

# give TEXT: sends more of the script. TEXT may contain printf escapes.
give() {
    # shellcheck disable=SC2059 # the text contains printf escapes
    printf "$1" >&3
}

# answered LABEL: prints the next response.
answered() {
    IFS= read -r response <&4 || response='no response'
    echo "$1: $response"
}

# ended LABEL: prints the remaining responses, and how the program ended.
ended() {
    cat <&4 >"$room/output"
    status=0
    wait "$!" || status=$?
    report "$1" "$status"
    exec 3>&- 4<&-
}

# Lines from standard input, one by one.
begin -
give "$startup\n"
answered 'a line'
give '# nothing\n\nloc 1\nwait 1\nentropy 07\n'
give "$startup\n"
answered 'another one behind lines that print nothing'
give 'cmd\ncmd 00c10000000a0000017b\n'
answered 'the first of two lines'
answered 'the second of them'
give 'cmd\ncmd 80010000000c00'
answered 'a line and a half'
give '00017b0002\n'
answered 'the rest of the second'
give 'power\n'
give 'cmd 80010000000c0000017b0002'
exec 3>&-
answered 'a line that the end ends'
ended 'the end'

# A line that arrives byte by byte, up to its line break.
begin -
for byte in c m d ' ' 8 0 0 1 0 0 0 0 0 0 0 c 0 0 0 0 0 1 4 4 0 0 0 0 '\n'; do
    give "$byte"
done
answered 'a line in pieces'
exec 3>&-
ended 'the end'

# An invalid line ends the program, although the pipe is still open.
begin -
give "$startup\n"
answered 'a line'
give 'cmd\nbad\ncmd\n'
answered 'a line before a bad one'
ended 'a bad line'

# If the script is a named pipe, it is treated like standard input.
mkfifo script
begin script
exec 5>script
printf '%s\n' "$startup" >&5
answered 'a line of a pipe'
printf '%s\n' "$startup" >&5
answered 'another one'
exec 5>&-
ended 'the end'
