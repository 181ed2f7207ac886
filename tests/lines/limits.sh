# Tests the limits of a script: the number of bytes in a line, the number of lines, and the sum of the waits.
# Also checks that no response is lost if a script has many commands.
tests=$(cd "$(dirname "$0")/.." && pwd -P)
. "$tests/common/cases.sh"

# padded START BYTES: prints a line of BYTES bytes, filled with zeros, without its line break.
padded() {
    printf '%s%0*d' "$1" "$(($2 - ${#1}))" 0
}

# A line has at most 65,536 bytes. It ends with a line break, or at the end of the script.
for bytes in 65536 65537; do
    { echo "$startup"; padded '#' "$bytes"; } >script
    run "a comment of $bytes bytes, at the end" run script
    { echo; echo "$startup"; } >>script
    run "a comment of $bytes bytes" run script
done
for bytes in 65536 65538; do
    { echo "$startup"; padded 'cmd ' "$bytes"; } >script
    run "a command in a line of $bytes bytes, at the end" run script
    { echo; echo "$startup"; } >>script
    run "a command in a line of $bytes bytes" run script
done
for bytes in 65536 65537; do
    { echo "$startup"; padded 'do GetRandom ' "$bytes"; } >script
    run "a command in words in a line of $bytes bytes" run script
done
for word in loc wait; do
    for bytes in 65536 65537; do
        { echo "$startup"; padded "$word " "$bytes"; echo; echo "$startup"; } >script
        run "$word and zeros in a line of $bytes bytes" run script
    done
done
for octal in 000 377; do
    for bytes in 65536 65537; do
        { echo "$startup"; printf '#'; } >script
        head -c "$((bytes - 1))" /dev/zero | tr '\0' "\\$octal" >>script
        { echo; echo "$startup"; } >>script
        run "a comment of bytes $octal in a line of $bytes bytes" run script
    done
    { echo "$startup"; head -c 65536 /dev/zero | tr '\0' "\\$octal"; } >script
    run "a line of 65536 bytes $octal" run script
done
{ echo "$startup"; padded '#' 1000000; echo; echo "$startup"; } >script
run 'a comment of 1000000 bytes' run script
for _ in 1 2 3; do
    padded 'cmd ' 65536
    printf '\ncmd\n'
done >script
run 'three commands in lines of 65536 bytes, between three empty ones' run script

# A script has at most 1,048,576 lines. If it has more, only the first 1,048,576 lines are executed, whatever
# the next line contains.
empty_lines() {
    yes '' | head -n "$1"
}
{ echo "$startup"; empty_lines 1048574; } >script
{ cat script; printf cmd; } >without_line_break
echo cmd >>script
run '1048576 lines' run script
run '1048576 lines, the last without a line break' run without_line_break
for line in '\n' '#\n' "$startup\n" 'bad\n' '#' "$startup" bad; do
    # shellcheck disable=SC2059 # the text contains printf escapes
    { cat script; printf "$line"; } >longer
    run "1048576 lines and \"$line\"" run longer
done
run '1048576 lines on standard input' run - <script
{ cat script; echo '#'; } >longer
run '1048577 lines on standard input' run - <longer
{ echo "$startup"; empty_lines 1048573; echo "$startup"; echo bad; } >script
run '1048576 lines, of which the last is bad' run script

# More responses than the program buffers before it writes them.
yes cmd | head -n 7000 >script
run '7000 commands' run script
echo bad >>script
run '7000 commands and a bad line' run script
awk 'BEGIN {
    print "cmd 80010000000c000001440000" >"script"
    print "80010000000a00000000" >"wanted"
    for (n = 0; n < 20000; n++) {
        printf "entropy %08x\ncmd 80010000000c0000017b0004\n", n >"script"
        printf "800100000010000000000004%08x\n", n >"wanted"
    }
}'
if timeout 600 "$program" run script | cmp -s - wanted; then
    echo 'TPM2_GetRandom with 20000 different random bytes: answered in order'
else
    echo 'TPM2_GetRandom with 20000 different random bytes: not answered in order'
fi

# The sum of the waits before a command is at most 4,294,967,295 milliseconds.
waits() {
    # shellcheck disable=SC2059 # the text contains printf escapes
    printf "$1\n" >script
    run "\"$1\"" run script
}
waits 'wait 4294967295\nwait 0\ncmd'
waits 'wait 4294967295\nwait 1\ncmd'
waits 'wait 4294967295\nwait 4294967295\ncmd'
waits 'wait 0000000000000000000004294967295\ncmd\nwait 4294967295'
waits 'wait 1\npower\nwait 4294967294\ncmd'
waits 'wait 1\npower\nwait 4294967295\ncmd'
waits 'wait 2147483648\ncmd\nwait 2147483648\nwait 2147483647\ncmd'
waits 'wait 2147483648\ncmd\nwait 2147483648\nwait 2147483648\ncmd'
