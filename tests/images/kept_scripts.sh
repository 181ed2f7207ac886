# Tests scripts whose device is kept in a file: `run --image FILE [--entropy FILE]`. After each command,
# common/kept_scripts.py compares the file with the image of the Python model.
tests=$(cd "$(dirname "$0")/.." && pwd -P)
. "$tests/common/cases.sh"
needs python3

python3 "$tests/common/kept_scripts.py" "$program"

# look LABEL: prints the results of TPM2_Startup and of a command that needs the new ownerAuth, to show
# whether the image contains a device with that value.
look() {
    printf 'do Startup 0\ndo HierarchyChangeAuth OWNER pw:6f776e 6f776e\n' |
        run "$1" run --image image -
}

change='do HierarchyChangeAuth OWNER pw:- 6f776e'
printf 'do Startup 0\n%s\n' "$change" >script
printf 'do Startup 0\n%s\nbad\n' "$change" >bad
bytes=$(awk 'BEGIN { for (n = 0; n < 256; n++) printf "\\%03o", n }')
# shellcheck disable=SC2059 # the bytes are printf escapes
printf "$bytes" >entropy

# The options in several positions, and their values in several forms.
run 'a new device' run --image image script
look 'it is kept'
rm image
run 'with its trace, and the options behind the script' run script --trace --image image
look 'it is kept'
rm image
run 'with the value in the word of the option' run --image=image --entropy=entropy script
mv image made
run 'of the bytes 00 to ff' run --image image script
cmp made image && echo 'which are those of a device without --entropy'
rm image made

# Only the owner may access the file, whatever the umask, and image.new is removed.
(umask 000 && run 'a new device' run --image image script)
stat -c '%n %a' image*
chmod 666 image
run 'an image that others may read' run --image image script
stat -c '%n %a' image*
rm image

# The device is saved, however the run ends.
run 'a bad line' run --image image bad
look 'it is kept'
rm image
run 'a script that does not end' run --image image - <<END
do Startup 0
$change
$(printf '%070000d' 0)
END
look 'it is kept'
rm image
mkfifo pipe
exec 3<>pipe
printf 'do Startup 0\n%s\n' "$change" >&3
dd iflag=nonblock count=0 <&3 2>"$room/dd" || cat "$room/dd"
run 'standard input that fails' run --image image - <&3
exec 3<&-
look 'it is kept'
rm image
rm "$room/output"
status=0
timeout 600 "$program" run --image image script >/dev/full 2>"$room/error" || status=$?
report 'standard output that is full' "$status"
look 'it is kept'
rm image

# Faults in the image, in the random bytes, and in the script. If there are several faults, the first one in
# this order is reported. If no device was made, no image is saved.
echo none >none
head -c 255 entropy >short
mkdir folder
run 'an image that is none' run --image none --entropy missing missing
run 'a folder in place of an image' run --image folder --entropy missing missing
run 'no random bytes' run --image image --entropy missing missing
run 'too few random bytes' run --image image --entropy short missing
run 'a folder of random bytes' run --image image --entropy folder missing
run 'no script' run --image image --entropy entropy missing
[ ! -e image ] || echo 'the image is there'
run 'no folder for the image' run --image missing/image script
run 'an image, and random bytes that are not there' run --image image script
run 'they are wanted all the same' run --image image --entropy missing script
run 'but none is read' run --image image --entropy short script

# Wrong command lines.
run 'no image' run --image
run 'two images' run --image image --image image script
run 'two entropies' run --image image --entropy entropy --entropy entropy script
run 'random bytes without an image' run --entropy entropy script
run 'another option' run --images image script
run 'an option of serve' run --image image --locality 0 script
run 'asm with an image' asm --image image 'Startup 0'
