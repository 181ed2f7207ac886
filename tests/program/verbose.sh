# Tests the environment variable TPMSIM_VERBOSE=1. With it, the report of a fault has a second line with the
# path and the system's reason, or with what is wrong with the words. The first line is the same as without the
# variable.
tests=$(cd "$(dirname "$0")/.." && pwd -P)
. "$tests/common/cases.sh"
needs python3

echo "$startup" >script
echo bogus >bad
mkdir a_folder
: >empty

# both LABEL WORDS..: runs the program without the variable, and with it.
both() {
    unset TPMSIM_VERBOSE
    run "$@"
    export TPMSIM_VERBOSE=1
    run "$@"
}

both 'a script that is not there' run none/script
both 'a script that is a folder' run a_folder
both 'a bad line' run bad
both 'no script to check' check none
both 'an image that is a folder' run --image a_folder script
both 'an image in no folder' run --image none/image script
both 'an image that is not one' run --image empty script
both 'no random bytes' run --image image --entropy none/random script
both 'a folder that is not there' power none/state
both 'a file in place of a folder' power script
both 'a folder without a device' power a_folder
both 'a link to a folder' power "$(ln -s a_folder link && echo link)"
both 'a new folder in none' run --state none/state script
both 'no state text' restore state none
both 'a file that is no state text' restore state empty
both 'no journal' replay none
both 'a file that is no journal' replay empty
both 'a log that is there' serve --socket socket --image image --log script --entropy /dev/urandom --locality 0 \
    --connections 0
both 'a socket in no folder' serve --socket none/socket --image image --entropy /dev/urandom --locality 0 \
    --connections 0
both 'random bytes that are not there' serve --socket socket --state state --entropy none
both 'a line' asm Bogus

# Words that are not a command line: each kind of mistake.
both 'no words'
both 'an unknown command' runn script
both 'an option before the command' --trace run script
both 'an unknown option' run --frob script
both 'an option that needs a value' run --image
both 'an option given twice' run --trace --trace script
both 'an operand too many' run script script
both 'no operand' check
both 'two missing operands' restore
both 'no socket' serve --state state
both 'no script' run --image image
both 'no place' serve --socket socket
both 'two places' run --image image --state state script
both 'journals of an image' run --image image --keep 3 script
both 'journals of a device that is not kept' run --keep 3 script
both 'too many journals' power --keep 100 state
both 'a number that is none' run --state state --keep many script
both 'random bytes of a device that is not kept' run --entropy /dev/zero script
both 'a kept device of the complete profile' run --complete --image image script
both 'a log of a device in a folder' serve --socket socket --state state --log log
both 'a completing layer with an image' serve --socket socket --image image --complete
both 'an image without random bytes' serve --socket socket --image image
both 'an image without a locality' serve --socket socket --image image --entropy /dev/zero
both 'an image without connections' serve --socket socket --image image --entropy /dev/zero --locality 0
both 'locality 5' serve --socket socket --state state --locality 5
both 'a number of connections that is none' serve --socket socket --state state --connections x
both 'a command that is none' lines Bogus
both 'a response code that is none' code 80
both 'hex that is none' line 8
both 'a word that is not UTF-8' run "$(printf '\377')"
"$program" run script >/dev/full 2>"$room/error"
echo "responses that cannot be written: status $?, $(told "$room/error")"
TPMSIM_VERBOSE=0
run 'the variable is 0' run none/script
TPMSIM_VERBOSE=
run 'the variable is empty' run none/script
