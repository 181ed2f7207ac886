# Tests which command lines are valid: `run [--trace] SCRIPT`, with `-` for standard input; `asm LINE`, with
# the line as one argument; and `line HEX`. kept_scripts.sh tests `run --image`, and check.sh tests `check`.
# Help and the version are printed on standard output. All other command lines must be refused, although the
# files that they name exist and are scripts. required.txt has the command lines that were asked for.
tests=$(cd "$(dirname "$0")/.." && pwd -P)
. "$tests/common/cases.sh"

# The three scripts have different responses.
echo "$startup" >a
echo "$startup" >b
printf '%s\n%s\n' "$startup" "$startup" >./-
for name in run --trace -x -h --help help; do
    cp a "./$name"
done

# words WORDS..: runs the program with these arguments, and with an empty command on standard input.
words() {
    echo cmd | run "tpmsim${*:+ $*}" "$@"
}

# The script is read from the file, although there is another script on standard input.
words run a
words run ./-

# The script is read from standard input, although there is a file with the name `-`.
words run -

# `run` with a script and one argument too many.
words run - a
words run a -

# `--trace` before the script and after it.
words run --trace a
words run a --trace
words run --trace ./-
words run --trace -

# A device is kept either in an image or in a folder. The option --entropy needs one of them.
words run --image image
words run --image image --state state a
words run --state state --image image --entropy a -
words run --entropy a a
words run --state

# A served device is kept either in an image or in a folder. Only a device in an image may have a log.
served() {
    words serve --socket socket --entropy /dev/zero --locality 0 --connections 1 "$@"
}
served
served --image image --state state
served --state state --log log
served --image image --state state --log log
served --log log

# Subcommands on a device in a folder. They have one argument, the folder.
words power
words power a b
words snapshot
words snapshot a b
words restore
words restore a
words restore a b c
words script
words script a b
words script --state a


# `asm` with more than one argument.
run "tpmsim asm 'Startup 0' a" asm 'Startup 0' a
run "tpmsim --trace asm 'Startup 0'" --trace asm 'Startup 0'

# `line` with a buffer, whose line is printed. line.sh tests more buffers.
words line 80010000000c000001440000
words line 80010000000c00000144
words line 8
words line
words line 80 01
words line --trace 80010000000c000001440000

# Invalid options, help and the version.
words run -h
words run --help
words --trace
words --help
words -h
words --version
words -V

# Words that are not subcommands.
words a
words RUN a
words help
words help run
words help line
words version

# An argument that is not UTF-8.
echo cmd | run 'tpmsim run \377' run "$(printf '\377')"
run "tpmsim asm 'Startup \377'" asm "$(printf 'Startup \377')"
