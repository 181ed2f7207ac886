# Runs the lines of docs/SERVE.md that serve a device, in a folder and in an image, and the lines of docs/TOOLS.md
# that seal a key on a served device with tpm2-tools, exactly as written there. The last line prints the key.
tests=$(cd "$(dirname "$0")/.." && pwd -P)
. "$tests/common/cases.sh"
needs tpm2 socat

# block PAGE HEADING [NUMBER]: prints the first block of shell commands below a heading, or the one with this number.
block() {
    awk -v heading="## $2" -v number="${3:-1}" '
        /^## / { is_there = $0 == heading }
        /^```/ { shown = is_there && $0 == "```sh" && ++blocks == number; next }
        shown
    ' "$tests/../docs/$1.md"
}

# seals KIND: runs the lines of the file KIND that serve a device, and then those that seal a key.
seals() {
    mkdir "$1"
    ln -s "$program" "$1/tpmsim"
    # shellcheck disable=SC2016 # the extracted shell lines expand it
    { cat "$1.lines" && echo 'echo "$!" >served' && block TOOLS tpm2-tools 2; } >"$1/lines"
    (cd "$1" && timeout 600 sh lines) >"$room/output" 2>"$room/told" || cat "$room/told"
    kill "$(cat "$1/served")"
    echo "$1: $(grep -c . "$1/lines") lines"
    tail -n 1 "$room/output"
}

heading='A device on a socket'
block SERVE "$heading" >folder.lines
seals folder
# The second block contains only the command that replaces the one in the first block.
block SERVE "$heading" 2 >serve
echo "$(grep -c . serve) command for an image"
sed -e '/^\.\/tpmsim serve /{r serve' -e 'd;}' folder.lines >image.lines
seals image
