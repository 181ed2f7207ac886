# Checks that the messages and words quoted in docs/SERVE.md match those in the sources of the C host and of the
# keeper. The C host gets the keeper's messages from the library. Each message of the C host must be in the page, or in
# the list of those that explain themselves.
tests=$(cd "$(dirname "$0")/.." && pwd -P)
. "$tests/common/cases.sh"
page=$tests/../docs/SERVE.md
kept=$tests/../hosts/kept
keeper=$tests/../crates/tpm_keeping/src/holder.rt

# quoted HEADING: prints the quoted texts in the first column of the table below a heading, one on each line.
# shellcheck disable=SC2016 # the quotes are backticks
quoted() {
    awk -v heading="### $1" '
        /^##/ { is_there = $0 == heading }
        is_there && /^\| `/ { split($0, cells, / \| /); print cells[1] }
    ' "$page" | grep -o '`[^`]*`' | tr -d '`'
}

tr -d '"' >explained <<'LIST'
"belongs to another user"
"cannot be combined with device"
"cannot be combined with norm"
"cannot be cut to whole records"
"cannot be forced to the disk"
"cannot be given its mode"
"cannot be locked"
"cannot be looked at"
"cannot be made"
"cannot be opened"
"cannot be read"
"cannot be written"
"has the localities 0 to 4, and no other"
"holds a damaged image: its digest is another"
"holds a damaged state text: its digest is another"
"holds a state text of version 1, which is no longer read: begin with a new device"
"holds no image: there are too few bytes"
"holds no image: the bytes do not begin as one"
"holds no image: there are not as many bytes as it says"
"holds no state text: there are too few bytes"
"holds no state text: the bytes do not begin as one"
"holds no state text: there are not as many bytes as it says"
"is a link, which is not followed"
"is allowed only with state=DIR"
"is given twice"
"is no folder"
"is no regular file"
"is none of the words"
"is out of range"
"is too long"
"needs memory, and the system gives none"
"needs random bytes, and the system gives none"
"needs the host's clock, which cannot be read or is before 1970"
"of the library, which answers otherwise than this one, and stays as it is:"
"power-cycle the device with the tpmsim-power of that version, or drop all"
"commands since the last power cycle or checkpoint with tpmsim-power --cut"
"was written by"
LIST

quoted 'What a fault says' >sentences
quoted 'The words' >words
cat sentences explained | while read -r sentence; do
    grep -qF -- "$sentence" "$kept"/*.c "$keeper" || echo "no source says: $sentence"
done
while read -r word; do
    grep -qF "${word%%=*}" "$kept/words.h" || echo "the module has no word $word"
done <words
echo "$(grep -c . sentences) sentences, $(grep -c . explained) that explain themselves, $(grep -c . words) words"
# Two messages report conditions that cannot occur. A third is only the word for a return code: the host names the
# version that wrote the journal.
grep -oh '"\(is\|was\|has\|cannot\|holds\|needs\|wants\) [^"]*"' "$kept"/*.c | tr -d '"' |
    LC_ALL=C sort -u | while read -r sentence; do
        case $sentence in
        'has no device' | 'is refused by the library for a reason without a name') continue ;;
        'was written by a library that answers otherwise than this one, and stays as it is') continue ;;
        esac
        grep -qF -- "${sentence%%:*}" sentences explained || echo "neither the page nor the list has: $sentence"
    done
