# Tests that tools/framac/prove.sh does not prove a wrong body of a function: one of each function that it proves, from
# tests/hosts/wrong_bodies.
tests=$(cd "$(dirname "$0")/.." && pwd -P)
. "$tests/common/cases.sh"
needs cc frama-c why3 cvc4 python3 libtpms/tpm_library.h

# refused FILE FUNCTION: prints whether the wrong body of a function is refused.
refused() {
    python3 "$tests/hosts/wrong_bodies.py" make "$2" "$tests/../hosts" "$room/wrong" || return
    if TIMEOUT=10 timeout 3600 "$tests/../tools/framac/prove.sh" "$room/wrong" "$1" "$2" >"$room/told" 2>"$room/counted"; then
        echo "$1 $2: PROVED"
    elif grep -q '^    ' "$room/told"; then
        echo "$1 $2: refused"
    else
        cat "$room/told"
    fi
    rm -r "$room/wrong"
}

python3 "$tests/hosts/wrong_bodies.py" list >"$room/wrong_bodies"
while read -r file function; do
    refused "$file" "$function"
done <"$room/wrong_bodies"
sed -n '/^[a-z]/p' "$tests/../tools/framac/proved" |
    awk '{ for (i = 2; i <= NF; i++) print $1, $i }' | diff - "$room/wrong_bodies" &&
    echo 'each function has a wrong body'
