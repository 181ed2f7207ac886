# Checks the output of `tpmsim lines` and `tpmsim code`. Each command's line has the same form as in its
# section of docs/table, and its example can be assembled. Response codes have the names that docs/table
# lists. `lines` lists the commands of the symmetric profile.
tests=$(cd "$(dirname "$0")/.." && pwd -P)
. "$tests/common/cases.sh"
table=${tests%/*}/docs/table

# count WHAT NUMBER WRONG: prints how many items of a kind were checked, and how many were wrong.
count() {
    printf '%s: %s, of which wrong: %s\n' "$1" "$2" "$3"
}

"$program" lines >"$room/lines" || echo 'lines: failed'
# shellcheck disable=SC2016 # the backquotes belong to the documents
sed -n 's/^Line: `\(.*\)`\.$/\1/p' "$table"/*.md | grep -vE '^(StirRandom|GetTestResult|ClockSet|ClockRateAdjust|IncrementalSelfTest|TestParms|Hash)( |$)' |
    sort >"$room/wanted"
grep -v '^    ' "$room/lines" | sort >"$room/forms"
diff "$room/wanted" "$room/forms" >"$room/differences"
count forms "$(grep -c . "$room/forms")" "$(grep -c '^[<>]' "$room/differences")"

examples=0
wrong=0
alone=0
while IFS= read -r form && IFS= read -r example; do
    examples=$((examples + 1))
    name=${form%% *}
    buffer=$("$program" asm "${example#    }") && [ -n "$buffer" ] || wrong=$((wrong + 1))
    [ "$("$program" lines "$name")" = "$(printf '%s\n%s' "$form" "$example")" ] ||
        alone=$((alone + 1))
done <"$room/lines"
count 'examples that are assembled' "$examples" "$wrong"
count 'commands that are told alone' "$examples" "$alone"

# told_code CODE NAME: counts a code, and checks that `tpmsim code` prints this name for it.
codes=0
wrong=0
told_code() {
    codes=$((codes + 1))
    [ "$("$program" code "$1")" = "$2" ] || wrong=$((wrong + 1))
}

# plus CODE NUMBER: prints their sum in hex.
plus() {
    printf '%x' "$((0x$1 + $2))"
}

# shellcheck disable=SC2016 # the backquotes belong to the documents
sed -n 's/^| `\([0-9A-F]*\)` | \([A-Z_0-9]*\) | .*/\1 \2/p' "$table/README.md" >"$room/codes"
while read -r code name; do
    told_code "$code" "$name"
    case $code in
    0[8-9A]?)
        told_code "$(plus "$code" 0x100)" "$name, handle 1"
        told_code "$(plus "$code" 0x240)" "$name, parameter 2"
        told_code "$(plus "$code" 0xb00)" "$name, session 3"
        ;;
    esac
done <"$room/codes"
count codes "$codes" "$wrong"

run '98e' code 98e
run '0000098E' code 0000098E
run '1c4' code 1c4
run '184' code 184
run '910' code 910
run '91e' code 91e
run '922' code 922
run '0' code 0
run '7c4, the parameter 7' code 7c4
run 'fc4, the parameter 15' code fc4
run '80, which names nothing' code 80
run '102, which names nothing' code 102
run '1000, more than a code has' code 1000
run 'nine digits' code 00000098e
run 'no digits' code ''
run 'another digit' code 98g
run 'no word' code
run 'two words' code 98e 98e
run 'NV_Write' lines NV_Write
run 'ReadClock' lines ReadClock
run 'in another case' lines nv_write
run 'no command' lines Bogus
run 'an empty name' lines ''
run 'two names' lines NV_Write NV_Read
