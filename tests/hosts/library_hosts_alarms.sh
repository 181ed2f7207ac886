# Compares the alarms of tools/framac/alarms.sh with the lists in tests/hosts, alarms_PART, which give the reason why each
# alarm is false. There must be no other alarm, and no list may have an alarm that no longer occurs. Then tests that
# overruns in each part (tests/hosts/overruns) lead to other alarms, and that each file of the hosts is in a part.
tests=$(cd "$(dirname "$0")/.." && pwd -P)
. "$tests/common/cases.sh"
needs cc frama-c python3 libtpms/tpm_library.h tss2/tss2_tcti.h
hosts=$tests/../hosts

# alarms PART HOSTS FILE: writes the alarms of a part to a file.
alarms() {
    timeout 3600 "$tests/../tools/framac/alarms.sh" "$1" "$2" >"$3" 2>&1 || echo "status $?"
}

(cd "$hosts" && ls -- */*.c) >"$room/files"
grep -oE '(kept|libtpms|simulator|tcti)/[a-z_]+[.]c\b' "$tests/../tools/framac/alarms.sh" | LC_ALL=C sort -u | diff "$room/files" - &&
    echo 'each file is in a part'
for list in "$tests/hosts"/alarms_*; do
    part=${list##*/alarms_}
    sed '/^#/d;/^$/d' "$list" | LC_ALL=C sort >"$room/listed"
    alarms "$part" "$hosts" "$room/found"
    if diff "$room/listed" "$room/found"; then echo "$part: the alarms are those of the list"; fi
    python3 "$tests/hosts/wrong_bodies.py" overrun "$part" "$hosts" "$room/wrong"
    alarms "$part" "$room/wrong" "$room/found"
    LC_ALL=C comm -13 "$room/listed" "$room/found" >"$room/others"
    for function in $(python3 "$tests/hosts/wrong_bodies.py" overruns "$part"); do
        if grep -q " $function: " "$room/others"; then
            echo "$part: the overrun in $function is found"
        else
            echo "$part: THE OVERRUN IN $function IS NOT FOUND"
        fi
    done
    rm -r "$room/wrong"
done
