# Compares tools/framac/trusted, the list of what the proofs and the analysis of the hosts trust, with their contracts and
# with the headers that say the same. A list with a wrong sentence, or without a function, must be refused.
tests=$(cd "$(dirname "$0")/.." && pwd -P)
. "$tests/common/cases.sh"
needs python3

python3 "$tests/hosts/trusted.py" "$tests/.."

mkdir -p "$room/top/tools" && cp -r "$tests/../tools/framac" "$room/top/tools" &&
    ln -s "$tests/../clients" "$tests/../hosts" "$room/top"
sed 's/at most 28,361/at most 28,362/; s/ tpmsim_complete / /' "$tests/../tools/framac/trusted" \
    >"$room/top/tools/framac/trusted"
python3 "$tests/hosts/trusted.py" "$room/top"
