# Checks that unpromised_calls.txt lists all public functions without an `ensures` clause, with a reason for each
# source file, and no others. Then checks a list with four mistakes, which must be reported.
tests=$(cd "$(dirname "$0")/.." && pwd -P)
. "$tests/common/cases.sh"
needs python3
top=${tests%/*}
compare() {
    python3 "$tests/common/unpromised_calls.py" "$@"
    echo "status $?"
}

echo '== unpromised_calls.txt'
compare "$tests/program/unpromised_calls.txt" "$top/crates"

mkdir -p crates/one/src
printf 'pub fn plain() {\n}\n' >crates/one/src/lib.rt
printf 'pub fn plain() {\n}\n' >crates/one/src/more.rt
printf 'pub fn plain() {\n}\n' >crates/one/src/last.rt
printf 'pub fn promised()\n    ensures { true }\n{\n}\n' >crates/one/src/promised.rt
cat >list.txt <<'END'
# A list
    one: lib.rt

A reason.
    one: more.rt more.rt promised.rt
END
echo '== a list with mistakes'
compare list.txt crates
