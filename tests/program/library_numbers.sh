# Checks that the library's laws name each number of tpmsim.h. Then checks laws with three mistakes, which must be
# reported.
tests=$(cd "$(dirname "$0")/.." && pwd -P)
. "$tests/common/cases.sh"
needs python3
top=${tests%/*}
compare() {
    python3 "$tests/common/library_numbers.py" "$top/clients/c/tpmsim.h" "$@"
    echo "status $?"
}

list=$top/crates/tpmsim_library/specs/Numbers.antt
echo '== Numbers.antt'
compare "$list"

sed -e 's/\(pub force_never : force_of \)0/\12/' -e '/pub task_settle : /d' \
    -e 's/\(pub damaged : .*\)11/\13/' "$list" >numbers.antt
echo '== another force, a missing task, another result'
compare numbers.antt
