# Checks that tools/soak/wrong_bodies.py can apply each deliberately wrong function body: the lines that it replaces
# must occur exactly once in the sources.
tests=$(cd "$(dirname "$0")/.." && pwd -P)
. "$tests/common/cases.sh"
needs python3

"$tests/../tools/soak/wrong_bodies.py" --apply >said && status=0 || status=$?
grep -v ' wrong bodies can be applied$' said
tail -n 1 said | sed 's/^\([0-9]*\) of \1 /each of the /'
echo "status $status"
