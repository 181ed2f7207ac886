# Checks the types of the page's JavaScript, which are in its comments.
tests=$(cd "$(dirname "$0")/.." && pwd -P)
. "$tests/common/cases.sh"
needs tsc

tsc -p "${tests%/*}/web/page/tsconfig.json" && echo 'types hold'
