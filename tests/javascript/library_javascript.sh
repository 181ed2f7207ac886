# Runs the tests of the JavaScript package with node's test runner and the module in dist/.
tests=$(cd "$(dirname "$0")/.." && pwd -P)
. "$tests/common/cases.sh"
. "$tests/common/javascript.sh"
needs python3

all_pass "$package"
