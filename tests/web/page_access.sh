# Tests whether the page is usable with only the keyboard or with a screen reader: roles and names,
# announcements, focus order, contrast, and the tutorial with keys only.
tests=$(cd "$(dirname "$0")/.." && pwd -P)
. "$tests/common/cases.sh"
needs chromium node

node "$tests/web/page_access.mjs" "file://${tests%/*}/dist/tpmsim.html"
