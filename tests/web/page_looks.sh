# Checks what the page shows, in Chromium: a refusal and its cause first, values byte under byte, policies and PCRs
# drawn, wrapped lines, tooltips, the reference, two versions side by side, and that at each width all buttons are
# in reach. Node computes the digests that the page must draw.
tests=$(cd "$(dirname "$0")/.." && pwd -P)
. "$tests/common/cases.sh"
needs chromium node

node "$tests/web/page_looks.mjs" "file://${tests%/*}/dist/tpmsim.html"
