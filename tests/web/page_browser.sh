# Tests the page in a headless browser: examples, faults, keys, names for screen readers, lessons, a hostile
# log, files, links, texts that are too long, an explained log, sizes and times. The program plays the files
# that are downloaded from the page.
tests=$(cd "$(dirname "$0")/.." && pwd -P)
. "$tests/common/cases.sh"
needs chromium node python3

top=${tests%/*}
set -- session_encryption
for example in "$top"/examples/*.py "$top"/examples/*.tpm; do
    set -- "$@" "$(basename "${example%.*}")"
done
make_scripts "$@"
mkdir -p web/one && cd web/one || exit 1
"$top/tools/explain.py" --html "$(script hmac_session)" >explained.html || exit 1
status=0
node "$tests/web/page_browser.mjs" "file://$top/dist/tpmsim.html" "file://$PWD/explained.html" "$TPMSIM_MADE" || status=1
"$top/dist/tpmsim" replay taken/journal >replayed && echo "the program replays the journal: $(grep -c '^8' replayed) answers"
"$top/dist/tpmsim" run taken/script >played || status=1
sed -n 's/^# \(80.*\)/\1/p' taken/log >logged
test -s logged && cmp logged played && echo 'the log has the answers of the program'
"$top/dist/tpmsim" check taken/faulty 2>/dev/null | grep -v '^    ' >checked
test -s checked && cmp checked taken/report && echo 'the report is that of tpmsim check'
exit "$status"
