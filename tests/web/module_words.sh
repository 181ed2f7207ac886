# Tests the module for web pages in node. Its output for lines, commands and codes in words must be the same as
# the program's.
tests=$(cd "$(dirname "$0")/.." && pwd -P)
. "$tests/common/cases.sh"
needs node python3
node -e 'process.exit([].toSpliced ? 0 : 1)' ||
    skip 'there is no node from 20.16 on'
top=${tests%/*}
module=$top/dist/tpmsim.wasm
codes='0 1e 100 12f 14a 901 921 922 98e 9a2 18b 28b 1c4 2d5 4d4 a95 b84 1000 ffff'

# words TASK..: prints the output of module_words.mjs for a task.
words() {
    node "$tests/web/module_words.mjs" "$module" "$@"
}

# same NAME: prints whether the outputs of the program and the module are the same and not empty.
same() {
    if [ -s "program.$1" ] && cmp "program.$1" "module.$1"; then
        echo "$1: the same"
    fi
}

make_scripts
words bent "$TPMSIM_MADE" >bent.tpm
# The program also prints hints, which are indented.
"$top/dist/tpmsim" check bent.tpm 2>program.error | grep -v '^    ' >program.faults
node "$top/web/play.mjs" "$module" check bent.tpm >module.faults
same faults

"$top/dist/tpmsim" lines >program.lines
words lines >module.lines
same lines

for code in $codes; do
    "$top/dist/tpmsim" code "$code" 2>program.error || echo 'no such code'
done >program.codes
# shellcheck disable=SC2086 # word splitting is intended
words codes $codes >module.codes
same codes

words spelled "$tests" "$TPMSIM_MADE"
