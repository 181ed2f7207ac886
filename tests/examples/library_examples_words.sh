# Plays the examples that are written in words. tpmsim-script plays each of them in its own process, and also
# translates it into a plain script. If the program plays the plain script, the traces are the same. Translating
# a plain script leaves it unchanged. A fault is reported with its line and column.
tests=$(cd "$(dirname "$0")/.." && pwd -P)
. "$tests/common/cases.sh"
. "$tests/common/library.sh"
needs python3

layered() { TPMSIM_LIBRARY=$shared python3 -m tpmsim.script.main "$@"; }

for example in "$tests"/../examples/words/*.tpms; do
    name=${example##*/}
    echo "== ${name%.tpms}"
    layered --trace -o plain.tpm "$example" || continue
    sed -n -e '/^power$/p' -e 's/^# \([A-Za-z_]* L0 .*\)/\1/p' plain.tpm >here
    "$dist/tpmsim" run --trace plain.tpm | grep -v '^[0-9a-f]*$' >there
    cmp here there && echo "$(grep -c ' ok ' there) successes"
    grep -v ' ok \|^power' there
    layered plain.tpm | cmp - plain.tpm
    grep -E '^# let (read|measured|replayed|first|second) = ' plain.tpm | sed 's/\(.\{90\}\).*/\1../'
done

echo '== docs/SCRIPTS.md'
page=$tests/../docs/SCRIPTS.md
awk '/^[$] PYTHONPATH/ { exit } shown; /^[$] cat/ { shown = 1 }' "$page" >secret.tpms
layered secret.tpms >secret.tpm && "$dist/tpmsim" run --trace secret.tpm | grep -v '^[0-9a-f]*$'

echo '== faults'
sed 's/session:/sesion:/' secret.tpms >wrong.tpms
layered wrong.tpms 2>said
echo "status $?"
sed 's/: wrong/: secret/' said
grep -cxF "    $(sed 's/: wrong/: secret/' said)" "$page"
layered none.tpms 2>&1
echo "status $?"
