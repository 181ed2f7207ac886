# Tests a device that is served with --save-each. Whenever the program is killed, the image has the effects of
# all commands whose responses a client received. common/save_each.py compares the image with the Python model.
# tools/soak/kills.sh kills the device more often.
tests=$(cd "$(dirname "$0")/.." && pwd -P)
. "$tests/common/cases.sh"
. "$tests/common/served.sh"

python3 "$tests/common/save_each.py" "$program" 22

# The option --save-each may be at any position, but only once. It has no value, and only `serve` accepts it.
with='--socket socket --image image --entropy entropy --locality 0 --connections 0'
echo 'do Startup 0' >script
# shellcheck disable=SC2086 # word splitting is intended
{
    run 'in front' serve --save-each $with
    run 'behind the others' serve $with --save-each
    run 'between them' serve --locality 0 --save-each --connections 0 --socket socket \
        --image image --entropy entropy
    run 'twice' serve --save-each $with --save-each
    run 'with a value' serve --save-each=yes $with
    run 'with a value behind it' serve $with --save-each yes
    run 'cut' serve --save $with
    run 'in front of serve' --save-each serve $with
}
run 'an option of run' run --save-each --image image script
