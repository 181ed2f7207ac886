# Runs --help of each program in Python: of each program in tools/, and of each module of the package that can be run
# with `python3 -m`. Each must print its help on standard output, and nothing on standard error. No program may write
# files then.
tests=$(cd "$(dirname "$0")/.." && pwd -P)
. "$tests/common/cases.sh"
needs python3
top=${tests%/*}

# help_of LABEL WORDS..: runs a program with --help, and prints what is wrong with its help.
help_of() {
    label=$1
    shift
    status=0
    timeout 600 "$@" --help >"$room/help" 2>"$room/error" || status=$?
    [ "$status" -eq 0 ] || echo "$label: status $status"
    [ ! -s "$room/error" ] || echo "$label: $(told "$room/error")"
    [ "$(wc -w <"$room/help")" -ge 10 ] || echo "$label: the help has $(wc -w <"$room/help") words"
    [ -z "$(ls -A)" ] || echo "$label: it wrote $(ls -A)"
    count=$((count + 1))
}

count=0
for tool in "$top"/tools/*.py; do
    help_of "${tool##*/}" python3 "$tool"
done
echo "$count programs of tools/"

count=0
for module in "$top"/clients/python/tpmsim/*/__main__.py; do
    name=$(basename "$(dirname "$module")")
    help_of "tpmsim.$name" python3 -m "tpmsim.$name"
done
echo "$count modules"
for module in "$top"/clients/python/tpmsim/*/main.py; do
    [ -f "$(dirname "$module")/__main__.py" ] || echo "python3 -m does not run $(dirname "$module")"
done
python3 -m tpmsim.explain --help | head -n 2
