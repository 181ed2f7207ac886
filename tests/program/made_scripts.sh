# Checks that the generated scripts can detect wrong devices. For each script there is a Python model with
# one deliberate mistake. The model's responses to the script must differ from those of the program under
# test.
tests=$(cd "$(dirname "$0")/.." && pwd -P)
. "$tests/common/cases.sh"
needs python3

make_scripts
python3 "$tests/common/wrong_made.py" "$program"
