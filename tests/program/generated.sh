# Checks the stored files that tools/generated.py makes from the repository's tables: none was changed by hand, and
# none is older than its table.
tests=$(cd "$(dirname "$0")/.." && pwd -P)
. "$tests/common/cases.sh"
needs python3
top=${tests%/*}

python3 "$top/tools/generated.py" made >names || echo "status $?"
while read -r name; do
    if diff "$top/$name" "made/$name" >differences; then
        echo "$name: the same"
    else
        echo "$name: another than tools/generated.py makes"
        head -n 20 differences
    fi
done <names
