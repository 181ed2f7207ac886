# Checks that the programs in clients/c/README.md print the output that the page shows.
tests=$(cd "$(dirname "$0")/.." && pwd -P)
. "$tests/common/cases.sh"
. "$tests/common/library.sh"
. "$tests/common/typed.sh"
needs cc

ln -s "$dist" dist
ln -s "$tests/../clients" clients && ln -s "$tests/../hosts" hosts
for program in 1program.c 2kept.c; do
    awk -v number="${program%%[a-z]*}" '/^```/ { shown = $0 == "```c" && ++blocks == number; next } shown' \
        "$tests/../clients/c/README.md" >"${program#?}"
done
cc -std=gnu11 -Wall -Wextra -Werror -Idist -Ihosts/kept -c program.c kept.c && echo 'the programs in C have no warning'
type_blocks "$tests/../clients/c/README.md"
echo "program.c: $(awk 'NF { lines++ } END { print lines }' program.c) lines"
