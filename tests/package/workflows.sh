# Checks that the workflows for GitHub and GitLab name only existing files and targets. Given --run, steps.py
# also runs the workflows' commands; no test uses that option.
tests=$(cd "$(dirname "$0")/.." && pwd -P)
. "$tests/common/cases.sh"
needs python3
top=${tests%/*}

python3 "$tests/package/steps.py" "$top"
echo "status $?"

echo '== what they name is not there'
mkdir -p copy/.github/workflows copy/tools
for file in .github/workflows/checks.yml .gitlab-ci.yml; do
    sed 's|tools/|tools/no_|' "$top/$file" >"copy/$file"
done
sed 's/^deb:/rpm:/' "$top/Makefile" >copy/Makefile
python3 "$tests/package/steps.py" copy
echo "status $?"

echo '== the packages that they install'
LC_ALL=C sort -c "$top/tools/packaging/debian_packages" && grep -c . "$top/tools/packaging/debian_packages"

# Each package that a skipped test may name is in the list, unless each Debian has it, or it is npm: Debian 12 has
# no node for which npm would help.
needed() {
    for folder in "$tests"/*/; do
        find "$folder" -name '*.sh' ! -name skips.sh -exec sed -n 's/^\(.* || \)\{0,1\} *needs \([^()]*\)$/\2/p' {} +
    done | tr ' ' '\n' | LC_ALL=C sort -u
}
# Without clang on the path, the package of compiler-rt is that for Debian's own clang.
mkdir "$room/nothing"
# shellcheck disable=SC2123 # has_tool searches for clang only there
needed | while read -r name; do (PATH=$room/nothing && package_of "$name"); done | sed 's/, /\n/g' |
    LC_ALL=C sort -u >named
echo 'not in the list:'
LC_ALL=C comm -23 named "$top/tools/packaging/debian_packages"
echo 'in the list only for the tools:'
LC_ALL=C comm -13 named "$top/tools/packaging/debian_packages"
