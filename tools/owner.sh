#!/bin/sh
# Prints or sets what only the owner of this repository knows. The script replaces the old value in each text file
# that git knows, and tools/packaging/owner holds the current values.
#
#   tools/owner.sh                      prints the values
#   tools/owner.sh contact ADDRESS      where faults are reported, and who maintains the packages
#   tools/owner.sh repository URL       where the repository is, for the packages of each language
#   tools/owner.sh go PATH              the import path of the Go module, which has a dot before its first slash
set -u
cd "$(dirname "$0")/.." || exit 1
facts=tools/packaging/owner

# fail REASON: ends the script with a message.
fail() {
    echo "$0: $1" >&2
    exit 1
}

# Prints the pattern that the value of a fact must match as a whole.
pattern_of() {
    case $1 in
    contact) echo '[A-Za-z0-9._+-]*@[A-Za-z0-9.-]*[.][A-Za-z]*' ;;
    repository) echo 'https://[A-Za-z0-9._/-]*' ;;
    go) echo '[a-z0-9-]*[.][a-z0-9.-]*/[A-Za-z0-9._/-]*' ;;
    *) fail "there is no fact $1: usage: $0 [contact ADDRESS | repository URL | go PATH]" ;;
    esac
}

[ "$#" -ne 0 ] || exec cat "$facts"
[ "$#" -eq 2 ] || fail "usage: $0 [contact ADDRESS | repository URL | go PATH]"
pattern=$(pattern_of "$1") || exit 1
printf '%s\n' "$2" | grep -qx "$pattern" || fail "$2 is no value of $1: it is not of the form $pattern"
old=$(sed -n "s/^$1: //p" "$facts")
work=$(mktemp) || exit 1
trap 'rm -f "$work"' EXIT
count=0
quoted=$(printf '%s' "$old" | sed 's/[.]/[.]/g')
for file in $(git grep -lIF --untracked -e "$old"); do
    { sed "s|$quoted|$2|g" "$file" >"$work" && cat "$work" >"$file"; } || fail "$file is not written"
    count=$((count + 1))
done
echo "$1: $2, in $count files"
