# Checks the man pages. man must print each of them without a warning. The pages must describe everything
# that the program's help, the header and the documents describe. The program's page must contain each
# subcommand that its --help lists, even a new one.
tests=$(cd "$(dirname "$0")/.." && pwd -P)
. "$tests/common/cases.sh"
needs python3 man groff
top=${tests%/*}
make="$top/tools/man/pages.py"

# shown PAGE: prints a page as a reader sees it, without the spaces that fill a line.
shown() {
    LC_ALL=C.UTF-8 MANWIDTH=100 man --warnings=w --nj -l "$1" 2>>warnings |
        sed 's/ \{1,\}/ /g'
}

python3 "$make" made --program "$program" || echo "status $?"
: >warnings
for page in made/*; do
    case $(cat "$page") in
    .so*) echo "$(basename "$page"): $(cat "$page")" ;;
    *) shown "$page" >"$(basename "$page").txt" && sed -n '/^NAME$/{n;p;q;}' "$(basename "$page").txt" ;;
    esac
done
echo "warnings: $(told warnings)"

echo '== what is in no page of what the program, its lines and the header have'
for name in $("$program" --help | sed -n '/^Commands:/,/^$/s/^  \([a-z]*\) .*/\1/p'); do
    [ "$name" != help ] || continue
    grep -q "^ tpmsim $name" tpmsim.1.txt || echo "tpmsim $name"
    for option in $("$program" "$name" --help | sed -n 's/^ *\(--[a-z-]*\) .*/\1/p'); do
        grep -q "^ $option" tpmsim.1.txt || echo "$name $option"
    done
done
"$program" lines | sed 's/^ */ /' | while read -r line; do
    grep -qF -e "$line" tpmsim-script.5.txt || echo "$line"
done
sed -n 's/^[a-z].* \**\(tpmsim_[a-z_]*\)(.*/\1/p' "$top/clients/c/tpmsim.h" | while read -r call; do
    grep -q "$call(" libtpmsim.3.txt || echo "$call"
done

echo '== a program with another subcommand'
ln -s "$tests/common/coming_program.sh" coming
python3 "$make" coming_pages --program ./coming
shown coming_pages/tpmsim.1 | awk '
    /^[A-Z]/ { told = /^(NAME|SYNOPSIS|COMMANDS)$/ }
    told && NF'

echo '== a section that is not there, and a program that is not'
mkdir -p copy/tools/packaging
cp -r "$top/tools/man" copy/tools/
for name in docs clients; do ln -s "$top/$name" "copy/$name"; done
sed 's/#microsofts-protocol/#whom/' "$top/tools/packaging/pages.toml" >copy/tools/packaging/pages.toml
python3 copy/tools/man/pages.py none --program "$program" 2>&1
echo "status $?"
python3 "$make" none --program ./none 2>&1 | sed "s|$room|ROOM|g"
ls none 2>/dev/null || echo 'no page is made'
