# Checks the files that are installed with the program. Each link of a document must lead to an installed file,
# and the examples must run. Each file that a man page or a document names must be installed, unless the page
# says that the file is in the sources.
tests=$(cd "$(dirname "$0")/.." && pwd -P)
. "$tests/common/cases.sh"
needs python3
top=${tests%/*}

# With this stand-in for the compiler, which finds no headers, the modules are not installed.
mkdir none
printf '#!/bin/sh\nexit 1\n' >none/cc
chmod +x none/cc
PATH=$room/folder/none:$PATH DESTDIR=$room/root PREFIX=/usr "$top/tools/install.sh" 2>"$room/told" ||
    cat "$room/told"
documents=$room/root/usr/share/doc/tpmsim
pages=$room/root/usr/share/man

# follow: prints the broken links of all documents, and counts documents and links.
follow() {
    (cd "$documents" && find . -name '*.md' | sed 's|^\./||' | LC_ALL=C sort | tr '\n' '\0') |
        xargs -0 env PYTHONPATH= python3 -S "$tests/common/links.py" --count "$documents" |
        sed -e 's/:[0-9]*:/:N:/' -e 's/^[23][0-9] documents, [3-9][0-9][0-9] links/many links/'
}

echo '== links'
follow
echo '[a test](../tests/README.md), [a heading](EXPLAIN.md#none)' >>"$documents/docs/SCRIPTS.md"
follow

echo '== examples'
PATH=$room/root/usr/bin:$PATH
unset PYTHONPATH
cd "$documents/examples" || exit 1
for script in *.tpm; do
    tpmsim run "$script" 2>&1 | cmp - "${script%.tpm}.out"
    tpmsim run --trace "$script" 2>&1 | cmp - "${script%.tpm}.trace"
done
for script in words/*.tpms; do
    tpmsim-script "$script" | tpmsim run - >"$room/told" || echo "$script: status $?"
done
grep -l '[a-z]\.py' ./*.tpm ./*.out ./*.trace | sed 's/^/it names a program: /'
[ "$(find . -name '*.tpm*' | grep -c .)" -ge 15 ] && echo 'at least 15 run'

echo '== names'
cd "$documents" || exit 1
find . -type f ! -path ./README.md -exec grep -lE '(^|[^a-z/.])(\./tpmsim|tools/(explain|audit)\.py)' {} + |
    sed 's/^/it names a program of the sources: /'
sed -n 3p README.md
for page in "$pages"/man*/*.gz; do
    gzip -dc "$page" | sed 's/\\f[BIR]//g' >"$room/page"
    sed '/^\.SH FILES$/,$d' "$room/page" | grep -oE '(^|[^a-z/.])(docs|examples)/[A-Za-z_/]*\.[a-z]*' |
        sed 's/^[^a-z]//' | while read -r file; do
        [ -e "$file" ] || echo "$(basename "$page") names $file"
    done
    for folder in docs examples tests tools dist; do
        sed '/^\.SH FILES$/,$d' "$room/page" | grep -qE "(^|[^a-z/.])$folder/" || continue
        sed '1,/^\.SH FILES$/d' "$room/page" | grep -q "$folder/" ||
            echo "$(basename "$page") does not say where $folder/ is"
    done
done
zcat "$pages/man1/tpmsim-swtpm.1.gz" | sed -n '/^\.SH FILES/,/^\.SH SEE/p'
