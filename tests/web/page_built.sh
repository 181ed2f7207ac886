# Checks the page in dist/ without a browser. It must be the page that web/build.py makes. Its content security
# policy must contain the hashes of its style and its script. Its links must lead to sections of docs/table. Its
# colours must have enough contrast.
tests=$(cd "$(dirname "$0")/.." && pwd -P)
. "$tests/common/cases.sh"
needs python3

top=${tests%/*}
python3 "$top/web/build.py" --out one.html >said && python3 "$top/web/build.py" --out other.html >>said || exit 1
cmp one.html other.html && echo 'twice the same bytes'
python3 "$top/web/build.py" --check >said && echo 'those of dist/tpmsim.html'
python3 "$tests/web/page_built.py" "$top/dist/tpmsim.html" "$top/web/page/page.css"
