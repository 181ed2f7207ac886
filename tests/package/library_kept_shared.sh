# Tests the C host, which keeps devices in folders, as a shared object made by hosts/shared.sh. Checks that the
# shared object in dist/ is made from the current sources, and which names it defines and needs.
tests=$(cd "$(dirname "$0")/.." && pwd -P)
. "$tests/common/cases.sh"
. "$tests/common/library.sh"
[ "$(uname -m)" = x86_64 ] || skip 'the one in dist/ is for x86-64'
needs gcc nm objdump python3
top=${tests%/*}
kept=$dist/libtpmsim-kept.so.0

"$top/hosts/shared.sh" --check 2>said && echo 'it is that of the sources'
nm -D --defined-only "$kept" | awk '$2 == "T" { sub(/@.*/, "", $3); print $3 }' | sort >shown
grep -o '\<tpmsim_kept_[a-z_]*(' "$top/hosts/kept/tpmsim_kept.h" | tr -d '(' | sort -u >declared
cmp shown declared && echo 'it shows what the header declares'
nm -D --undefined-only "$kept" | sed -n 's/.* \(tpmsim_[a-z_]*\).*/\1/p' | sort >wanted
nm -D --defined-only "$shared" | awk '{ sub(/@.*/, "", $3); print $3 }' | sort | comm -23 wanted - |
    sed 's/$/ is not in libtpmsim.so.0/'
objdump -p "$kept" | sed -n 's/^ *\(NEEDED\|SONAME\|RUNPATH\) */\1 /p'
objdump -h "$kept" | grep -c ' [.]note[.]gnu[.]build-id ' | sed 's/^/build ids: /'

echo '== in other folders'
mkdir copy
(cd "$top" && tar cf - hosts clients/c tools crates.txt dist/PROVED dist/libtpmsim.so.0) | tar xf - -C copy
copy/hosts/shared.sh && mv copy/dist/libtpmsim-kept.so.0 first && mv copy 'another copy' &&
    'another copy/hosts/shared.sh' && cmp first 'another copy/dist/libtpmsim-kept.so.0' &&
    echo 'the same bytes'
echo '/* more */' >>'another copy/hosts/kept/tpmsim_kept.h'
'another copy/hosts/shared.sh' --check 2>said
echo "a source is another: status $?"

echo '== in a process'
cat >loads.py <<'PROGRAM'
import ctypes
import sys

# Loads the shared object by its path: alone, and after the libtpmsim.so.0 of another folder.
for path in sys.argv[1:]:
    ctypes.CDLL(path)
maps = open("/proc/self/maps", encoding="utf-8").read().split()
print(len({it for it in maps if it.endswith("/libtpmsim.so.0")}), "libtpmsim.so.0")
PROGRAM
python3 loads.py "$kept"
mkdir other && cp "$shared" other/ && python3 loads.py "$PWD/other/libtpmsim.so.0" "$kept"
