# Tests libtpms.so.0 with callbacks that break their contract, with swtpm/caller.c, which takes the role of swtpm:
# callbacks that are replaced while the power is on, and a state that is loaded without bytes. Also tests that the
# state of an older library is read within its bytes, even if the journal in it contains a zero.
tests=$(cd "$(dirname "$0")/.." && pwd -P)
. "$tests/common/cases.sh"
. "$tests/common/swtpm.sh"
hosts=$tests/../hosts

label 'callbacks that cannot keep a state: the earlier ones stay, and store the next command'
for which in none few cut; do
    echo "$which"
    play <<END
on
callbacks $which
do Startup 0
do NV_DefineSpace OWNER pw:- 61 01000002000b0004000400000008
off
callbacks $which
on
do Startup 0
END
    rm permall
done

label 'all callbacks again, while the power is on'
play <<END
on
callbacks all
do Startup 0
do NV_DefineSpace OWNER pw:- 61 01000002000b0004000400000008
save volatilestate
END

label 'a state that is loaded without bytes'
cp permall before
play <<END
load empty
on
get permanent image
get volatile image
validate 3
load works
on
do Startup 0
END
cmp permall before && echo 'what was kept is as it was'

label 'an older state, of which a zero is a part'
# shellcheck disable=SC2086 # word splitting is intended
cc -std=c11 -D_GNU_SOURCE= -O1 -Wall -Wextra -Werror -Wconversion $sanitizers -I"$hosts/libtpms" -I"$hosts/kept" \
    -I"${TPMSIM_ARCHIVE%/*}" -o "$room/older" "$tests/swtpm/older/zeros.c" "$hosts/libtpms/older.c" \
    "$hosts/libtpms/report.c" "$hosts/kept/secret.c" || exit 1
timeout 600 "$room/older" 2>&1 || echo "status $?"
