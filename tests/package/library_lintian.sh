# Checks that lintian reports no error for the packages, and an error for a package without a copyright file. The
# package contains the modules if their headers are installed.
tests=$(cd "$(dirname "$0")/.." && pwd -P)
. "$tests/common/cases.sh"
needs dpkg-deb python3 lintian
top=${tests%/*}

TPMSIM_PACKING=gzip "$top/tools/deb.sh" made >packages 2>said || cat said
mkdir -p wrong/DEBIAN
cat >wrong/DEBIAN/control <<'END'
Package: wrong
Version: 1
Architecture: all
Maintainer: Nobody <nobody@debian.org>
Description: package without a copyright file
 It has nothing in it.
END
dpkg-deb -Zgzip --root-owner-group -b wrong wrong.deb >said
lintian --allow-root --no-cfg made/*.deb wrong.deb >found 2>&1
echo "status $?"
grep '^E: ' found
echo "packages with lines: $(grep -oE '^W: (lib)?tpmsim(0|-dev)?:' found | sort -u | wc -l)"
