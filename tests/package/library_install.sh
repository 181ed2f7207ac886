# Checks what `tools/install.sh` does for the dynamic loader and for Python if DESTDIR is not set, and its
# messages. As root, the script calls ldconfig, and installs the Python package where python3 finds it.
tests=$(cd "$(dirname "$0")/.." && pwd -P)
. "$tests/common/cases.sh"
needs python3
top=${tests%/*}
unset PYTHONPATH DESTDIR

# With this stand-in for the compiler, which finds no headers, the modules are not installed. The stand-in
# for ldconfig writes its arguments to `asked`, and prints the content of `known`.
mkdir bin
printf '#!/bin/sh\nexit 1\n' >bin/cc
cat >bin/ldconfig <<END
#!/bin/sh
echo "ldconfig\${*:+ \$*}" >>"$room/folder/asked"
cat "$room/folder/known"
END
# shellcheck disable=SC2016 # the stand-in expands it
printf '#!/bin/sh\necho "$USER_NUMBER"\n' >bin/id
chmod +x bin/*

# install_as USER PREFIX: installs as the user with this number, and prints the messages and the arguments of
# ldconfig.
install_as() {
    : >asked
    USER_NUMBER=$1 PREFIX=$2 PATH=$room/folder/bin:$PATH "$top/tools/install.sh" >said 2>&1 ||
        echo "status $?"
    grep -v 'there is no \(module\|tpmsim-simulator\)' said | cat - asked | sed "s|$room|ROOM|g"
}

# import: prints 1 if python3 finds the package, else 0.
import() {
    (cd / && command python3 -c 'import tpmsim; print(tpmsim.__version__)') | grep -c '^[0-9.]*$'
}

echo '== root, and a prefix where neither looks'
: >known
install_as 0 "$room/opt"
path=$(sed -n "s/^python3 finds tpmsim by PYTHONPATH='\(.*\)'/\1/p" said)
(PYTHONPATH=$path && export PYTHONPATH && import)

echo '== a user, and a prefix where both look'
command python3 -m venv --without-pip "$room/venv"
PATH=$room/venv/bin:$PATH
echo "libtpmsim.so.0 (libc6,x86-64) => $room/venv/lib/libtpmsim.so.0" >known
install_as 1000 "$room/venv"
import
