#!/bin/sh
# Runs tools/scripts.sh of the last commit in new Debian systems: one with git and python3, others also with a C
# compiler, with python3-minimal, or with all packages that tools/packaging/debian_packages lists, and one without git
# and python3. No test may fail there. If the tests name packages with which more tests could run, it installs
# them, and runs the tests again, which must then name no package. It takes half an hour or more, and is not part
# of the gate.
#   tools/soak/fresh_machines.sh           each machine of the list below
#   tools/soak/fresh_machines.sh NAME..    only these machines
#
# Needs root, Debian's debootstrap and util-linux, some 5 GB in TMPDIR, and a mirror: the one that MIRROR
# names, by default deb.debian.org. It mounts only in its own namespace, which ends with the script, and removes
# its folder.
set -u
top=$(CDPATH='' cd "$(dirname "$0")/../.." && pwd -P) || exit 1
mirror=${MIRROR:-http://deb.debian.org/debian}

# The machines, one on each line: the name, the size of /dev/shm (or none), the user who runs the tests, and the
# packages.
machines="
python    4g   root  git python3
no_shm    none root  git python3
compiler  64m  root  git python3 gcc libc6-dev
user      4g   user  git python3 gcc libc6-dev
minimal   4g   root  git python3-minimal
nothing   4g   root
all       4g   root  git $(tr '\n' ' ' <"$top/tools/packaging/debian_packages")
"

# fail REASON: ends the script with a message.
fail() {
    echo "$0: $1" >&2
    exit 2
}

. "$top/tools/lib/machines.sh"

# play SHM USER: runs the tests in the machine, and stores their output in the file `said`.
play() {
    as=
    [ "$2" = root ] || as='setpriv --reuid 1000 --regid 1000 --clear-groups env HOME=/home/user'
    # shellcheck disable=SC2086 # word splitting is intended
    in_machine "$1" $as sh -c 'cd /home/user/tpmsim && tools/scripts.sh' >"$work/said" 2>&1
}

# judge NAME STATUS: prints the result of the tests in a machine, and counts the machine if a test failed.
judge() {
    echo "$1: $(tail -n 1 "$work/said")"
    [ "$2" -eq 0 ] && tail -n 1 "$work/said" | grep -q '^[0-9]* passed, 0 failed' && return
    failed=$((failed + 1))
    grep -v -e '^ok: ' -e '^skipped: ' "$work/said" | sed 's/^/    /'
}

# named: prints the packages that the tests name, with which more tests could run.
named() {
    sed -n 's/^More is played after: apt-get install --no-install-recommends //p' "$work/said"
}

# play_machine NAME SHM USER PACKAGE..: runs the tests in a new machine with these packages. If the tests name
# missing packages, installs them and runs the tests again.
play_machine() {
    name=$1 shm=$2 user=$3
    shift 3
    cp -a "$work/base" "$machine" || fail 'the machine is not copied'
    [ "$#" -eq 0 ] || apt install "$@"
    mkdir -p "$machine/home/user" || fail 'the machine has no home'
    git -c advice.detachedHead=false clone -q "$top" "$machine/home/user/tpmsim" || fail 'the repository is not copied'
    [ "$user" = root ] || chown -R 1000:1000 "$machine/home/user"
    status=0
    play "$shm" "$user" || status=$?
    judge "$name" "$status"
    packages=$(named)
    if [ -n "$packages" ]; then
        # shellcheck disable=SC2086 # word splitting is intended
        apt install $packages
        status=0
        play "$shm" "$user" || status=$?
        judge "$name, and $packages" "$status"
        [ -z "$(named)" ] || { failed=$((failed + 1)) && echo "    it names $(named)"; }
    fi
    rm -rf --one-file-system "$machine"
}

needs_for_machines
command -v git >/dev/null || fail 'there is no git'
work=$(mktemp -d) || exit 1
trap 'rm -rf --one-file-system "$work"' EXIT
trap 'exit 130' INT TERM
failed=0
make_base
machine=$work/machine
# shellcheck disable=SC2046 # word splitting is intended
[ "$#" -gt 0 ] || set -- $(echo "$machines" | awk 'NF { print $1 }')
for wanted do
    echo "$machines" | grep -q "^$wanted " || fail "$wanted is no machine"
    # shellcheck disable=SC2046 # word splitting is intended
    play_machine $(echo "$machines" | grep "^$wanted ")
done
echo "$failed failed"
[ "$failed" -eq 0 ]
