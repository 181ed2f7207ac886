# Checks that the image of a served device on a full disk stays unchanged. When there is space again, the device
# continues from that image. The disk is mounted only for this test, by root or by a user who may be root in a
# namespace.
if [ -z "${own_mounts:-}" ]; then
    for user in '' '--user --map-root-user'; do
        # shellcheck disable=SC2086 # word splitting is intended
        ! unshare $user --mount true 2>/dev/null ||
            own_mounts=yes exec unshare $user --mount sh "$0" "$@"
    done
fi
tests=$(cd "$(dirname "$0")/.." && pwd -P)
. "$tests/common/cases.sh"
. "$tests/common/served.sh"

mkdir disk || exit 1
if [ -z "${own_mounts:-}" ] || ! mount -t tmpfs -o size=16k none disk 2>"$room/error"; then
    skip 'no disk can be mounted for this test alone'
fi
startup=$(words 'Startup 0')
change=$(words 'HierarchyChangeAuth OWNER pw:- 6f776e')
back=$(words 'HierarchyChangeAuth OWNER pw:6f776e -')

begin 1
talk 'an authorization value' 4096 "$startup" "$change"
ended 'one connection'
mv image kept
cp kept disk/image
image=disk/image
head -c 1000000 /dev/zero >disk/full 2>/dev/null
begin 1
talk 'a full disk' 4096 "$startup" "$back"
ended 'one connection'
cmp disk/image kept && echo 'the image is as it was'
rm disk/full
begin 1
talk 'a disk with room again' 4096 "$startup" "$back"
ended 'one connection'
# shellcheck disable=SC2012 # the files have simple names
echo "on it: $(ls -A disk | tr '\n' ' ')"
umount disk
