# Checks the modes of the files that a device in Python makes: an image with its lock, and the files in a
# device's folder. Only their owner may read and write them, whatever the umask. If the files lacked these
# permissions, an owner who is not root could not open the device in the next process.
tests=$(cd "$(dirname "$0")/.." && pwd -P)
. "$tests/common/cases.sh"
. "$tests/common/library.sh"
needs python3

for mask in 000 022 277 777; do
    mkdir "$mask" && cd "$mask" || exit 1
    (
        umask "$mask"
        TPMSIM_LIBRARY=$shared python3 -c '
from tpmsim.device.kept import KeptDevice
from tpmsim.device.library import LibraryDevice

with LibraryDevice("image") as device:
    device.execute(b"")
with KeptDevice("state") as device:
    device.execute(b"")
'
    )
    echo "umask $mask: $(stat -c '%n %a' image image.lock state state/journal state/lock | paste -s -d,)"
    cd .. || exit 1
done
