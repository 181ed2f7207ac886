# Tests a device in swtpm that is suspended and continues in another process. Its sessions, its objects and the
# contexts of the completing layer are used before and after the suspension. Then random commands are executed
# on a device that is suspended and on one that is never suspended (tools/soak/suspended.sh executes more).
tests=$(cd "$(dirname "$0")/.." && pwd -P)
. "$tests/common/cases.sh"
. "$tests/common/swtpm.sh"
cc -O1 -shared -fPIC -Wall -Wextra -Werror -o "$room/host.so" "$tests/common/host.c" || exit 1

for kind in '' sanitized; do
    label "in the middle of sessions${kind:+, $kind}"
    mkdir "left$kind"
    python3 "$tests/swtpm/resumed.py" "$room/caller${kind:+.$kind}" \
        "$room/${kind:-swtpm}/libtpms.so.0" "left$kind"
done

label 'commands at random'
python3 "$tests/swtpm/suspended.py" "$room/caller" "$room/swtpm/libtpms.so.0" "$room/host.so" 1 4 250
