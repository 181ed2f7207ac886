# Checks the modes of the files that the program makes: an image with its lock, a log, the socket, and the files
# of a device in a folder. Only their owner may read and write them, whatever the umask. If the files lacked
# these permissions, an owner who is not root could not open the device in the next run.
tests=$(cd "$(dirname "$0")/.." && pwd -P)
. "$tests/common/cases.sh"
needs python3

echo 'do Startup 0' >script
head -c 4096 /dev/zero >entropy
: >"$room/output"
for mask in 000 022 077 277 777; do
    mkdir "$mask" && cd "$mask" || exit 1
    (
        umask "$mask"
        "$program" run --image image ../script >"$room/output"
        "$program" run --state state ../script >"$room/output"
        "$program" serve --socket socket --image served --log log --entropy ../entropy --locality 0 \
            --connections 1 &
        until [ -S socket ] || ! kill -0 "$!"; do sleep 0.01; done
        stat -c '%n %a' socket
        python3 "$tests/common/client.py" socket 4096 80010000000c000001440000 >"$room/output"
        wait
    ) >modes 2>"$room/error"
    cat "$room/error"
    stat -c '%n %a' image image.lock served served.lock log state state/journal state/lock >>modes
    echo "umask $mask: $(paste -s -d, modes)"
    cd .. || exit 1
done
