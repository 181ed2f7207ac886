# Checks that only one run at a time can use an image. Another run ends with `tpmsim: file`, and changes
# nothing. If a run cannot use its image or its random bytes, it reports that at once, without waiting for
# input.
tests=$(cd "$(dirname "$0")/.." && pwd -P)
. "$tests/common/cases.sh"
. "$tests/common/served.sh"

startup=$(words 'Startup 0')
change='HierarchyChangeAuth OWNER pw:- 6f776e'
echo 'do Startup 0' >script
printf 'do Startup 0\ndo %s\n' "$change" >asks
mkfifo lines

# script_begins: plays a script on the image. The run executes the first line, and waits for more input.
script_begins() {
    "$program" run --image image - <lines >"$room/first" 2>&1 &
    exec 3>lines
    echo 'do Startup 0' >&3
    until [ -s "$room/first" ]; do sleep 0.01; done
}

# device_begins CONNECTIONS: serves this number of connections to the device in the image.
device_begins() {
    "$program" serve --socket socket --image image --entropy entropy --locality 0 \
        --connections "$1" >"$room/first" 2>&1 &
    there
}

# ends LABEL: prints how the run ended, and its output.
ends() {
    status=0
    wait "$!" || status=$?
    echo "$1: status $status, $(told "$room/first")"
}

# script_ends: sends one more line of the script, and ends the script.
script_ends() {
    echo "do $change" >&3
    exec 3>&-
    ends 'that script'
}

# serve LABEL IMAGE: runs `serve` on this image with a socket of its own. It exits without accepting a
# connection.
serve() {
    run "$1" serve --socket own --image "$2" --entropy entropy --locality 0 --connections 0
    [ ! -e own ] || echo '    its socket is there'
}

# others LABEL: while one run uses the image, prints the results of other runs on it. The other runs must
# affect neither the first run nor the file image.new.
others() {
    echo left >image.new
    [ ! -e image ] || stat -c '%i %y' image >"$room/before"
    run "$1, another script" run --image image script
    run "$1, another script with random bytes" run --image image --entropy entropy script
    run "$1, another one that is not there" run --image image --entropy missing missing
    serve "$1, a served device" image
    run "$1, the image by another path" run --image ../folder/./image script
    [ ! -e image ] || stat -c '%i %y' image | cmp - "$room/before"
    echo "    at image.new: $(cat image.new)"
}

# A run that plays a script locks the image.
rm -f image
script_begins
others 'a script is played'
script_ends
[ ! -e image.new ] || echo 'image.new is there'
run 'what it was told is there' run --image image asks

# A run that serves the device locks the image, even before the image exists.
rm image
device_begins 2
others 'a device is served'
[ ! -e image ] || echo 'an image is there'
talk 'the served device' 4096 "$startup" "$(words "$change")"
talk 'its second connection' 4096 "$(words "$change")"
ends 'that device'
run 'what it was told is there' run --image image asks

# A run that is killed leaves no lock.
for kind in script device; do
    if [ "$kind" = script ]; then
        script_begins
    else
        device_begins 1
    fi
    kill -9 "$!"
    wait "$!" 2>"$room/killed"
    exec 3>&-
    run "a $kind is killed, and the next run" run --image image script
    serve 'and a served device' image
    rm -rf socket .0
done

# If many runs begin at the same time, only one of them continues.
rm image
exec 3<>lines
for number in 1 2 3 4 5 6 7 8; do
    : >"$room/many$number"
    "$program" run --image image - <lines 2>"$room/many$number" 3>&- &
done
while [ "$(cat "$room"/many* | wc -l)" -lt 7 ]; do sleep 0.01; done
exec 3>&-
wait
cat "$room"/many* >"$room/many"
echo "eight runs at once: $(told "$room/many")"

# The lock file is next to the image, and remains there. Only its owner may access it, and it is empty.
rm -f image*
(umask 000 && run 'a new device' run --image image script)
stat -c '%n %A %s' image*
echo held >image.lock
run 'a lock that holds text' run --image image script
echo "    $(cat image.lock)"
rm image.lock
mkfifo image.lock
run 'a pipe in place of the lock' run --image image script
rm image.lock
mkdir image.lock
run 'a folder in place of the lock' run --image image script
rmdir image.lock
ln -s nowhere image.lock
run 'a link to nowhere in place of the lock' run --image image script
[ ! -e nowhere ] || echo 'nowhere is there'
rm image.lock

# A link to an image counts as a separate image. The first save replaces the link with a file.
script_begins
ln -s image link
run 'a link to the image that a script has' run --image link script
stat -c '%n %F' link
script_ends
rm link link.lock

# A path that is not a regular file is not an image. No lock file is made for it.
mkfifo pipe
mkdir folder
ln -s /dev/zero device
ln -s pipe link
python3 -c "import socket; socket.socket(socket.AF_UNIX).bind('listener')"
for kind in pipe folder device link listener folder/ missing/ missing/image ''; do
    run "the image '$kind', a script" run --image "$kind" script
    serve "the image '$kind', a served device" "$kind"
done
# shellcheck disable=SC2012 # the files have simple names
echo "all that is there: $(ls -A | tr '\n' ' ')"

# Random bytes cannot be read from a folder. They can be read from a pipe as soon as somebody writes to it.
run 'a folder of random bytes, a script' run --image image --entropy folder script
run 'a folder of random bytes, a new device' run --image new --entropy folder script
run 'a folder of random bytes, a served device' serve --socket own --image image --entropy folder \
    --locality 0 --connections 1
[ ! -e own ] || echo 'its socket is there'
(sleep 0.2 && cat entropy >pipe) &
run 'random bytes through a pipe' run --image new --entropy pipe script
