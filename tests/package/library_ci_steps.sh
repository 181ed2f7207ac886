# Runs the steps of .github/actions/tpmsim, and those of its snippet for GitLab. They start a device, and later
# steps find the device through the job's environment variables. A step must fail if its inputs are wrong or if
# the device does not start.
tests=$(cd "$(dirname "$0")/.." && pwd -P)
. "$tests/common/cases.sh"
. "$tests/common/library.sh"
needs python3 git cc nm strip
top=${tests%/*}
trap 'end_devices; keep_journals; rm -rf "$room"' EXIT

# end_devices: ends all devices that the steps have started.
end_devices() {
    for file in "$room"/*/tpmsim/pid "$room"/*/.tpmsim-device/pid; do
        [ -f "$file" ] || continue
        read -r pid <"$file" || continue
        while kill "$pid" 2>/dev/null; do
            sleep 0.05
        done
    done
}

# Copies the parts of the repository that the steps need, with the library under test.
mkdir -p "$room/source/dist" "$room/source/.github"
cp -r "$top/.github/actions" "$room/source/.github/" && cp -r "$top/hosts" "$room/source/" &&
    cp -L "$dist/tpmsim" "$archive" "$dist/tpmsim.h" "$room/source/dist/"
(cd "$room/source" && git init -q && git add -A && git -c user.name=n -c user.email=e commit -qm sources)

cat >client.py <<'END'
import os
from tpmsim.caller import Caller
from tpmsim.device import ServedDevice, SimulatorDevice

if "TPMSIM_SOCKET" in os.environ:
    device = ServedDevice(os.environ["TPMSIM_SOCKET"])
else:
    device = SimulatorDevice(os.environ["TPMSIM_HOST"], int(os.environ["TPMSIM_PORT"]))
    print(os.environ["TPM2TOOLS_TCTI"].split(":")[0])
with device:
    tpm = Caller(device)
    tpm.start_up()
    print(type(device).__name__, len(tpm.call("GetRandom", bytesRequested=4)["randomBytes"]))
END

for DEVICE in serve simulator; do
    echo "== GitHub, $DEVICE"
    GITHUB_ACTION_PATH=$room/source/.github/actions/tpmsim RUNNER_TEMP=$room/github_$DEVICE GITHUB_ENV=$room/env_$DEVICE
    export DEVICE GITHUB_ACTION_PATH RUNNER_TEMP GITHUB_ENV
    mkdir "$RUNNER_TEMP"
    sed -n "s/^ *- run: '\(.*\)'\$/\1/p" "$GITHUB_ACTION_PATH/action.yml" >step
    sh -e step
    # shellcheck disable=SC2046 # word splitting is intended
    env $(cat "$GITHUB_ENV") python3 client.py

    echo "== GitLab, $DEVICE"
    sed -n -e '/before_script:/,$s/^    - //p' "$GITHUB_ACTION_PATH/gitlab.yml" >step
    echo 'python3 client.py' >>step
    mkdir "$room/gitlab_$DEVICE"
    env TPMSIM_SOURCE="file://$room/source" TPMSIM_DEVICE="$DEVICE" CI_PROJECT_DIR="$room/gitlab_$DEVICE" sh -e step
done

echo '== faults'
start=$room/source/.github/actions/tpmsim/start.sh
"$start" served "$room/none" 2>&1 | sed "s|$room|ROOM|"
rm "$room/source/dist/tpmsim"
"$start" serve "$room/none" 2>&1 | sed -n "1s|$room|ROOM|p"
