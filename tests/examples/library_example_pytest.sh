# Runs pytest in examples/pytest, a project in Python whose tests use devices. Also runs it with a device that
# was started in the same way as in a CI job.
tests=$(cd "$(dirname "$0")/.." && pwd -P)
. "$tests/common/cases.sh"
. "$tests/common/library.sh"
needs python3 pytest-3
TPMSIM_LIBRARY=$shared
PYTHONDONTWRITEBYTECODE=1
export TPMSIM_LIBRARY PYTHONDONTWRITEBYTECODE
cp -r "$tests/../examples/pytest" project

# play: runs pytest, and prints the last line of its output, without the time.
play() {
    (cd project && pytest-3 -q -p no:cacheprovider -p tpmsim.pytest_plugin >../said 2>&1) || cat said
    tail -n 1 said | sed 's/ in .*//'
}

play
timeout 600 "$dist/tpmsim" serve --socket tpm.sock --image tpm.image --entropy /dev/urandom --locality 0 --connections 1 &
until [ -S tpm.sock ] || ! kill -0 "$!"; do sleep 0.1; done
export TPMSIM_SOCKET="$PWD/tpm.sock"
play
wait $!
