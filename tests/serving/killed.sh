# Kills a served device at random moments. The image that remains must be complete. It contains the device after
# the last connection that the program finished. If the client had already closed the next connection, the image
# may contain the device after that connection instead. common/kills.py explains why. tools/soak/kills.sh kills
# the device more often.
tests=$(cd "$(dirname "$0")/.." && pwd -P)
. "$tests/common/cases.sh"
needs python3

python3 "$tests/common/kills.py" "$program" 40 1
