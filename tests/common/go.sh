# Functions for the tests of the Go module, which read this file after cases.sh and library.sh. The tests use
# a copy of the module, linked with the archive under test.
# shellcheck shell=sh disable=SC2154 # cases.sh has `room` and `tests`, library.sh `dist`
export CGO_ENABLED=1 GOFLAGS='-buildvcs=false -timeout=1h' GOPROXY=off GOSUMDB=off
export GOCACHE="${TPMSIM_BUILT:-$room}/go" GOPATH="$room/path" CGO_LDFLAGS="-L$dist"

# copy_module: copies the Go module to the folder `module`.
copy_module() {
    cp -r "$tests/../clients/go" module && cp "$dist/tpmsim.h" module/
}

# play WORDS..: runs go in the copied module, and prints its output if it fails.
play() {
    (cd module && go "$@") >said 2>&1 && return
    echo "go $*: status $?"
    tail -n 40 said
    return 1
}
