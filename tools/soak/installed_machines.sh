#!/bin/sh
# Installs each package in a new Debian system, and uses it there as its documents describe:
#
#   deb      apt-get installs it: the loader and man find it, and README's commands, the examples in
#            examples/words, in C and in Python, tpm2-tools and a program in C run. Then apt-get removes
#            everything again.
#   wheel    pip installs it in a plain venv without a network, and README's first example in Python runs.
#   crate    Debian's cargo tests the unpacked crate, and README's example in Rust runs.
#   module   Debian's go tests the folder clients/go/ of a clone, and README's example in Go runs.
#
#   tools/soak/installed_machines.sh           all four packages
#   tools/soak/installed_machines.sh NAME..    only these
#
# It prints a line for each check, with the output if the check fails. The status is 1 if a check fails. Needs
# root, what tools/deb.sh and tools/crate.sh need, Debian's debootstrap and util-linux, 3 GB in TMPDIR, and a
# mirror: the one that MIRROR names, by default deb.debian.org. It is not part of the gate.
set -u
top=$(CDPATH='' cd "$(dirname "$0")/../.." && pwd -P) || exit 1
mirror=${MIRROR:-http://deb.debian.org/debian}

# fail REASON: ends the script with a message.
fail() {
    echo "$0: $1" >&2
    exit 2
}

. "$top/tools/lib/machines.sh"

# block LANGUAGE FILE: prints the first code block of a document in this language.
block() {
    awk -v fence="\`\`\`$1" '/^```/ { shown = $0 == fence && !blocks++; next } shown' "$2"
}

# check WHAT WORDS..: checks that a command succeeds in the machine. If not, prints its output.
check() {
    what=$1
    shift
    if in_machine 64m "$@" >"$work/said" 2>&1; then
        echo "ok: $name: $what"
    else
        echo "FAILED: $name: $what"
        tail -n 15 "$work/said" | sed 's/^/    /'
        failed=$((failed + 1))
    fi
}

# Copies a script from standard input into the machine.
script() {
    cat >"$machine/root/$1"
}

deb() {
    "$top/tools/deb.sh" "$work/made" >"$work/debs" || fail 'there are no packages'
    mkdir "$machine/root/debs" && cp "$work"/made/*.deb "$machine/root/debs"
    apt install man-db gcc libc6-dev tpm2-tools
    check 'apt-get installs them' sh -c 'apt-get install -y --no-install-recommends /root/debs/*.deb'
    check 'the loader finds the library' sh -c 'ldconfig -p | grep libtpmsim.so.0'
    script commands <<'END'
cd /root && echo 'do Startup 0' | tpmsim run --trace - >said
printf 'Startup L0 +0 ok 00000000\n80010000000a00000000\n' | cmp - said
for tool in audit explain; do tpmsim-$tool --help; done
for tool in compare coverage refusals script simulator; do tpmsim-$tool --help; done
END
    check "README's command, and each tool" sh -e /root/commands
    script manual <<'END'
export MANWIDTH=1000
dpkg -L tpmsim | sed -n 's|^/usr/share/man/man.*/\(.*\)[.]\([0-9]\)[.]gz$|\2 \1|p' | sort >/root/pages
test -s /root/pages
while read -r section page; do
    man --nh --nj "$section" "$page" >/root/page && test -s /root/page
    [ "$section" != 1 ] || command -v "$page"
    sed -n '/^SEE ALSO/,$s/\([a-z0-9-]*\)(\([0-9]\))/\n\2 \1\n/gp' /root/page | grep '^[0-9] [a-z]' >/root/others
    while read -r other; do grep -qx "$other" /root/pages || { echo "$page: $other"; exit 1; }; done </root/others
done </root/pages
END
    check 'man shows each page, and each that it names is there' sh -e /root/manual
    script examples <<'END'
cd /usr/share/doc/tpmsim/examples
for it in *.tpm; do tpmsim run "$it" | cmp - "${it%.tpm}.out"; done
for it in words/*.tpms; do tpmsim-script "$it" | tpmsim run --trace - >/root/said; done
for it in python/*.py; do python3 "$it"; done
for it in c/*.c; do cc -std=c11 -D_DEFAULT_SOURCE -o /root/example "$it" -ltpmsim && /root/example; done
END
    check 'the examples run' sh -e /root/examples
    script links <<'END'
find / -xdev -xtype l -name '*tpmsim*' | grep . && exit 1
cd /usr/share/doc/tpmsim && find . -name '*.md' | grep -q .
END
    check 'no link is dead' sh -e /root/links
    script tools <<'END'
export TPM2TOOLS_TCTI=tpmsim:state=/root/tpm
tpm2_startup -c && tpm2_getrandom --hex 4 && tpmsim-power /root/tpm
END
    check 'tpm2-tools reach a device' sh -e /root/tools
    check 'apt-get removes it' apt-get purge -y tpmsim
    check 'nothing is left' sh -c '! find / -xdev -name "*tpmsim*" -not -path "/root/*" -not -path "/var/cache/*" \
        -not -path "/var/log/*" | grep .'
}

wheel() {
    made=$("$top/tools/wheel.py" "$work/made") || fail 'there is no wheel'
    cp "$made" "$machine/root/"
    apt install python3-venv
    block python "$top/clients/python/README.md" | script example.py
    script install <<'END'
cd /root && python3 -m venv venv && venv/bin/pip install --no-index ./*.whl
cd / && /root/venv/bin/python /root/example.py | grep -x '[0-9a-f]\{8\}'
echo 'do Startup 0' | /root/venv/bin/tpmsim-script -
END
    check "pip installs it, and README's example runs" sh -e /root/install
}

crate() {
    made=$("$top/tools/crate.sh" "$work/made" | tail -n 1) || fail 'there is no crate'
    apt install cargo
    tar xzf "$made" -C "$machine/root" && mv "$machine"/root/tpmsim-* "$machine/root/tpmsim"
    mkdir -p "$machine/root/program/src"
    block rust "$top/clients/rust/README.md" | script program/src/main.rs
    printf '[package]\nname = "program"\nversion = "0.0.0"\nedition = "2021"\n[dependencies]\n%s\n' \
        'tpmsim = { path = "../tpmsim" }' | script program/Cargo.toml
    check "README's example runs" sh -ec 'cd /root/program && cargo run --offline | grep "^\[.*\]$"'
    check 'cargo tests it' sh -ec 'cd /root/tpmsim && cargo test --offline'
    check 'an example runs' sh -ec 'cd /root/tpmsim && cargo run --offline --example encrypted_session'
}

module() {
    apt install golang-go gcc libc6-dev
    mkdir "$machine/root/program"
    git clone -q "$top" "$machine/root/tpmsim" || fail 'the repository is not copied'
    block go "$top/clients/go/README.md" | script program/main.go
    printf 'module program\n\ngo 1.19\n' | script program/go.mod
    script run <<'END'
export GOPROXY=off GOFLAGS=-buildvcs=false
cd /root/program && go mod edit -require=example.org/tpmsim@v0.1.0 -replace=example.org/tpmsim=/root/tpmsim/clients/go
go run . | grep '^80010000001000000000.* <nil>$'
cd /root/tpmsim/clients/go && go test ./... && go run ./examples/encrypted_session
END
    check "README's example runs, and go tests it" sh -e /root/run
}

needs_for_machines
[ "$#" -gt 0 ] || set -- deb wheel crate module
for name do
    case $name in
    deb | wheel | crate | module) ;;
    *) fail "$name is no package" ;;
    esac
done
work=$(mktemp -d) || exit 1
trap 'rm -rf --one-file-system "$work"' EXIT
trap 'exit 130' INT TERM
failed=0
make_base
machine=$work/machine
for name do
    cp -a "$work/base" "$machine" || fail 'the machine is not copied'
    "$name"
    rm -rf --one-file-system "$machine"
done
echo "$failed failed"
[ "$failed" -eq 0 ]
