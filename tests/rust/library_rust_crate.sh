# Tests the crate file that tools/crate.sh makes, which contains the library for each machine. README's example, a
# program in another folder, uses the unpacked crate. The sources must stay unchanged.
tests=$(cd "$(dirname "$0")/.." && pwd -P)
. "$tests/common/cases.sh"
. "$tests/common/library.sh"
. "$tests/common/rust.sh"
needs cargo
unset TPMSIM_LIB_DIR
top=${tests%/*}

"$top/tools/crate.sh" "$room/made" >said 2>&1 || cat said
crate=$(tail -n 1 said)
version=$(sed -n 's/^version = "\(.*\)"/\1/p' "$top/clients/rust/Cargo.toml")
tar xzf "$crate" && [ "${crate##*/}" = "tpmsim-$version.crate" ] && echo 'it is made'
[ ! -e "$top/clients/rust/target" ] && [ ! -e "$top/clients/rust/Cargo.lock" ] && echo 'nothing is left'
for machine in x86_64 aarch64; do
    [ "$machine" = x86_64 ] && at=$top/dist || at=$top/dist/$machine
    for library in libtpmsim.a libtpmsim.so.0 libtpmsim-kept.so.0; do
        cmp "$at/$library" "tpmsim-$version/native/$machine/$library" && echo "its $library for $machine"
    done
done

mkdir -p program/src
cat >program/Cargo.toml <<END
[package]
name = "program"
version = "0.0.0"
edition = "2021"
[dependencies]
tpmsim = { path = "../tpmsim-$version" }
END
awk '/^```/ { shown = $0 == "```rust" && !blocks++; next } shown' "$top/clients/rust/README.md" >program/src/main.rs
cd program && cargo run --quiet >"$room/ran" 2>&1
sed 's/[0-9a-f][0-9a-f]/HH/g' "$room/ran"
