# Uses the Rust package as a git dependency, as INSTALL says. `cargo vendor` copies the package without the library, so
# the build must say what to do: set TPMSIM_LIB_DIR, or vendor the package that tools/crate.sh packs. Both must work
# without the repository. A shared library alone, in the folder TPMSIM_LIB_DIR, must also be found: by an example of
# the package, and by a program with the build script that README shows.
tests=$(cd "$(dirname "$0")/.." && pwd -P)
. "$tests/common/cases.sh"
. "$tests/common/library.sh"
. "$tests/common/rust.sh"
needs cargo git
unset TPMSIM_LIB_DIR
top=${tests%/*}
PATH=$PATH:${HOME:-/root}/.cargo/bin
export CARGO_HOME="$room/cargo" GIT_CONFIG_GLOBAL=/dev/null GIT_CONFIG_SYSTEM=/dev/null

# The repository's files that the package needs, as one commit.
mkdir repository && (cd "$top" && tar cf - clients/rust dist) | (cd repository && tar xf -)
rm -rf repository/clients/rust/target repository/clients/rust/Cargo.lock
git -C repository init -q && git -C repository add . &&
    git -C repository -c user.name=a -c user.email=a@localhost commit -q -m all || exit 1

mkdir -p program/src && cd program || exit 1
printf '[package]\nname = "program"\nversion = "0.0.0"\nedition = "2021"\n[dependencies]\n' >Cargo.toml
# shellcheck disable=SC2016 # the backquotes are those of INSTALL
sed -n 's/^| \[Rust\].*`\(tpmsim = { git = [^`]*\)`.*/\1/p' "$top/INSTALL.md" |
    sed "s|\"URL\"|\"file://$room/folder/repository\"|" | tee -a Cargo.toml | sed "s|$room|ROOM|"
awk '/^```/ { shown = $0 == "```rust" && !blocks++; next } shown' "$top/clients/rust/README.md" >src/main.rs

# run_program LABEL: builds and runs the program, and prints its line without the random bytes.
run_program() {
    echo "== $1"
    CARGO_NET_OFFLINE=$offline cargo run --quiet >../ran 2>&1
    sed 's/[0-9a-f][0-9a-f]\([],]\)/HH\1/g' ../ran
}

offline=false
run_program 'from git'
cargo vendor ../vendored >../settings 2>../said || cat ../said
mkdir .cargo && cp ../settings .cargo/config.toml && mv ../repository ../gone
rm -rf "$CARGO_HOME" "$room/target"
offline=true
echo '== vendored, without the repository'
CARGO_NET_OFFLINE=true cargo build --quiet 2>&1 |
    sed -n "s|$(uname -m)|MACHINE|; s|/dist/MACHINE|/dist|; s|$room|ROOM|g; s/^  tpmsim: /tpmsim: /p"
TPMSIM_LIB_DIR=$dist run_program 'with TPMSIM_LIB_DIR'

"$top/tools/crate.sh" "$room/made" >../said 2>&1 || cat ../said
mkdir packed && tar xzf "$(tail -n 1 ../said)" -C packed
rm -rf .cargo "$room/target"
sed -i "s|^tpmsim = .*|tpmsim = { path = \"$(echo packed/tpmsim-*)\" }|" Cargo.toml
run_program 'what tools/crate.sh packs, in the program'

mkdir ../alone && cp "$dist/libtpmsim.so.0" ../alone/ && ln -s libtpmsim.so.0 ../alone/libtpmsim.so
export TPMSIM_LIB_DIR="$room/folder/alone"
unset LD_LIBRARY_PATH
sed -i "s|^tpmsim = .*|tpmsim = { path = \"../gone/clients/rust\" }|" Cargo.toml
awk '/^```/ { shown = $0 == "```rust" && ++blocks == 2; next } shown' "$top/clients/rust/README.md" >build.rs
run_program 'a program with a shared library alone'
echo '== an example with a shared library alone'
(cd ../gone/clients/rust && cargo run --quiet --example lockout) >../ran 2>&1
head -n 2 ../ran
