#!/bin/sh
# Builds dist/tpmsim.wasm, the device as a module for web pages and for node, and writes the module's lines in
# dist/PROVED: the prover's verdict for WebAssembly, the version of the kit, the checksums of the sources and of
# the module, and the tool that converted it.
#
# The kit links a module whose memory has 64-bit addresses. Debian's binaryen converts it to a module with
# 32-bit addresses, which every browser and node run without a flag. Only the converted module is shipped.
# Neither binaryen nor the linker is part of the proof.
#
#   tools/web.sh           builds it
#   tools/web.sh --check   checks dist/tpmsim.wasm: builds it again and compares the bytes, if kit and
#                          binaryen are those that PROVED names; otherwise checks only its checksums
#
# The crates below the module's crate must have been built here by `rt ci`, and no source may be newer.
# tools/build.sh builds them. Needs `rt`, and Debian's binaryen.
set -u
cd "$(dirname "$0")/.." && top=$(pwd -P) || exit 1
. tools/lib/proved.sh
. tools/lib/compiling.sh
ship x86_64
target=wasm64-unknown-unknown
# The size of the stack in bytes. The stack is below all memory that a page passes to the module.
stack=1048576
work=$(mktemp -d) || exit 1
trap 'rm -rf "$work"' EXIT
log=$work/log
: >"$log"

# fail REASON: ends the script with a message, and prints the end of the log.
fail() {
    [ ! -s "$log" ] || tail -n 20 "$log" >&2
    echo "$0: $1" >&2
    exit 1
}

# Proves and compiles the crate of the exported functions, and stores the verdict.
compile_exports() {
    compile "$top" tpmsim_web "$work/exports.a" --target "$target" --cpu lime1 >"$log" 2>&1 &&
        verdict=$(grep -o "^logic=proved functions=[0-9]* target=$target" "$log")
}

link() {
    toolchain=$(kit_folder)/toolchain &&
        "$(kit_folder)/bin/rattle-link" --target "$target" --toolchain "$toolchain" --stack "$stack" \
            -o "$work/wide.wasm" "$work/exports.a" >>"$log" 2>&1
}

# Converts the module to 32-bit addresses. It also uses the other features of WebAssembly that are enabled here,
# which all browsers have.
lower() {
    wasm-opt --enable-memory64 --enable-bulk-memory --enable-sign-ext --enable-mutable-globals \
        --enable-nontrapping-float-to-int --memory64-lowering "$work/wide.wasm" -o "$work/tpmsim.wasm" \
        >>"$log" 2>&1
}

# Appends the module's lines to dist/PROVED.
tell_proved() {
    {
        [ ! -f "$proved" ] || sed '/^web /d' "$proved"
        echo "web kit: $kit"
        echo "web verdict: $verdict"
        echo "web sources: $made_of"
        echo "web lowering, which is no prover's step: $binaryen"
        echo "web module: $(checksum <"$module")"
    } >"$proved.new" && mv "$proved.new" "$proved"
}

deliver() {
    mkdir -p dist && mv "$work/tpmsim.wasm" "$module" && chmod 644 "$module" && tell_proved
}

# Prints the faults of dist/tpmsim.wasm, one on each line.
faults() {
    faults_of_module
    if ! { is_proved 'web kit' "$kit" && is_proved "web lowering, which is no prover's step" "$binaryen"; }; then
        echo "the kit or binaryen here is another than that of $module: the bytes are not compared" >&2
    elif ! cmp -s "$work/tpmsim.wasm" "$module"; then
        echo "$module has other bytes than those that are made here"
    fi
}

for tool in rt rattle wasm-opt; do
    command -v "$tool" >/dev/null || fail "there is no $tool"
done
case $* in
'' | --check) ;;
*)
    echo "usage: $0 [--check]" >&2
    exit 2
    ;;
esac
kit=$(rt version) && binaryen=$(wasm-opt --version) && made_of=$(sources_checksum tpmsim_web) || exit 1
are_built tpmsim_web || fail 'a crate is not built here, or a source is newer: tools/build.sh builds them'
compile_exports || fail 'the exports are not compiled'
link || fail 'the module is not linked'
lower || fail 'the module is not lowered'
[ "$made_of" = "$(sources_checksum tpmsim_web)" ] || fail 'a source changed meanwhile'
if [ "$*" = --check ]; then
    faults=$(faults)
    [ -z "$faults" ] || { printf '%s\n' "$faults" && exit 1; }
else
    deliver || fail 'dist/ is not written'
    echo "tpmsim_web: $verdict"
fi
