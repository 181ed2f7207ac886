# Functions for the scripts that compile a crate with the tools that `rt` uses, and with the libraries that the
# crate needs. These scripts source this file in the repository's folder, after tools/lib/proved.sh.
# shellcheck shell=sh

# kit_folder: prints the folder of Rattle's toolchain.
kit_folder() {
    found=$(readlink -f "$(command -v rattle)") && echo "${found%/bin/*}"
}

# compile REPOSITORY CRATE FILE [WORDS..]: proves a crate, and compiles it to a file: a static library to an
# archive, a program to an object file. The libraries that it uses must have been built in the repository.
compile() (
    crates=$1/crates
    crate=$2
    file=$3
    shift 3
    toolchain=$(kit_folder) || return 1
    root=src/lib.rt
    [ ! -e "$crates/$crate/src/main.rt" ] || root=src/main.rt
    ! grep -q "^$crate staticlib" crates.txt || set -- --crate-type staticlib "$@"
    for library in std $(uses "$crate"); do
        folder=$crates/$library/out/rlib
        [ -d "$crates/$library" ] || folder=$toolchain/rlibs
        set -- "$@" --extern "$library=$folder/$library.rlib"
    done
    for library in $(crates_below "$crate"); do
        set -- "$@" -L "dependency=$crates/$library/out/rlib"
    done
    cd "$crates/$crate" && rattle build --crate-name "$crate" "$root" "$@" \
        -L "dependency=$toolchain/rlibs" --links "$crate=" --backend llvm \
        --antt-project "$toolchain/rattle/logic/antt-project.json" --logic-built "$toolchain/logic_built" \
        --toolchain "$toolchain/toolchain" -o "$file"
)
