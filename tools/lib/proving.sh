# Functions for build.sh and library.sh, which prove crates in a copy. These two scripts source this file in the
# repository's folder, and set `crates` to the crates to be proved, `total` to their number, `log` to a file,
# and `top` to the repository's folder.
# shellcheck shell=sh disable=SC2154 # those scripts set the variables

# copy_crates FOLDER: copies the crates in `crates` to a folder, without the deliberately wrong bodies, which
# only the gate uses.
copy_crates() {
    mkdir -p "$1/crates" && cp HANDLES "$1" || return 1
    # shellcheck disable=SC2086 # word splitting is intended
    tar cf - -C crates --exclude=out --exclude=must-fail $crates | (cd "$1/crates" && tar xf -) ||
        return 1
    for crate in $crates; do
        grep "^${crate}[ :]" crates.txt || return 1
    done >"$1/crates.txt"
}

# Logs the output of `rt` from standard input, and reports each crate that is proved.
tell() {
    number=0
    while IFS= read -r line; do
        printf '%s\n' "$line" >>"$log"
        case $line in
        'rt: '*' proved' | 'rt: '*' is kept: '*)
            crate=${line#rt: }
            number=$((number + 1))
            echo "tpmsim: ${crate%% *} is proved, $number of $total" >&2
            ;;
        esac
    done
}

# Proves the crates in this folder. Crates that do not use each other are proved at the same time. The caller has
# to check which files exist afterwards.
prove_all() {
    git init --quiet && sh "$top/tools/lib/rt_ci.sh" </dev/null 2>&1 | tell
}
