# Completion of tpmsim and its tools for bash. The words to complete come from the programs
# themselves: `--help` lists the subcommands, the options, and the kind of each option's value, as
# in `--image <FILE>`; `tpmsim lines` lists the names of commands.

# Each of the following functions reads a help text. In this order, they print its subcommands, the
# options in its indented lines, the kind of an option's value, and the kind of the first argument.
_tpmsim_subcommands() { sed -n '/^Commands:/,/^$/s/^  \([a-z][a-z-]*\) .*/\1/p'; }
_tpmsim_options() { grep '^  ' | grep -oE '(^|[ [|])--[a-z][a-z0-9-]*' | grep -oE -- '--.*' | sort -u; }
_tpmsim_after() { sed -n "s/.*$1[ =]<\{0,1\}\([A-Z][A-Z_]*\).*/\1/p" | head -n 1; }
_tpmsim_argument() { sed -n '/^Arguments:/,/^$/s/^  [[<]\([A-Z][A-Z_]*\).*/\1/p' | head -n 1; }

# _tpmsim_names PROGRAM: prints the names of the TPM's commands.
_tpmsim_names() { "$1" lines 2>/dev/null | sed -n 's/^\([A-Z][A-Za-z_]*\).*/\1/p'; }

# _tpmsim PROGRAM WORD BEFORE: completes WORD, which follows BEFORE. bash calls this function.
_tpmsim() {
    local program=$1 word=$2 before=$3 help kind='' words=''
    local said=("$program")
    if [[ ${program##*/} == tpmsim && $COMP_CWORD -gt 1 && ${COMP_WORDS[1]} != help ]]; then
        said+=("${COMP_WORDS[1]}")
    fi
    help=$("${said[@]}" --help 2>/dev/null) || return
    [[ $before != --* ]] || kind=$(_tpmsim_after "$before" <<<"$help")
    if [[ -z $kind && $word == -* ]]; then
        words=$(_tpmsim_options <<<"$help")
    elif [[ -z $kind ]]; then
        words=$(_tpmsim_subcommands <<<"$help")
        kind=$(_tpmsim_argument <<<"$help")
        [[ ${program##*/} == tpmsim ]] || kind=${kind:-FILE}
    fi
    case $kind in
    NAME | LINE) words=$(_tpmsim_names "$program") ;;
    DIR) compopt -o filenames && mapfile -t COMPREPLY < <(compgen -d -- "$word") && return ;;
    FILE | PATH | SCRIPT) compopt -o filenames && mapfile -t COMPREPLY < <(compgen -f -- "$word") && return ;;
    esac
    mapfile -t COMPREPLY < <(compgen -W "$words" -- "$word")
}

complete -F _tpmsim tpmsim tpmsim-audit tpmsim-compare tpmsim-coverage tpmsim-explain tpmsim-refusals \
    tpmsim-script tpmsim-simulator tpmsim-sweep
