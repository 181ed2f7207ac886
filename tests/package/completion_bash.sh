# Prints bash's completions: the program's subcommands, options, files and command names, and subcommands that
# only the help of a newer program lists.
tests=$(cd "$(dirname "$0")/.." && pwd -P)
. "$tests/common/cases.sh"
needs bash python3
top=${tests%/*}

# complete_words FOLDER: reads lines of words from standard input, and prints the completions of each line's
# last word, with the programs of this folder. `_` stands for an empty word.
complete_words() {
    cat >complete.bash <<'CODE'
. "$1"
compopt() { :; }
while IFS='|' read -r -a COMP_WORDS; do
    COMP_CWORD=$((${#COMP_WORDS[@]} - 1))
    COMP_WORDS[COMP_CWORD]=${COMP_WORDS[COMP_CWORD]#_}
    COMPREPLY=()
    _tpmsim "${COMP_WORDS[0]}" "${COMP_WORDS[COMP_CWORD]}" "${COMP_WORDS[COMP_CWORD - 1]}"
    mapfile -t COMPREPLY < <(printf '%s\n' "${COMPREPLY[@]}" | LC_ALL=C sort)
    echo "${COMP_WORDS[*]}: ${COMPREPLY[*]}"
done
CODE
    PATH="$1:$PATH" bash complete.bash "$top/tools/packaging/tpmsim.bash"
}

mkdir bin coming files files/deep
ln -s "$program" bin/tpmsim
for tool in explain audit; do ln -s "$top/tools/$tool.py" "bin/tpmsim-$tool"; done
for tool in refusals coverage sweep; do
    printf '#!/bin/sh\nexec "%s/tools/python.sh" -m tpmsim.%s.main "$@"\n' "$top" "$tool" >"bin/tpmsim-$tool"
    chmod +x "bin/tpmsim-$tool"
done
ln -s "$tests/common/coming_program.sh" coming/tpmsim
: >files/first.tpm
: >files/second.tpm

echo '== tpmsim'
complete_words "$room/folder/bin" <<'CODE'
tpmsim|run|--t
tpmsim|run|fil
tpmsim|run|files/f
tpmsim|run|--trace|files/
tpmsim|run|--image|files/s
tpmsim|serve|--save
tpmsim|serve|--locality|_
tpmsim|lines|NV_Read
tpmsim|asm|PolicyNv
tpmsim|code|9
tpmsim|help|serv
tpmsim|none|_
tpmsim-explain|--h
tpmsim-explain|files/s
tpmsim-explain|--
tpmsim-audit|--pol
tpmsim-audit|--
tpmsim-refusals|--
tpmsim-refusals|--state|files/s
tpmsim-coverage|--
tpmsim-coverage|files/s
tpmsim-sweep|--
tpmsim-sweep|--state|f
tpmsim-sweep|--from|files/s
CODE

echo '== what it has, and is not completed'
for name in $("$program" --help | sed -n '/^Commands:/,/^$/s/^  \([a-z]*\) .*/\1/p'); do
    echo "tpmsim|$name"
    [ "$name" = help ] || "$program" "$name" --help |
        sed -n "s/^ \{6,\}\(--[a-z-]*\) .*/tpmsim|$name|\1/p"
done >words
complete_words "$room/folder/bin" <words | awk '
    { split($0, parts, ": "); count = split(parts[1], words, " ") }
    count > 1 { told++ }
    count > 1 && index(" " parts[2] " ", " " words[count] " ") == 0
    END { if (told < 10) print "only " told }'

echo '== a program with another subcommand'
complete_words "$room/folder/coming" <<'CODE'
tpmsim|s
tpmsim|stir|--
tpmsim|stir|fil
tpmsim|stir|files/
tpmsim|stir|--log|files/f
tpmsim|lines|S
CODE
