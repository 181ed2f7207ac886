# Prints zsh's completions for the same words as completion_bash.sh, each with its explanation.
tests=$(cd "$(dirname "$0")/.." && pwd -P)
. "$tests/common/cases.sh"
needs zsh python3
top=${tests%/*}

# complete_words FOLDER: reads lines of words from standard input, and prints the completions of each line's
# last word, with the programs of this folder. `_` stands for an empty word.
complete_words() {
    cat >complete.zsh <<'CODE'
_describe() { print -rl -- ${(P)@[-1]} }
_files() { print files }
_path_files() { print folders }
autoload -Uz +X _tpmsim
while IFS='|' read -rA words; do
    CURRENT=$#words
    words[CURRENT]=${words[CURRENT]#_}
    print -r -- "== $words"
    _tpmsim
done
CODE
    PATH="$1:$PATH" FPATH=$top/tools/packaging zsh -f complete.zsh
}

mkdir bin coming
ln -s "$program" bin/tpmsim
for tool in explain audit; do ln -s "$top/tools/$tool.py" "bin/tpmsim-$tool"; done
ln -s "$tests/common/coming_program.sh" coming/tpmsim

complete_words "$room/folder/bin" <<'CODE' >completed
tpmsim|_
tpmsim|run|-
tpmsim|run|_
tpmsim|run|--image|_
tpmsim|serve|--locality|_
tpmsim|lines|_
tpmsim|asm|_
tpmsim|help|_
tpmsim-explain|-
tpmsim-explain|_
CODE
# The completions contain one line for each TPM command. Printing the first lines is enough.
awk '/^==/ { lines = 0 } lines++ < 9' completed

echo '== a program with another subcommand'
complete_words "$room/folder/coming" <<'CODE'
tpmsim|_
tpmsim|stir|-
tpmsim|stir|_
tpmsim|stir|--log|_
tpmsim|lines|_
CODE
