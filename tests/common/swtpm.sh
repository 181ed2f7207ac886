# Functions for the tests of hosts/libtpms, which read this file after cases.sh. Each test gets the path of the
# library's archive as its argument. This file builds libtpms.so.0 from that archive, and a calling program that
# takes the role of swtpm. Then it builds both again with sanitizers.
# shellcheck shell=sh disable=SC2154 # cases.sh has `program`, `room` and `tests`
needs cc nm strip python3 libtpms/tpm_library.h
TPMSIM_ARCHIVE=$(readlink -f "$program")
export TPMSIM_ARCHIVE
unset CFLAGS
assemble=${TPMSIM_ARCHIVE%/*}/tpmsim
sanitizers='-g -fsanitize=address,undefined -fno-sanitize-recover=all'

# build FOLDER: builds libtpms.so.0 and the calling program in a folder, without and with sanitizers.
build() {
    mkdir -p "$1" || exit 1
    "$tests/../hosts/build.sh" libtpms "$1/swtpm" >"$room/built" 2>&1 || { cat "$room/built" && exit 1; }
    CFLAGS=$sanitizers "$tests/../hosts/build.sh" libtpms "$1/sanitized" >"$room/built" 2>&1 ||
        { cat "$room/built" && exit 1; }
    for words in '' "$sanitizers"; do
        # shellcheck disable=SC2086 # word splitting is intended
        cc -std=c11 -D_GNU_SOURCE -O1 -Wall -Wextra -Werror -Wconversion $words \
            -o "$1/caller${words:+.sanitized}" "$tests"/swtpm/*.c || exit 1
    done
}

# If tools/scripts.sh sets TPMSIM_BUILT to a folder, everything is built once for all its tests.
built=${TPMSIM_BUILT:-$room/shared}/swtpm
if [ ! -d "$built" ]; then
    mkdir -p "${built%/*}" && build "$room/new"
    # Another test may have built the files first.
    mv -T "$room/new" "$built" 2>"$room/moved" || rm -r "$room/new"
fi
cp -R "$built/." "$room" || exit 1

# spell: copies standard input to standard output, and replaces each command in words, `do WORDS`, with its
# buffer in hex.
spell() {
    awk -v assemble="$assemble" '
        $1 == "do" {
            sub(/^do /, "")
            spelled = assemble " asm \"" $0 "\""
            line = "is not spelled"
            spelled | getline line
            close(spelled)
            $0 = "cmd " line
        }
        { print }
    '
}

# play: executes the lines of standard input with libtpms.so.0, and prints the output. Also executes them with
# sanitizers, in a copy of the folder, and checks that the output is the same.
play() {
    spell >"$room/lines"
    rm -rf "$room/again"
    cp -r . "$room/again"
    timeout 600 "$room/caller" "$room/swtpm/libtpms.so.0" <"$room/lines" >"$room/given" 2>&1 ||
        echo "the caller ended with status $?" >>"$room/given"
    (cd "$room/again" && timeout 3600 "$room/caller.sanitized" "$room/sanitized/libtpms.so.0" \
        <"$room/lines") >"$room/sanitized_given" 2>&1 ||
        echo "the sanitized caller ended with status $?" >>"$room/sanitized_given"
    cat "$room/given"
    diff "$room/given" "$room/sanitized_given" | sed 's/^/    with sanitizers: /'
}

# label TEXT: prints a line above the output that follows.
label() {
    echo "$1:"
}
