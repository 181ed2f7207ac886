# Prints the path of a program that is proved and built from the current sources. This is the program that was
# built here, if no source is newer. Otherwise it is the program in dist/, if dist/PROVED has the checksums of
# that program and of the sources. If neither is usable, tools/build.sh builds a program first. Other scripts
# source this file in the repository's folder. The launcher does so at each start, so this file must start few
# processes.
# shellcheck shell=sh
. tools/lib/proved.sh
stamp=crates/tpmsim/out/verified-$machine

# Succeeds if dist/ can contain a program for this machine.
is_served() {
    case $system in
    'Linux x86_64' | 'Linux aarch64') true ;;
    *) false ;;
    esac
}

# Succeeds if the program in dist/ was verified, and nothing in the repository on which it depends was changed
# or moved since then. The stamp need not be protected: whoever can write it can also write this file.
is_verified() {
    [ -f "$stamp" ] && is_served && changed=$(
        find crates.txt HANDLES dist crates -regex 'crates/[^/]*/out' -prune -o \
            -cnewer "$stamp" -print -quit 2>/dev/null
    ) && [ -z "$changed" ]
}

# Succeeds if the program in dist/ is proved and runs on this machine. Otherwise, `fault` contains the reason.
is_good() {
    fault='dist/ has programs for Linux on x86-64 and on ARM64 alone'
    is_served || return 1
    fault="$shipped was proved of other sources than these"
    # shellcheck disable=SC2119 # no argument means the default crate
    is_proved sources "$(sources_checksum)" || return 1
    fault="$shipped is not the program that $proved names"
    is_proved program "$(checksum <"$shipped")" || return 1
    said=$("$shipped" --version 2>&1 </dev/null) && return
    fault="$shipped does not run here: $(printf '%s\n' "$said" | head -n 1)"
    return 1
}

# Verifies the program in dist/. The stamp's time is the time at which the verification began, so that any
# later change is noticed. If no stamp can be written, the next start verifies again.
verify() {
    new=$stamp.$$
    mkdir -p "${stamp%/*}" 2>/dev/null
    { printf '' >"$new"; } 2>/dev/null
    if ! is_good; then
        rm -f "$new"
        echo "tpmsim: $fault" >&2
        return 1
    fi
    [ ! -f "$new" ] || mv "$new" "$stamp"
}

if is_newest "$built"; then
    echo "$PWD/$built"
elif [ -f "$shipped" ] && [ -f "$proved" ] && { is_verified || verify; }; then
    echo "$PWD/$shipped"
else
    tools/build.sh >&2 && echo "$PWD/$built"
fi
