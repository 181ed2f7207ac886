#!/bin/sh
# Tries the patches under tests/wrong/turned. Each patch changes the code of a command and, in the same way, its row (the
# definition of the command's behaviour) and the proofs that repeat the row. The device then behaves wrongly,
# although all crates below tpm_step can still be proved. However, the history of the device determines a
# different behaviour. Therefore a law of tpm_step, or of another crate with laws, must fail. All patches are
# tried before a piece of work is declared done. Patches that name different laws of one crate are tried in one
# copy of that crate and of the crates below it. `rt ci` proves the copy, from scratch if the kit has stored no
# proofs. Needs `rt` and git.
#
#   tools/soak/turned_rows.sh                    all patches
#   tools/soak/turned_rows.sh pcr_16_restored    one patch, or several
#
# A patch begins with a description of the wrong behaviour, and with one or two lines:
#
#   law: FILE NAME       the law that must be refused, in crates/tpm_step/proofs/FILE.antt
#   crate: CRATE         if the law is in crates/CRATE/proofs/FILE.antt instead
#
# The last line is `N of M turned rows refused`. The status is 0 if all are refused.
set -eu

cd "$(dirname "$0")/../.."
top=$PWD
. tools/lib/proved.sh
. tools/lib/proving.sh
if [ "$#" -eq 0 ]; then
    for patch in tests/wrong/turned/*.patch; do
        name=${patch##*/}
        set -- "$@" "${name%.patch}"
    done
fi
room=$(mktemp -d)
trap 'rm -rf "$room"' EXIT

# said NAME PATCH: prints the value of the line NAME at the beginning of a patch.
said() {
    sed -n "/^diff /q; s/^$1: //p" "$2"
}

# patch_of NAME: prints the path of a patch.
patch_of() {
    echo "tests/wrong/turned/$1.patch"
}

# crate_of NAME: prints the crate that contains the law named in a patch.
crate_of() {
    crate=$(said crate "$(patch_of "$1")")
    echo "${crate:-tpm_step}"
}

# turn NAME..: copies the crate whose laws these patches name, and the crates below it, without their wrong
# bodies. Then applies the patches to the copy.
turn() {
    rm -rf "$room/copy"
    crates="$(crates_below "$(crate_of "$1")") $(crate_of "$1")"
    copy_crates "$room/copy" || return 1
    (cd "$room/copy" && git init --quiet)
    for name do
        (cd "$room/copy" && git apply "$top/$(patch_of "$name")") ||
            { echo "$name: BAD PATCH: it cannot be applied"; return 1; }
    done
}

# prove: runs `rt ci` in the copy, and writes its output to the log.
prove() {
    (cd "$room/copy" && sh "$top/tools/lib/rt_ci.sh") </dev/null >"$room/log" 2>&1
}

# refused_crates: prints the crates that are not proved, according to the log.
refused_crates() {
    sed -n 's/^rt: \([a-z0-9_]*\).* NOT PROVED.*/\1/p' "$room/log" | sort -u
}

# law_at CRATE FILE LINE: prints the law to which a line of a proof file belongs.
law_at() {
    awk -v at="$3" '
        NR > at { exit }
        match($0, /^(  )?(pub )?[a-z_][A-Za-z0-9_-]* : /) { law = $0 }
        END { sub(/^ *(pub )?/, "", law); sub(/ :.*/, "", law); print law }
    ' "$room/copy/crates/$1/proofs/$2.antt"
}

# refused_laws CRATE: prints the laws of a crate that are refused according to the log, each as FILE NAME. Omits
# laws that were not checked because they depend on a refused law.
refused_laws() {
    grep -E '^\./proofs/[A-Za-z/]+\.antt:[0-9]+:[0-9]+: error: ' "$room/log" |
        grep -vE 'which was (rejected|not admitted)' |
        sed 's|^\./proofs/\([A-Za-z/]*\)\.antt:\([0-9]*\):.*|\1 \2|' |
        while read -r file line; do
            echo "$file $(law_at "$1" "$file" "$line")"
        done | sort -u
}

# fail_at_laws NAME..: reports for each of these patches whether the law that the patch names was refused.
fail_at_laws() {
    refused_laws "$(crate_of "$1")" >"$room/laws"
    for name do
        law=$(said law "$(patch_of "$name")")
        if grep -qFx "$law" "$room/laws"; then
            echo "$name: refused, as it must be: $law"
            echo "$name" >>"$room/refused"
        else
            echo "$name: BAD PATCH: $law is not refused"
        fi
    done
}

# try_together NAME..: applies these patches to a copy, and runs the prover on it. Every crate below the crate
# with the laws must still be proved, and so must the laws about rows, if the crate has any. The prover must
# refuse the crate at each law that one of the patches names.
try_together() {
    turn "$@" || return 0
    if prove; then
        echo "$*: NOT REFUSED"
    elif [ "$(refused_crates)" != "$(crate_of "$1")" ]; then
        cat "$room/log"
        echo "$*: BAD PATCH: what is below the laws is not proved"
    elif grep -E 'is not in scope|can be named from here' "$room/log"; then
        echo "$*: BAD PATCH: the laws cannot be read"
    elif grep -E '^\./proofs/rows/.*: error: ' "$room/log"; then
        echo "$*: BAD PATCH: the laws over rows are not proved"
    else
        fail_at_laws "$@"
    fi
}

# is_apart NAME OTHER..: succeeds if the law of a patch is in the same crate as the laws of the other patches,
# and differs from all of them.
is_apart() {
    law=$(said law "$(patch_of "$1")")
    crate=$(crate_of "$1")
    shift
    for other do
        [ "$(crate_of "$other")" = "$crate" ] || return 1
        [ "$(said law "$(patch_of "$other")")" != "$law" ] || return 1
    done
}

# group NAME..: groups the patches that can be tried in one copy, and writes one group to each line. The patches
# of a group name different laws of one crate.
group() {
    : >"$room/groups"
    for name do
        [ -f "$(patch_of "$name")" ] || { echo "there is no $(patch_of "$name")" >&2; return 1; }
        : >"$room/new"
        placed=
        while read -r line; do
            # shellcheck disable=SC2086 # names have no spaces
            if [ -z "$placed" ] && is_apart "$name" $line; then
                line="$line $name"
                placed=yes
            fi
            echo "$line" >>"$room/new"
        done <"$room/groups"
        [ -n "$placed" ] || echo "$name" >>"$room/new"
        mv "$room/new" "$room/groups"
    done
}

: >"$room/refused"
group "$@"
while read -r together; do
    # shellcheck disable=SC2086 # names have no spaces
    try_together $together </dev/null
done <"$room/groups"
refused=$(wc -l <"$room/refused")
echo "$refused of $# turned rows refused"
[ "$refused" -eq "$#" ]
