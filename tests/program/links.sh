# Checks that every link of every document leads to a file, and every #anchor to a heading of that file. In test
# documents, each broken link must be reported with its line number. The pages must link each command and each
# general check to its definition and its code.
tests=$(cd "$(dirname "$0")/.." && pwd -P)
. "$tests/common/cases.sh"
needs git
needs python3
top=${tests%/*}
git -C "$top" ls-files '*.md' >documents 2>/dev/null || skip "this is no clone of the repository"

# follow WORDS..: prints the broken links of the documents in its arguments.
follow() {
    python3 "$tests/common/links.py" "$@"
    echo "status $?"
}

echo '== the documents of the repository'
# The file names have no spaces.
# shellcheck disable=SC2046
follow "$top" $(cat documents)

echo '== links that lead somewhere'
mkdir deep
cat >good.md <<'END'
# A heading: `code`, and 2^32 - 1 [words](deep/other.md)
[itself](#a-heading-code-and-232---1-words) [the other](deep/other.md#the-same)
[the second](deep/other.md#the-same-1) [a folder](deep) [a site](https://example.org/#none)
`[code](none.md)`
```
[code](none.md)
# no heading
```
END
cat >deep/other.md <<'END'
## The same
## The same
[back](../good.md)
END
follow --count . good.md deep/other.md

echo '== links that lead nowhere'
cat >bad.md <<'END'
[no file](none.md) [no heading](good.md#none)
[a heading in code](good.md#no-heading) [words that
break](deep/other.md#the-same-2) [here](#none)
END
follow --count . bad.md

echo '== commands and general checks, and how many of them lead to their definition and code'
cat "$top"/docs/table/*.md | awk '
    /^## (TPM2_.* \([0-9A-F]+\)|G[0-9]+: )/ { sections++; waits = 1; next }
    /^## / { waits = 0 }
    waits && /^Definition: \[.*\]\(.*\.antt\) Code: \[.*\]\(.*\.rt\)$/ { lead++; waits = 0 }
    END { print sections, lead + 0 }'
