# Checks that the files to which docs/THEOREMS.md links declare the clauses that it names, and that the code promises
# them. Then checks a page about a small crate, whose mistakes must all be reported.
tests=$(cd "$(dirname "$0")/.." && pwd -P)
. "$tests/common/cases.sh"
needs python3
top=${tests%/*}
compare() {
    python3 "$tests/common/quoted_theorems.py" "$@"
    echo "status $?"
}

echo '== docs/THEOREMS.md'
compare "$top/docs/THEOREMS.md" "$top"

mkdir -p crates/one/specs crates/one/src
cat >crates/one/specs/Laws.antt <<'END'
-- A law.
abbrev pub Stays : Type 0
Stays = (r : Record) → Holds r

pub record Holds (r : Record) : Type 0 where
  -- the first field
  pub first : r ≡ r
  pub second : Unit {0}

abbrev pub Forgotten : Type 0
Forgotten = Unit {0}
END
cat >crates/one/src/lib.rt <<'END'
pub struct Thing {
    number: u8,
}

impl Thing {
    pub fn get(&self) -> u8
        ensures value { result ≡ self.now.number }
    {
        self.number
    }

    pub fn put(&mut self) {
    }
}

pub fn laws()
    ensures stays { Stays }
    ensures { true }
{}
END

echo '== names that are as the page says'
cat >page.md <<'END'
| promise | clause |
|---|---|
| It stays | [`Stays`](crates/one/specs/Laws.antt), [`laws.stays`](crates/one/src/lib.rt) |
| It holds | [`Holds.second`](crates/one/specs/Laws.antt), [`Thing::get.value`](crates/one/src/lib.rt) |

The type [`Thing`](crates/one/src/lib.rt), and [another page](other.md).

| word | meaning |
|---|---|
| `can` | No clause |
END
compare page.md .

echo '== names that differ'
cat >page.md <<'END'
| promise | clause |
|---|---|
| Another name | [`Stay`](crates/one/specs/Laws.antt) |
| Another field | [`Holds.third`](crates/one/specs/Laws.antt) |
| A field of another definition | [`Stays.first`](crates/one/specs/Laws.antt) |
| Another clause | [`laws.goes`](crates/one/src/lib.rt) |
| A clause of another function | [`laws.value`](crates/one/src/lib.rt) |
| Another type | [`Other::get`](crates/one/src/lib.rt) |
| Another file | [`Stays`](crates/one/specs/None.antt) |
| No clause | [`Thing::put`](crates/one/src/lib.rt) |
| Nobody promises it | [`Forgotten`](crates/one/specs/Laws.antt) |
| No link | `Stays` |
| One link for two names | [`Stays`](crates/one/specs/Laws.antt), `Holds` |
| No name | [Stays](crates/one/specs/Laws.antt) |
| Nothing | |

Two names: [`Stays`, `Holds`](crates/one/specs/Laws.antt).
END
compare page.md .
