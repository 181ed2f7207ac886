# Checks that the crates, functions and types that the second part of required.txt requires exist, or that
# docs/REQUIREMENTS.md names their replacements. That page must list no other replacements. Then the test introduces
# each kind of mismatch into two small crates, which have their own list and page. public_calls.py must report
# each mismatch. shellcheck disable=SC2016 # the backquotes belong to a document
tests=$(cd "$(dirname "$0")/.." && pwd -P)
. "$tests/common/cases.sh"
needs python3
top=${tests%/*}

# compare ASKED PAGE FOLDER: prints the reported differences.
compare() {
    python3 "$tests/common/public_calls.py" "$@"
    echo "status $?"
}

echo '== docs/REQUIREMENTS.md'
compare "$tests/program/required.txt" "$top/docs/REQUIREMENTS.md" "$top"

mkdir -p right/crates/one/src right/crates/two/src
cd right || exit 1
cat >crates/one/src/lib.rt <<'END'
//! pub fn in_a_comment() {}
mod inner;
pub mod open;

pub use inner::{Thing, inside::made};
pub use two::{passed, rows::row as named};
END
cat >crates/one/src/inner.rt <<'END'
pub enum Thing {
    One,
    Two(u8),
}

impl<'a> Thing {
    pub fn get(&self, number: u32) -> Option<&'a u8>
        requires value { number < (record { limit = 4 }).limit }
        // A comment.
        requires { number ≢ 2 }
        ensures { true }
    {
    }

    fn kept(&self) {}
}

pub fn hidden() {}
END
mkdir crates/one/src/inner
cat >crates/one/src/inner/inside.rt <<'END'
pub fn made<F: Fn() -> u8>(
    room: &mut [u8],
    call: F,
) -> Result<(), Full>
    ensures { true }
{
}
END
cat >crates/one/src/open.rt <<'END'
pub trait Open {
    type Part;
    type Whole;

    fn begin(&mut self);
}
END
printf 'pub mod rows;\n\npub fn passed() {}\n' >crates/two/src/lib.rt
echo 'pub fn row() {}' >crates/two/src/rows.rt
mkdir -p crates/three/src
cat >crates/three/src/lib.rt <<'END'
pub struct Pair {
    pub left: u8,
    pub right: u8,
    inner: u8,
}

pub enum Fault {
    Late { hour: u8, minute: u8 },
    NoMemory,
}

pub type Other = Pair;
pub type Both = ArrayVec<Pair, 2>;

pub fn take(pair: Pair) -> Result<Other, Fault>
    requires left { pair.left ≢ 0 }
{
}

pub fn give(pair: &Pair) -> Result<(), Empty> {
}
END
cat >asked.txt <<'END'
call four made
== The crates
lines one 40
lines two 3
call one Thing::get
call one Open::begin
call one passed: ()
call one named
call one make: ()
call two row
type one Thing: One Three
type one Open::Section
type one Open::All
lines three 30
call three take: (Pair) -> Result<Other, Fault>
call three give: (&Other) -> Result<(), Empty>
type three Other
fields three Pair: left right
fields three Fault::Late: hour minute
form three Both: ArrayVec<Pair, 2>
premise three take: right ≢ 0 ; left ≢ 0
faults three: Late NoMemory Empty
faults two
memory three: take
memory two
END
cat >page.md <<'END'
| asked for | is | why |
|---|---|---|
| `one::make` | `one::made` | None. |
| `one::Open::Section`, `All` | `one::open::Open::Part`, `Whole` | None. |

| call | asked for | is | why |
|---|---|---|---|
| `one::make` | `()` | `(&mut [u8], F) -> Result<(), Full>` | None. |

| fault | asked for | is | why |
|---|---|---|---|
| `one::Thing` | `One`, `Three` | `One`, `Two` | None. |

| call | premise | why |
|---|---|---|
| `one::Thing::get` | `number <`, `≢ 2` | None. |

| crate | asked for | is | why |
|---|---|---|---|
| `two` | 3 | 4 | None. |
END

echo '== two crates, as their page says'
compare asked.txt page.md .

# turn FILE SCRIPT: changes a file in a copy of the two crates and their page, with a sed script.
turn() {
    [ -d ../turned ] || cp -r . ../turned
    cp "../turned/$1" ../before
    sed "$2" ../before >"../turned/$1"
    cmp -s ../before "../turned/$1" && printf 'nothing was turned: %s\n' "$2"
}

# report_turned LABEL: prints the differences that are reported for the copy, and removes the copy.
report_turned() {
    echo "== $1"
    (cd ../turned && compare asked.txt page.md .)
    rm -r ../turned
}

turn crates/one/src/inner.rt 's/pub fn get/pub fn got/'
turn crates/one/src/open.rt 's/type Part/type Piece/'
turn crates/one/src/lib.rt '/^pub use two/d'
turn page.md 's/one::made/one::mode/'
report_turned 'names that are not there'

turn crates/one/src/inner.rt 's/pub fn get/fn get/'
turn crates/one/src/lib.rt 's/pub mod open/mod open/'
turn crates/two/src/lib.rt 's/pub mod rows/mod rows/'
turn asked.txt 's/passed/in_a_comment/'
turn asked.txt 's/make/hidden/'
report_turned 'names that are not public, or were not asked for'

turn page.md '/one::make.*one::made/d'
# shellcheck disable=SC2016 # the backticks are those of the page
turn page.md 's/`All`/`Every`/'
turn page.md '/One.*Three/d'
turn page.md 's/one::Thing::get/one::got/'
# shellcheck disable=SC2016 # the backticks are those of the page
turn page.md 's/^| .two.*$/| `one` | 41 | 42 | None. |/'
report_turned 'another page'

turn crates/one/src/lib.rt 's/::made/&, inside::made as make/'
turn crates/one/src/inner.rt 's/Two(u8)/Three/'
turn crates/one/src/inner.rt '/≢ 2/d'
turn asked.txt '/make/s/: ()/: (\&mut [u8], _) -> Result<(), _>/'
turn crates/two/src/lib.rt 2d
report_turned 'what is as asked for, though the page says otherwise'

turn crates/one/src/inner/inside.rt 's/&mut \[u8\]/\&[u8]/'
turn crates/one/src/inner.rt 's/Two(u8)/Four/'
turn crates/one/src/open.rt 's/begin(&mut self)/& requires { true }/'
turn crates/two/src/lib.rt 's/passed()/& -> usize/'
turn page.md 's/| 4 |/| 5 |/'
turn asked.txt 's/lines one/lines five/'
report_turned 'other shapes, cases, premises and lines'

turn crates/three/src/lib.rt 's/pub right/right/'
turn crates/three/src/lib.rt 's/, minute: u8//'
turn crates/three/src/lib.rt 's/ArrayVec<Pair, 2>/ArrayVec<Pair, 3>/'
turn crates/three/src/lib.rt 's/pair.left ≢ 0/pair.left ≢ 1/'
turn asked.txt 's/^faults two/faults two: Empty/'
turn asked.txt 's/^memory three: take/memory three: give/'
report_turned 'other fields, aliases and faults'

turn crates/three/src/lib.rt 's/Other = Pair/Other = Both/'
turn crates/three/src/lib.rt 's/struct Pair/struct Twin/'
turn asked.txt 's/NoMemory Empty/NoMemory/'
# shellcheck disable=SC2016 # the backticks are those of the page
turn page.md 's/^| `one::Thing::get`.*no.*$/&/; s/^| `one::Thing::get` | `number.*$/&\n| `three::take` | `left ≢ 0` | None. |/'
# shellcheck disable=SC2016 # the backticks are those of the page
turn page.md 's/^| `two` | 3 | 4/| `two`, `three` | 3 | 4/'
report_turned 'an alias of another type, a premise that was asked for, and lines of two crates'
