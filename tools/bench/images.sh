#!/bin/sh
# Measures opening and saving the image of a full device (sixteen persistent objects, 64 NV indices of 16,384
# bytes, a saved state): the microseconds of the fastest of ten runs and, with callgrind, the instructions per
# byte of the image. It subtracts the figures of two runs, so that the start and the end of the program are not
# counted. Then it counts the instructions of a TPM2_GetCapability line that lists all commands. Needs GNU time,
# valgrind, python3, and rt, which builds a small program with the crates that are built here. It works in a
# temporary folder. Not part of the gate.
set -eu

top=$(CDPATH='' cd "$(dirname "$0")/../.." && pwd -P)
program=$(cd "$top" && . tools/lib/program.sh) || exit 1
folder=$(mktemp -d)
trap 'rm -rf "$folder"' EXIT

(cd "$top/crates/tpm_image" && rt lib >"$folder/build" 2>&1) || { cat "$folder/build"; exit 1; }

# Lists tpm_image and the crates of this repository that it uses.
crates=$(awk -F: '
    function visit(crate, i, count, names) {
        if (!(crate in uses) || crate in needed) return
        needed[crate] = 1
        count = split(uses[crate], names, " ")
        for (i = 1; i <= count; i++) visit(names[i])
    }
    /^[^#]/ { uses[$1] = $2 }
    END { visit("tpm_image"); for (crate in needed) print crate }' "$top/crates.txt")
mkdir -p "$folder/crates/measured/src"
for crate in $crates; do
    cp -Rp "$top/crates/$crate" "$folder/crates/$crate"
    grep "^$crate:" "$top/crates.txt" >>"$folder/crates.txt"
done
sed -n 's/^tpm_image:/measured: hex tpm_image/p' "$top/crates.txt" >>"$folder/crates.txt"

cat >"$folder/crates/measured/src/main.rt" <<'PROGRAM'
// The first line is an image in hex. For each line behind it, "open" or "save", opens devices from
// the image, or saves the device that was opened from it.
#![tactic(auto)]

use std::io;
use tpm_bytes::Tap;
use tpm_image::{open, save};
use tpm_machine::Machine;
use tpm_record::SlotKeep;

const TIMES: u32 = 32;

fn open_again(rt: &HostRuntime, image: &[u8]) -> u32 {
    let mut opened = 0u32;
    for _ in 0..TIMES {
        let device: Option<Machine<SlotKeep>> = open(rt.alloc(), image).ok();
        if device.is_some() {
            opened = opened.saturating_add(1);
        }
    }
    opened
}

fn save_again(rt: &HostRuntime, device: &Machine<SlotKeep>) -> u32 {
    let mut saved = 0u32;
    for _ in 0..TIMES {
        let mut tap = Tap::new(Vec::new(rt.alloc()));
        if save(device, &mut tap).is_ok() {
            saved = saved.saturating_add(1);
        }
    }
    saved
}

fn main(rt: HostRuntime) -> io::Result<()> {
    let mut lines = rt.lines(rt.alloc());
    let Some(first) = lines.next() else {
        return Ok(());
    };
    let Ok(image) = hex::decode(rt.alloc(), first?.as_str()) else {
        return println!(rt; "no hex");
    };
    let Ok(device) = open::<SlotKeep>(rt.alloc(), image.as_slice()) else {
        return println!(rt; "no image");
    };
    let mut done = 0u32;
    for line in lines {
        done = done.saturating_add(match line?.as_str() {
            "open" => open_again(&rt, image.as_slice()),
            "save" => save_again(&rt, &device),
            _ => 0,
        });
    }
    println!(rt; "{done}")
}
PROGRAM

(cd "$folder/crates/measured" && rt run </dev/null >"$folder/build" 2>&1) || {
    cat "$folder/build"
    exit 1
}
measured=$folder/crates/measured/out/measured
"$top/tools/python.sh" "$top/tests/common/made.py" "$folder/scripts" full_device
"$top/tools/python.sh" "$top/tests/images/images.py" "$folder/scripts/tests/general/full_device.tpm" \
    >"$folder/image"
bytes=$((($(wc -c <"$folder/image") - 1) / 2))

# input WORD LINES: prints the input for the small program: the image, followed by LINES lines with the word.
input() {
    cat "$folder/image"
    awk -v word="$1" -v lines="$2" 'BEGIN { for (i = 0; i < lines; i++) print word }'
}

# instructions WORD LINES: prints the number of instructions for LINES lines with the word.
instructions() {
    input "$1" "$2" >"$folder/input"
    valgrind --tool=callgrind --callgrind-out-file=/dev/null "$measured" \
        <"$folder/input" 2>&1 >"$folder/output" | sed -n 's/.*Collected : \([0-9]*\).*/\1/p'
    [ "$(cat "$folder/output")" -eq $((32 * $2)) ] || echo "$0: not each $1 was done" >&2
}

# seconds WORD LINES: prints the time of the fastest of ten runs with LINES lines of the word.
seconds() {
    input "$1" "$2" >"$folder/input"
    for _ in 1 2 3 4 5 6 7 8 9 10; do
        /usr/bin/time -f '%e' -o "$folder/figure" "$measured" <"$folder/input" >"$folder/output"
        cat "$folder/figure"
    done | sort -n | head -n 1
}

for word in open save; do
    each=$((($(instructions "$word" 3) - $(instructions "$word" 1)) / 64))
    echo "$(seconds "$word" 20) $(seconds "$word" 220)" | awk -v word="$word" -v each="$each" \
        -v bytes="$bytes" '{
            printf "%s of %d bytes: %.0f microseconds, %.1f instructions a byte\n",
                word, bytes, 1000000 * ($2 - $1) / (32 * 200), each / bytes
        }'
done

# commands LINES: prints the number of instructions for a script with LINES lines that list all commands.
commands() {
    awk -v lines="$1" 'BEGIN {
        print "do Startup 0"
        for (i = 0; i < lines; i++) print "do GetCapability 2 0 100"
    }' >"$folder/script"
    valgrind --tool=callgrind --callgrind-out-file=/dev/null "$program" run "$folder/script" \
        2>&1 >/dev/null | sed -n 's/.*Collected : \([0-9]*\).*/\1/p'
}
echo "GetCapability of all commands: $((($(commands 1500) - $(commands 500)) / 1000)) instructions"
