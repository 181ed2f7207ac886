#!/bin/sh
# Counts the instructions per byte of HMAC-SHA-256, of AES-128 in CFB mode, and of decoding and encoding hex,
# for texts of 1,024 bytes. It subtracts the counts of two runs under callgrind, so that the start and the end
# of the program are not counted. Needs rt, which proves and builds a small program, and valgrind. It works in a
# temporary folder and removes it. Not part of the gate.
set -eu

repository=$(cd "$(dirname "$0")/../.." && pwd)
folder=$(mktemp -d)
trap 'rm -rf "$folder"' EXIT

mkdir -p "$folder/crates/measured/src"
for crate in tpm_mac tpm_aes tpm_hex; do
    mkdir "$folder/crates/$crate"
    for part in src specs proofs; do
        cp -R "$repository/crates/$crate/$part" "$folder/crates/$crate/$part"
    done
    grep "^$crate:" "$repository/crates.txt" >> "$folder/crates.txt"
done
echo "measured: tpm_mac tpm_aes tpm_hex sha1 sha2 arrayvec hex" >> "$folder/crates.txt"

cat > "$folder/crates/measured/src/main.rt" <<'PROGRAM'
// For each line, "hmac", "cfb", "encode" or "decode", works on 64 texts of 1,024 bytes.
#![tactic(auto)]

use std::io;
use tpm_aes::Aes128;
use tpm_mac::{HashAlg, hmac_parts};

const TEXTS: u32 = 64;

fn authenticate(text: &mut [u8; 1024]) {
    for _ in 0..TEXTS {
        let mac = hmac_parts(HashAlg::Sha256, &[0x0b; 20], &[text.as_slice()]);
        if let Some(byte) = mac.as_slice().first() {
            text[0] ^= *byte;
        }
    }
}

fn encrypt(text: &mut [u8; 1024]) {
    let cipher = Aes128::new(&[0x2b; 16]);
    for _ in 0..TEXTS {
        cipher.cfb_encrypt(&[0x07; 16], text);
    }
}

fn write_hex(text: &mut [u8; 1024], digits: &mut [u8; 2048]) {
    for _ in 0..TEXTS {
        tpm_hex::encode(text, digits);
        text[0] ^= digits[1];
    }
}

fn read_hex(digits: &mut [u8; 2048], text: &mut [u8; 1024]) {
    for _ in 0..TEXTS {
        let _ = tpm_hex::decode(digits, text);
        digits[1] = b'0' + text[0] % 10;
    }
}

fn main(rt: HostRuntime) -> io::Result<()> {
    let mut text = [0u8; 1024];
    let mut digits = [b'0'; 2048];
    for line in rt.lines(rt.alloc()) {
        match line?.as_str() {
            "hmac" => authenticate(&mut text),
            "cfb" => encrypt(&mut text),
            "encode" => write_hex(&mut text, &mut digits),
            "decode" => read_hex(&mut digits, &mut text),
            _ => {}
        }
    }
    println!(rt; "{}", text[0])
}
PROGRAM

(cd "$folder/crates/measured" && rt run < /dev/null > "$folder/build" 2>&1) || {
    cat "$folder/build"
    exit 1
}

# instructions WORD LINES: prints the number of instructions that the program executes for LINES lines with
# the word.
instructions() {
    line=0
    : > "$folder/input"
    while [ "$line" -lt "$2" ]; do
        echo "$1" >> "$folder/input"
        line=$((line + 1))
    done
    valgrind --tool=callgrind --callgrind-out-file=/dev/null \
        "$folder/crates/measured/out/measured" \
        < "$folder/input" 2>&1 > /dev/null | sed -n 's/.*Collected : \([0-9]*\).*/\1/p'
}

for word in hmac cfb encode decode; do
    once=$(instructions "$word" 1)
    thrice=$(instructions "$word" 3)
    echo "$word $once $thrice" | awk '{
        printf "%s: %.1f instructions for each byte\n", $1, ($3 - $2) / (2 * 64 * 1024)
    }'
done
