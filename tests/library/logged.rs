//! A caller of the Rust package that logs what it executes, and prints the log. The completing
//! layer answers two commands. Without the layer, the device refuses one of these.

const GET_RANDOM: [u8; 12] = [0x80, 1, 0, 0, 0, 12, 0, 0, 1, 0x7b, 0, 16];
const STIR_RANDOM: [u8; 13] = [0x80, 1, 0, 0, 0, 13, 0, 0, 1, 0x46, 0, 1, 7];
const HASH_SEQUENCE_START: [u8; 14] = [0x80, 1, 0, 0, 0, 14, 0, 0, 1, 0x86, 0, 0, 0, 11];

fn main() -> tpmsim::Result<()> {
    let mut tpm = tpmsim::Device::from_seed(b"mine")?;
    tpm.begin_log();
    tpm.start_up()?;
    for command in [&GET_RANDOM[..], &STIR_RANDOM, &HASH_SEQUENCE_START] {
        tpm.complete(command);
    }
    tpm.execute(&STIR_RANDOM);
    print!("{}", tpm.log());
    Ok(())
}
