# Checks that a device made from a seed is the same in Rust and in Python, and draws the same random bytes. The
# names of response codes and of commands must also be the same.
tests=$(cd "$(dirname "$0")/.." && pwd -P)
. "$tests/common/cases.sh"
. "$tests/common/library.sh"
. "$tests/common/rust.sh"
needs cargo python3
copy_package

mkdir -p package/examples
cat >package/examples/seeded.rs <<'END'
fn main() -> tpmsim::Result<()> {
    let mut device = tpmsim::Device::from_seed(b"the same")?;
    device.start_up()?;
    for count in [1, 32, 48] {
        let drawn = device.execute(&[0x80, 1, 0, 0, 0, 12, 0, 0, 1, 0x7b, 0, count]);
        println!("{:02x?}", drawn.bytes());
    }
    println!("{:02x?}", device.snapshot());
    Ok(())
}
END
play run --quiet --example seeded
tr -d '[], ' <said >rust
TPMSIM_LIBRARY=$shared python3 - >python <<'END'
from tpmsim.device import LibraryDevice

with LibraryDevice(seed=b"the same") as device:
    device.execute(bytes.fromhex("80010000000c000001440000"))
    for count in 1, 32, 48:
        print(device.execute(bytes.fromhex(f"80010000000c0000017b{count:04x}")).response.hex())
    print(device.snapshot().hex())
END
cmp rust python && echo "the same in $(wc -l <rust) lines"

sed -n 's/^    (0x\([0-9a-f]*\), "\(.*\)"),$/\1 \2/p' package/src/names.rs >rust
python3 - >python <<'END'
from tpmsim.standard.command_names import NAMES
from tpmsim.standard.frames import CODES

for number, name in sorted((number, name) for name, number in CODES.items()):
    print(f"{number:03x} {name}")
for number, name in sorted(NAMES.items()):
    if name != "Vendor_TCG_Test":
        print(f"{number:03x} {name}")
END
diff rust python && echo 'the names are the same'
