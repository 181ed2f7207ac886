#!/usr/bin/env python3
"""Starts each boot loader twice in QEMU: with tpmsim in swtpm, and with swtpm's own libtpms. Both
times, the loader must extend the same PCRs with the same SHA-1 and SHA-256 digests, and every
extend must succeed.

    tools/interop/loaders.py ATTACHED [LOADER..]

ATTACHED is the folder of `hosts/build.sh libtpms`. The loaders are uboot (U-Boot's EFI, on arm64),
aavmf (UEFI on arm64), ovmf (UEFI on x86-64) and grub (GRUB with its module tpm, started by ovmf).
By default, all loaders are started. Needs Debian's swtpm, qemu-system-arm, qemu-system-x86,
u-boot-qemu, qemu-efi-aarch64, ovmf, grub-efi-amd64-bin and grub-common. Not part of the gate: it
takes minutes. It leaves no files.
"""

from __future__ import annotations

import os
import pathlib
import re
import select
import subprocess
import sys
import tempfile
import time
from dataclasses import dataclass, field

SECONDS = 300
PCR_EXTEND, SUCCESS, HEAD_BYTES = bytes.fromhex("00000182"), bytes(4), 10
DIGEST_BYTES = {0x0004: 20, 0x000B: 32, 0x000C: 48, 0x000D: 64}
SHARED_BANKS = (0x0004, 0x000B)

ARM = "qemu-system-aarch64 -machine virt -cpu cortex-a57 -m 512 -display none -nodefaults -serial stdio"
PC = "qemu-system-x86_64 -machine q35 -m 256 -display none -nodefaults -serial stdio"
ARM_TPM, PC_TPM = "tpm-tis-device,tpmdev=tpm0", "tpm-crb,tpmdev=tpm0"
OVMF = ("/usr/share/OVMF/OVMF_CODE_4M.fd", "/usr/share/OVMF/OVMF_VARS_4M.fd")
AAVMF = ("/usr/share/AAVMF/AAVMF_CODE.fd", "/usr/share/AAVMF/AAVMF_VARS.fd")


@dataclass(frozen=True)
class Loader:
    """How a loader is booted: QEMU's arguments, and the texts on its console with the keys that are
    typed after them. The boot is complete when the last text appears. `refused` lists texts that
    must not appear.
    """

    machine: str
    tpm: str
    flash: tuple[str, ...] = ()
    steps: tuple[tuple[str, str], ...] = ()
    refused: tuple[str, ...] = ()
    has_grub: bool = False


UBOOT_STEPS = (
    ("Hit any key", " "),
    ("=> ", "tpm2 init\r"),
    ("=> ", "tpm2 startup TPM2_SU_CLEAR\r"),
    ("=> ", "mw.b 40400000 5a 20; tpm2 pcr_extend 10 40400000\r"),
    ("=> ", "efidebug tables\r"),
    ("=> ", "tpm2 pcr_read 10 40500000\r"),
    ("PCR #10 content", ""),
)

SHELL = (("Shell>", ""),)
FAULTS = ("Cannot initialize UEFI", "Error: 1", "Couldn't")
UBOOT = ARM + " -bios /usr/lib/u-boot/qemu_arm64/u-boot.bin"
LOADERS = {
    "uboot": Loader(UBOOT, ARM_TPM, steps=UBOOT_STEPS, refused=FAULTS),
    "aavmf": Loader(ARM, ARM_TPM, AAVMF, SHELL),
    "ovmf": Loader(PC, PC_TPM, OVMF, SHELL),
    "grub": Loader(PC, PC_TPM, OVMF, (("GRUB IS HERE", ""),), has_grub=True),
}


@dataclass
class Boot:
    """The result of a boot: the console output, and each extend with its response code."""

    console: str = ""
    fault: str = ""
    extends: list[tuple[str, str]] = field(default_factory=list)


def make_grub(folder: pathlib.Path) -> None:
    """Makes a folder from which ovmf starts GRUB, with GRUB's module tpm, which measures GRUB's
    actions.
    """
    place = folder / "EFI/BOOT"
    place.mkdir(parents=True)
    config = folder / "grub.cfg"
    config.write_text("serial --unit=0\nterminal_output serial\necho GRUB IS HERE\n")
    words = ["grub-mkstandalone", "-O", "x86_64-efi", "--modules=tpm serial echo terminal"]
    words += ["-o", str(place / "BOOTX64.EFI"), f"boot/grub/grub.cfg={config}"]
    subprocess.run(words, check=True, capture_output=True)


def words_of(loader: Loader, folder: pathlib.Path, drive: pathlib.Path) -> list[str]:
    words = loader.machine.split()
    words += ["-chardev", f"socket,id=chrtpm,path={folder / 'ctrl'}"]
    words += ["-tpmdev", "emulator,id=tpm0,chardev=chrtpm", "-device", loader.tpm]
    for number, flash in enumerate(loader.flash):
        file = folder / f"flash{number}"
        file.write_bytes(pathlib.Path(flash).read_bytes())
        words += ["-drive", f"if=pflash,format=raw,unit={number},file={file}"]
    if loader.has_grub:
        words += ["-drive", f"file=fat:rw:{drive},format=raw,if=virtio"]
    return words


def spoken_with(machine: subprocess.Popen[bytes], loader: Loader) -> Boot:
    """Types the loader's keys, and reads its console until the last expected text appears."""
    assert machine.stdin is not None and machine.stdout is not None
    boot, at, ends = Boot(), 0, time.monotonic() + SECONDS
    for wanted, typed in loader.steps:
        while (found := boot.console.find(wanted, at)) < 0:
            left = ends - time.monotonic()
            if left <= 0 or not select.select([machine.stdout], [], [], left)[0]:
                boot.fault = f"{wanted!r} does not come within {SECONDS} s"
                return boot
            text = os.read(machine.stdout.fileno(), 4096)
            if not text:
                boot.fault = f"QEMU ends before {wanted!r}"
                return boot
            boot.console += text.decode("utf-8", "replace")
        at = found + len(wanted)
        machine.stdin.write(typed.encode())
        machine.stdin.flush()
    refused = [text for text in loader.refused if text in boot.console]
    boot.fault = f"it says {refused[0]!r}" if refused else ""
    return boot


def shared_part(command: bytes) -> str:
    """Returns the PCR of a PCR_Extend, and its SHA-1 and SHA-256 digests, in hex. Only these are
    compared, because tpmsim has no SHA-384 and SHA-512 banks.
    """
    pcr = command[HEAD_BYTES : HEAD_BYTES + 4]
    at = HEAD_BYTES + 8 + int.from_bytes(command[HEAD_BYTES + 4 : HEAD_BYTES + 8]) + 4
    words = [pcr.hex()]
    while at < len(command):
        bank = int.from_bytes(command[at : at + 2])
        digest = command[at + 2 : at + 2 + DIGEST_BYTES[bank]]
        if bank in SHARED_BANKS:
            words.append(f"{bank:04x}:{digest.hex()}")
        at += 2 + DIGEST_BYTES[bank]
    return " ".join(words)


def extends_of(log: str) -> list[tuple[str, str]]:
    """Returns the PCR with its digests, and the response code, of each PCR_Extend in a swtpm log of
    level 20.
    """
    form = r"SWTPM_IO_(Read|Write): length \d+\s*\n((?:\s*(?:[0-9A-F]{2} ?)+\s*\n)+)"
    extends, last = [], b""
    for kind, text in re.findall(form, log):
        buffer = bytes.fromhex(text)
        if kind == "Read":
            last = buffer
        elif last[6:HEAD_BYTES] == PCR_EXTEND:
            extends.append((shared_part(last), buffer[6:HEAD_BYTES].hex()))
    return extends


def booted(program: str, loader: Loader, drive: pathlib.Path) -> Boot:
    """Boots a loader, from the drive if it uses one. The TPM is the given program, which has the
    same command line as swtpm.
    """
    with tempfile.TemporaryDirectory() as room:
        folder = pathlib.Path(room)
        words = [program, "socket", "--tpm2", "--tpmstate", f"dir={folder}"]
        words += ["--ctrl", f"type=unixio,path={folder / 'ctrl'}", "--terminate"]
        tpm = subprocess.Popen([*words, "--log", f"file={folder / 'log'},level=20"])
        while not (folder / "ctrl").exists() and tpm.poll() is None:
            time.sleep(0.05)
        pipe = subprocess.PIPE
        machine = subprocess.Popen(words_of(loader, folder, drive), stdin=pipe, stdout=pipe)
        try:
            boot = spoken_with(machine, loader)
        finally:
            machine.kill()
            machine.wait()
            tpm.wait(SECONDS)
        boot.extends = extends_of((folder / "log").read_text(errors="replace"))
        return boot


def judged(ours: Boot, theirs: Boot) -> list[str]:
    """Returns the faults of a loader's two boots, and the differences between the boots."""
    boots = (("tpmsim", ours), ("swtpm", theirs))
    faults = [f"{whose}: {boot.fault}" for whose, boot in boots if boot.fault]
    if not ours.extends:
        faults.append("nothing is extended")
    if any(code != SUCCESS.hex() for _, code in ours.extends):
        faults.append("an extend is refused")
    if ours.extends != theirs.extends:
        faults.append(f"they are not the {len(theirs.extends)} under swtpm's own libtpms")
    return faults


def is_right(attached: pathlib.Path, name: str) -> bool:
    """Boots a loader on both TPMs, and prints the result."""
    began, loader = time.monotonic(), LOADERS[name]
    with tempfile.TemporaryDirectory() as drive:
        if loader.has_grub:
            make_grub(pathlib.Path(drive))
        ours = booted(str(attached / "tpmsim-swtpm"), loader, pathlib.Path(drive))
        theirs = booted("swtpm", loader, pathlib.Path(drive))
    faults = judged(ours, theirs)
    told = [f"{len(ours.extends)} extends, {time.monotonic() - began:.0f} s", *faults]
    print(f"{'FAILED' if faults else 'ok'}: {name}: {'; '.join(told)}", flush=True)
    if faults:
        print(ours.console[-1000:])
    return not faults


def main() -> int:
    attached, *names = sys.argv[1:]
    results = [is_right(pathlib.Path(attached), name) for name in names or LOADERS]
    print(f"{results.count(True)} passed, {results.count(False)} failed")
    return results.count(False) > 0


if __name__ == "__main__":
    sys.exit(main())
