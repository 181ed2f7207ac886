"""Tests that commands and responses are found in what other programs print, and codes in the rest."""

import pathlib
import struct
import tempfile
import unittest

from dump_samples import BUFFERS, DUMPS, STARRED, ZEROS
from tpmsim.explain.codes import CHECKS
from tpmsim.standard.frames import CODES
from tpmsim.standard.response_codes import BY_NAME
from tpmsim.taken import NothingFound, taken, taken_of, TooLong
from tpmsim.taken.codes import code_of, Code
from test_explain import told
import table_rules

STARTUP, STARTED, READ, MISSING = map(bytes.fromhex, BUFFERS)

# A part of what tpm2_pcrextend of tpm2-tools 5.4 printed with TSS2_LOG=all+trace, by libtss2 3.2.1.
TRACE = """\
debug:tcti:src/util/io.c:140:socket_xmit_buf() Writing 9 bytes to socket 3: (size=9): 
0000: 000000080000000016                .........
debug:tcti:src/util/io.c:94:write_all() writing 9 bytes starting at 0x7fff2350048f to fd 3 
debug:tcti:src/util/io.c:140:socket_xmit_buf() Writing 22 bytes to socket 3: (size=22): 
0000: 8001000000160000017a000000060000  .........z......
0010: 01000000007f                      ......
debug:tcti:src/util/io.c:53:read_all() reading 10 bytes from fd 3 to buffer at 0x7ffcda8d7f5e 
debug:tcti:src/util/io.c:76:read_all() read 10 bytes from fd 3: (size=10): 
0000: 80010000004300000000              .....C....
debug:tcti:src/util/io.c:53:read_all() reading 67 bytes from fd 3 to buffer at 0x5646025f9590 
debug:tcti:src/util/io.c:76:read_all() read 67 bytes from fd 3: (size=67): 
0000: 80010000004300000000000000000600  .....C..........
0010: 00000600000100322e30000000012900  .......2.0....).
0020: 00002f0000020e000000000000020f00  ../.............
0030: 00000300000210000003e80000021100  ................
0040: 0003e8                            ...
debug:tcti:src/tss2-tcti/tcti-mssim.c:408:tcti_mssim_receive() Response buffer received: (size=67): 
0000: 80010000004300000000000000000600  .....C..........
0010: 00000600000100322e30000000012900  .......2.0....).
0020: 00002f0000020e000000000000020f00  ../.............
0030: 00000300000210000003e80000021100  ................
0040: 0003e8                            ...
debug:marshal:src/tss2-mu/base-types.c:174:Tss2_MU_UINT32_Unmarshal() offset parameter non-NULL, updated to 0x1e
"""

# A part of swtpm's log, by swtpm 0.7.1 with level=20.
SWTPM = """\
 Ctrl Cmd: length 5
 00 00 00 05 00 
 Ctrl Rsp: length 4
 00 00 00 00 
 SWTPM_IO_Read: length 12
 80 01 00 00 00 0C 00 00 01 44 00 00 
 SWTPM_IO_Write: length 10
 80 01 00 00 00 0A 00 00 00 00 
 SWTPM_IO_Read: length 35
 80 02 00 00 00 23 00 00 01 4E 40 00 00 01 01 00 
 00 01 00 00 00 09 40 00 00 09 00 00 00 00 00 00 
 08 00 00 
 SWTPM_IO_Write: length 10
 80 01 00 00 00 0A 00 00 02 8B 
"""

# print_hex_dump of Linux, and the message of its driver.
LINUX = """\
[    1.234567] tpm_tis 00:05: 00000000: 80 02 00 00 00 23 00 00 01 4e 40 00 00 01 01 00  .....#...N@.....
[    1.234568] tpm_tis 00:05: 00000010: 00 01 00 00 00 09 40 00 00 09 00 00 00 00 00 00  ......@.........
[    1.234569] tpm_tis 00:05: 00000020: 08 00 00                                         ...
[    1.300000] tpm tpm0: A TPM error (395) occurred attempting to read an index
"""

# What tpm2_createprimary prints with libtss2's module, which has no buffers of its own in a trace.
TOOL = """\
debug:tcti:src/tss2-tcti/tctildr.c:159:tctildr_conf_parse() name_conf: "tpmsim:rm,state=/home/a/tpm" 
WARNING:esys:src/tss2-esys/api/Esys_CreatePrimary.c:400:Esys_CreatePrimary_Finish() Received TPM Error 
ERROR:esys:src/tss2-esys/api/Esys_CreatePrimary.c:135:Esys_CreatePrimary() Esys Finish ErrorCode (0x000002ca) 
ERROR: Esys_CreatePrimary(0x2CA) - tpm:parameter(2):the type of the value is not appropriate for the use
"""

LISTED = ", ".join(map(str, READ))
# What languages print for the command READ.
PRINTED = {
    "Python's bytes": f"sent {READ!r}",
    "Python's list": f"{list(READ)}",
    "Rust's Debug": f"Command {{ bytes: [{LISTED}] }}",
    "Rust's {:#?}": "[\n" + "".join(f"    {it},\n" for it in READ) + "]",
    "Rust's {:02x?}": "[" + ", ".join(f"{it:02x}" for it in READ) + "]",
    "Rust's {:x?}": "[" + ", ".join(f"{it:x}" for it in READ) + "]",
    "Go's %v": f"sent [{' '.join(map(str, READ))}]",
    "Go's %#v": "[]byte{" + ", ".join(f"{it:#x}" for it in READ) + "}",
    "Node's Buffer": f"<Buffer {READ.hex(' ')}>",
    "Node's Uint8Array": f"Uint8Array(35) [\n  {LISTED}\n]",
    "a Buffer in JSON": '{"type":"Buffer","data":[' + LISTED.replace(" ", "") + "]}",
    "an array in JSON": "{" + ",".join(f'"{at}":{it}' for at, it in enumerate(READ)) + "}",
    "Java's signed bytes": "[" + ", ".join(str((it ^ 128) - 128) for it in READ) + "]",
    "a C array": "const uint8_t c[35] = {\n"
    + ",  // a part\n".join(
        ", ".join(f"0x{it:02X}" for it in READ[at : at + 8]) for at in range(0, 35, 8)
    )
    + "\n};\nsize_t c_size = 35;",
    "a C text": f'c = "{"".join(f"{chr(92)}x{it:02x}" for it in READ[:16])}"\n    "'
    + "".join(f"\\{it:03o}" for it in READ[16:])
    + '";',
    "hex in a line": f"12:00:01 tpm: -> {READ.hex()} (35 bytes)",
    "hex with colons": READ.hex(":"),
    "hex in groups": READ.hex(" ", -4),
    "JSON with hex": f'{{"command": "0x{READ.hex().upper()}"}}',
}


def script(*lines):
    return [it for it in lines if it]


def lines_of(text):
    """Returns the lines of the script that a text is taken as."""
    found = taken_of(text if isinstance(text, bytes) else text.encode())
    return script(*found.script.decode().split("\n"))


class Forms(unittest.TestCase):
    SCRIPT = [f"cmd {BUFFERS[0]}", f"# {BUFFERS[1]}", f"cmd {BUFFERS[2]}", f"# {BUFFERS[3]}"]

    def test_dumps(self):
        for form, text in DUMPS.items():
            self.assertEqual(lines_of(text), self.SCRIPT, form)
            self.assertEqual(lines_of(text.replace("\n", "\r\n")), self.SCRIPT, form)

    def test_repeated_rows(self):
        for form, text in STARRED.items():
            self.assertEqual(lines_of(text), [f"cmd {ZEROS}"], form)

    def test_two_dumps(self):
        text = DUMPS["hexdump -C"] + "and again:\n" + DUMPS["od -c"]
        self.assertEqual(lines_of(text), [*self.SCRIPT[:4], "power", *self.SCRIPT])

    def test_languages(self):
        for form, text in PRINTED.items():
            self.assertEqual(lines_of(text), [self.SCRIPT[2]], form)
            both = f"{text}\nand then\n{text}\n"
            self.assertEqual(lines_of(both), [self.SCRIPT[2]] * 2, form)

    def test_octal_digits_after_zero(self):
        """Rust prints a zero as \\0, after which a digit is another character; C reads \\01 as one."""
        for text, last in (
            (r'"\x80\x01\0\0\0\x0c\0\0\x01{\01"', "0031"),
            (r'"\x80\x01\0\0\0\x0c\0\0\x01{\0\01"', "0001"),
        ):
            self.assertEqual(lines_of(text), [f"cmd 80010000000c0000017b{last}"])

    def test_logs(self):
        capability = "cmd 8001000000160000017a00000006000001000000007f"
        found = lines_of(TRACE)
        self.assertEqual((found[0], len(found)), (capability, 2))
        self.assertTrue(found[1].startswith("# 80010000004300000000"))
        self.assertEqual(lines_of(SWTPM), self.SCRIPT)
        self.assertEqual(lines_of(LINUX), [self.SCRIPT[2]])
        self.assertEqual(taken_of(TRACE.encode()).remarks, [])

    def test_lines_are_those_of_the_text(self):
        lines = taken_of(SWTPM.encode()).script.decode().split("\n")
        self.assertEqual([lines.index(it) + 1 for it in self.SCRIPT], [6, 8, 10, 14])

    def test_bytes(self):
        whole = STARTUP + STARTED + READ + MISSING
        self.assertEqual(lines_of(whole), self.SCRIPT)
        with self.assertRaises(NothingFound):
            taken_of(whole[:-1])

    def test_what_is_cut(self):
        for text, missing in (
            (f"[{LISTED[:60]}]", "16 of 35"),
            (f"<Buffer {READ[:30].hex(' ')} ... 5 more bytes>", "5 of 35"),
        ):
            with self.assertRaisesRegex(NothingFound, f"line 1: {missing} bytes are missing"):
                taken_of(text.encode())
            found = taken_of(f"{text}\n{STARTUP.hex()}".encode())
            self.assertEqual(found.remarks, [f"line 1: {missing} bytes are missing"])

    def test_what_is_no_buffer(self):
        for text in ("nothing", "[1, 2, 3]", "8001", f"{READ.hex()}0", "x" * 5000, "[" * 5000):
            with self.assertRaises(NothingFound):
                taken_of(text.encode())

    def test_the_bound(self):
        text = b"x" * (taken.MOST_BYTES + 1)
        with self.assertRaisesRegex(TooLong, "16,777,217 bytes; .* at most 16,777,216"):
            taken_of(text)
        own = b"cmd 00\n" + b"#\n" * taken.MOST_BYTES
        self.assertEqual(taken_of(own).script, own)

    def test_many_buffers(self):
        """Many buffers in one block are read, with a power cycle before each later TPM2_Startup."""
        text = f"{BUFFERS[0]}\n{BUFFERS[1]}\n" * 5000
        lines = taken_of(text.encode()).script.decode().split("\n")
        self.assertEqual(len(script(*lines)), 3 * 5000 - 1)

    def test_own_texts(self):
        for text in ("", "# a comment\n\n", "do Startup 0\n# 80010000000a00000000\n", "power\n"):
            found = taken_of(text.encode())
            self.assertEqual((found.script.decode(), found.form, found.remarks), (text, "", []))
        for text in ("do Startup 0\r\n", "\ufeffdo Startup 0\n", "cmd 80 01, 0x00\n"):
            found = taken_of(text.encode())
            self.assertIn(found.script, (b"do Startup 0\n", b"cmd 800100\n"))
            self.assertIn("refuses", found.remarks[0])


def pcapng(*packets, link=228):
    """Returns a capture as libtss2's pcap module writes it."""

    def block(kind, body):
        size = 12 + len(body)
        return struct.pack("<II", kind, size) + body + struct.pack("<I", size)

    head = block(0x0A0D0D0A, struct.pack("<IHHq", 0x1A2B3C4D, 1, 0, -1))
    interface = block(1, struct.pack("<HHI", link, 0, 0))
    told = [
        struct.pack("<IIIII", 0, 0, 0, len(it), len(it)) + it + bytes(-len(it) % 4)
        for it in packets
    ]
    return head + interface + b"".join(block(6, it) for it in told)


def packet(payload, is_response=False):
    ports = (2321, 50000) if is_response else (50000, 2321)
    tcp = struct.pack(">HHIIBBHHH", *ports, 0, 0, 0x50, 0x10, 0xFFFF, 0, 0)
    return (
        struct.pack(">BBHHHBBHII", 0x45, 0, 40 + len(payload), 0, 0, 255, 6, 0, 1, 2)
        + tcp
        + payload
    )


class Captures(unittest.TestCase):
    def test_pcapng(self):
        text = pcapng(
            packet(STARTUP), packet(STARTED, True), packet(b""), packet(READ), packet(MISSING, True)
        )
        found = taken_of(text)
        lines = found.script.decode().split("\n")
        self.assertEqual([lines.index(it) + 1 for it in Forms.SCRIPT], [1, 2, 4, 5])
        self.assertIn("line N is packet N", found.form)

    def test_pcap(self):
        """In Microsoft's protocol, other fields surround a command."""
        framed = struct.pack(">IBI", 8, 0, len(READ)) + READ
        for order in "<>":
            text = struct.pack(f"{order}IHHiIII", 0xA1B2C3D4, 2, 4, 0, 0, 65535, 1)
            for it in (packet(framed), packet(struct.pack(">I", 10) + MISSING + bytes(4), True)):
                data = bytes(12) + b"\x08\x00" + it
                text += struct.pack(f"{order}IIII", 0, 0, len(data), len(data)) + data
            self.assertEqual(lines_of(text), Forms.SCRIPT[2:])

    def test_a_capture_that_is_cut(self):
        text = pcapng(packet(STARTUP), packet(STARTED, True))
        for size in range(4, len(text)):
            try:
                taken_of(text[:size])
            except NothingFound:
                pass


class Codes(unittest.TestCase):
    def test_words(self):
        for word, number in (
            ("0x98e", 0x98E),
            ("98e", 0x98E),
            ("98E", 0x98E),
            ("0x0000098e", 0x98E),
            ("TPM_RC_AUTH_FAIL", 0x8E),
            ("TPM2_RC_AUTH_FAIL", 0x8E),
            ("AUTH_FAIL", 0x8E),
            ("AUTH_FAIL/s1", 0x98E),
            ("VALUE/p2", 0x2C4),
            ("HANDLE/h2", 0x28B),
            ("TPM_RC_REFERENCE_S1", 0x919),
            ("0xb098e", 0xB098E),
            ("0xa000a", 0xA000A),
        ):
            self.assertEqual(code_of(word), Code(number), word)
        for word in ("journal", "boot", "dead", "TPM_RC_NOTHING", "0x", "", "VALUE/x1"):
            self.assertIsNone(code_of(word), word)

    def test_codes_in_texts(self):
        found = taken_of(TOOL.encode())
        self.assertEqual([(it.number, it.line) for it in found.codes], [(0x2CA, 3)])
        self.assertEqual(
            found.remarks,
            ["the commands are in the journal of the device: tpmsim-explain /home/a/tpm"],
        )
        linux = "[ 1.3] tpm tpm0: A TPM error (2314) occurred attempting the self test\n"
        self.assertEqual([it.number for it in taken_of(linux.encode()).codes], [0x90A])
        self.assertEqual([it.number for it in taken_of(MISSING).codes], [0x28B])
        self.assertEqual([it.number for it in taken_of(b"rc = TPM2_RC_LOCKOUT").codes], [0x921])

    def test_the_table_of_the_standard(self):
        """The names that the model returns have the standard's numbers."""
        for name, number in CODES.items():
            self.assertEqual(BY_NAME[name].number, number, name)

    def test_checks_are_those_of_the_table(self):
        self.assertEqual(CHECKS, table_rules.codes())
        codes = {int(it, 16) for it in CHECKS}
        self.assertEqual(codes - set(CODES.values()), {BY_NAME["MEMORY"].number})
        self.assertEqual(set(CODES.values()) - codes, set())

    def test_output(self):
        output, error, status = told("0x2ca")
        self.assertEqual((error, status), ("", 0))
        self.assertEqual(output.splitlines()[0], "TYPE (2ca), parameter 2")
        self.assertIn("public areas  docs/table/objects.md#public-areas", output)
        self.assertIn("No check of tpmsim returns it.", told("TPM_RC_TESTING")[0])
        self.assertIn("is a code of the TCTI in libtss2", told("0xa000a")[0])


class Explained(unittest.TestCase):
    def setUp(self):
        folder = self.enterContext(tempfile.TemporaryDirectory())
        self.path = pathlib.Path(folder, "log")

    def told(self, text, *words):
        self.path.write_bytes(text if isinstance(text, bytes) else text.encode())
        return told(self.path, *words)

    def test_a_command_alone(self):
        """A command alone is explained as on a started device, unless the log shows INITIALIZE."""
        before = "NV_Read in line 1 comes before TPM2_Startup"
        for text in (READ.hex(), READ, f"cmd {READ.hex()}\n", f"{list(READ)}\n{list(MISSING)}"):
            output, error, status = self.told(text)
            self.assertEqual((error, status), ("", 0))
            self.assertIn(before, output)
            self.assertIn("line 1: NV_Read is refused: HANDLE/h2 (28b), by check G6", output)
        for text in (
            f"cmd {READ.hex()}\n# 80010000000a00000100\n",
            f"{READ.hex()}\n80010000000a00000100\n",
            f"cmd {READ.hex()}\ncmd {READ.hex()}\n",
            f"power\ncmd {READ.hex()}\n",
        ):
            output, _, status = self.told(text)
            self.assertEqual((before in output, status), (False, 0), text)
            self.assertIn("NV_Read is refused: INITIALIZE (100), by check G5", output)

    def test_another_tpm(self):
        """Of another TPM's responses only the codes are compared."""
        random = "80010000000c0000017b0008", "800100000014000000000008d154d575d4113d92"
        output, _, status = self.told("\n".join(random))
        self.assertEqual(status, 0)
        self.assertIn("1 answer of the log is the model's", output)
        output, _, status = self.told(f"{READ.hex()}\n80010000000a0000098e\n")
        self.assertEqual(status, 1)
        self.assertIn("line 1: NV_Read: the log's TPM answers AUTH_FAIL (98e), session 1", output)

    def test_power_in_another_log(self):
        """A second TPM2_Startup that succeeds comes after a power cycle."""
        output, _, status = self.told("\n".join([*BUFFERS[:2], *BUFFERS[:2]]))
        self.assertIn("2 commands, 0 of them refused, and 1 power cycle.", output)
        self.assertEqual(status, 0)

    def test_nothing_found(self):
        words = "is no script, and has no command, response or response code in a known form"
        self.assertEqual(
            self.told("what is this?")[1:], (f"tpmsim-explain: {self.path} {words}\n", 2)
        )

    def test_pages(self):
        page = self.told(DUMPS["xxd"], "--html")[0]
        self.assertIn(BUFFERS[2], page)
        words = f"{self.path} has no command, which a page could show; leave out --html"
        self.assertEqual(self.told(TOOL, "--html"), ("", f"tpmsim-explain: {words}\n", 2))


if __name__ == "__main__":
    unittest.main()
