"""Tests layered scripts: the plain scripts that they produce, their errors, and served devices."""

import dataclasses
import pathlib
import tempfile
import unittest

from tpmsim.device import ServedDevice
from tpmsim.model.player import Player
from tpmsim.script import BadScript, Layer, own_device
from tpmsim.script.own_device import OwnModelDevice
from tpmsim.standard import CC
from programs import PATIENCE, served

EXAMPLES = sorted((pathlib.Path(__file__).resolve().parents[3] / "examples/words").glob("*.tpms"))

START = """do Startup 0
do StartAuthSession NULL NULL $nonce - 0 null sha256
let session = StartAuthSession.sessionHandle
"""


def played(script, device=None, traces=False):
    """Returns the lines of the plain script."""
    with device or own_device() as it:
        return list(Layer(it, traces).plain(script))


def code_of(buffer):
    return int.from_bytes(buffer[6:10], "big")


def commands(lines):
    return [it for it in lines if it.startswith(("do ", "cmd"))]


def outcomes(script, device=None):
    """Returns the response codes in all traces of a plain script."""
    lines = played(script, device, traces=True)
    return [it.split()[-1] for it in lines if it.startswith("# ") and " L0 +" in it]


def traced_by_the_model(lines):
    """Returns the traces that a model prints for the lines of a plain script."""
    player, printed = Player(), []
    for line in lines:
        printed += player.play(line.encode())
    return [f"# {it}" for it in printed if " L0 +" in it]


class RoundTrips(unittest.TestCase):
    def test_examples_play_the_same_again(self):
        self.assertEqual(len(EXAMPLES), 5)
        for example in EXAMPLES:
            with self.subTest(example.stem):
                lines = played(example.read_text(), traces=True)
                traces = [it for it in lines if it.startswith("# ") and " L0 +" in it]
                self.assertEqual(traced_by_the_model(lines), traces)

    def test_a_plain_script_is_itself(self):
        plain = "# a comment\n\nentropy 5a\nloc 2\nwait 5\ndo Startup 0\ncmd\npower\n"
        self.assertEqual(played(plain), plain.splitlines())

    def test_the_plain_script_of_a_plain_script_is_itself(self):
        for example in EXAMPLES:
            with self.subTest(example.stem):
                lines = played(example.read_text())
                self.assertEqual(played("\n".join(lines)), lines)

    def test_each_run_is_the_same_and_so_is_the_model(self):
        script = START + "do GetRandom s:$session 8\n"
        once, again = played(script), played(script)
        self.assertEqual(once, again)
        codes = outcomes(script, OwnModelDevice())
        self.assertEqual(codes, ["00000000"] * 3)

    def test_random_bytes_are_new_ones(self):
        lines = played("do Startup 0\n" + "do GetRandom 8\n" * 2)
        drawn = [it for it in lines if it.startswith("entropy ")]
        self.assertEqual(len(drawn), len(set(drawn)))


class Names(unittest.TestCase):
    def test_values(self):
        lines = played(
            'do Startup 0\nlet text = "abc"\nlet none = ""\n'
            "do PCR_Event 00000010 pw:$none ${text}00\n"
            "do PCR_Read sha1:16+sha256:16\nlet both = PCR_Read.pcrValues\n"
            "let second = PCR_Read.pcrValues.1\nlet count = PCR_Read.pcrUpdateCounter\n"
            "let banks = PCR_Read.pcrSelectionOut\nlet again = PCR_Read.command\ncmd $again\n"
        )
        self.assertIn("do PCR_Event 00000010 pw:- 61626300", lines)
        told = dict(it[6:].split(" = ") for it in lines if it.startswith("# let "))
        self.assertEqual(told["both"].split("+")[1], told["second"])
        self.assertEqual(told["banks"], "sha1:16+sha256:16")
        self.assertTrue(told["count"].isdecimal())
        self.assertEqual(lines[-1], f"cmd {told['again']}")

    def test_a_name_has_its_last_value(self):
        lines = played('let a = "1"\nlet a = "2"\ndo PCR_Event 00000010 pw:- $a\n')
        self.assertIn("do PCR_Event 00000010 pw:- 32", lines)

    def test_nonces_differ(self):
        line = "do StartAuthSession NULL NULL $nonce - 0 null sha256\n"
        first, second = commands(played("do Startup 0\n" + 2 * line))[1:]
        self.assertNotEqual(first, second)


class Entries(unittest.TestCase):
    def accepted(self, script):
        codes = outcomes(START + script)
        self.assertEqual(set(codes), {"00000000"}, codes)

    def test_values_are_known_and_told(self):
        self.accepted(
            "do HierarchyChangeAuth OWNER s:$session 6162\n"
            "do HierarchyChangeAuth OWNER s:$session:pin=6162 6364\n"
            "do HierarchyChangeAuth OWNER s:$session 65\n"
            "auth OWNER 6500\n"
            "do HierarchyChangeAuth OWNER s:$session -\n"
        )

    def test_a_wrong_pin_is_forgotten(self):
        script = START + (
            "do HierarchyChangeAuth OWNER s:$session:pin=77 6162\n"
            "do HierarchyChangeAuth OWNER s:$session 6162\n"
        )
        self.assertEqual(outcomes(script)[2:], ["000009a2", "00000000"])

    def test_entries_of_all_kinds(self):
        self.accepted(
            "do StartAuthSession NULL OWNER $nonce - 0 aes sha1\n"
            "let bound = StartAuthSession.sessionHandle\n"
            "do StartAuthSession NULL NULL $nonce - 0 xor-sha256 sha256\n"
            "let masks = StartAuthSession.sessionHandle\n"
            "do HierarchyChangeAuth OWNER s:$bound:decrypt 6162\n"
            "do NV_DefineSpace OWNER pw:6162 7069 01000001000b0004000400000008\n"
            "do NV_Write 01000001 01000001 s:$session s:$masks:decrypt 0011223344556677 0\n"
            "do NV_Read 01000001 01000001 s:$session s:$bound:encrypt s:$masks 8 0\n"
            "do NV_Read 01000001 01000001 s:$masks:encrypt:end 8 0\n"
        )

    def test_what_is_encrypted_is_named_in_plain(self):
        lines = played(
            "do Startup 0\ndo StartAuthSession NULL NULL $nonce - 0 aes sha256\n"
            "let session = StartAuthSession.sessionHandle\n"
            "do NV_DefineSpace OWNER s:$session - 01000001000b0004000400000008\n"
            "do NV_Write 01000001 01000001 s:$session:decrypt 0011223344556677 0\n"
            "do NV_Read 01000001 01000001 s:$session:encrypt 8 0\nlet data = NV_Read.data\n"
        )
        self.assertEqual(lines[-1], "# let data = 0011223344556677")
        self.assertNotIn("0011223344556677", " ".join(commands(lines)))

    def test_policies(self):
        for assertion in "PolicyAuthValue", "PolicyPassword":
            with self.subTest(assertion):
                self.accepted(
                    "do StartAuthSession NULL NULL $nonce - 1 null sha256\n"
                    "let policy = StartAuthSession.sessionHandle\n"
                    f"do {assertion} $policy\ndo PolicyGetDigest $policy\n"
                    "let digest = PolicyGetDigest.policyDigest\n"
                    "do NV_DefineSpace OWNER pw:- 7069 01000001000b000800080020${digest}0008\n"
                    "do NV_Write 01000001 01000001 s:$policy:pin=7069 0011223344556677 0\n"
                    f"do NV_ReadPublic 01000001\ndo {assertion} $policy\n"
                    "do NV_Read 01000001 01000001 s:$policy 8 0\n"
                )


class Faults(unittest.TestCase):
    def test_faults_have_their_line_and_column(self):
        for script, column, words in (
            ("do Startup $x", 12, "nothing is named x"),
            ("do Startup $", 12, r"a name follows \$, as in \$NAME or \${NAME}"),
            ("do Startup x", 12, "BadField: Startup u16"),
            ("do Startup 70000", 12, "Range: Startup u16"),
            ("do Startup", 11, "Missing: Startup u16"),
            ("do Starts 0", 4, "BadName"),
            ("do", 1, "a line begins with do, cmd"),
            ("cmd 8", 5, "the bytes of a command are hex"),
            ("loc 5", 5, "5 is nothing that loc takes"),
            ("wait 9999999999", 6, "9999999999 is nothing that wait takes"),
            ("powers", 1, "a line begins with do"),
            ("let a", 5, "let takes NAME = COMMAND.FIELD"),
            ("let 1 = Startup.x", 5, "a name is letters, digits and _, and begins with no digit"),
            ('let nonce = "a"', 5, r"\$nonce is a new nonce each time"),
            ("let a = b", 9, "a value is COMMAND.FIELD, or a text in quotes, not b"),
            ("let a = Unseal.outData", 9, "Unseal was not answered yet"),
            ("auth OWNER", 6, "auth takes a handle and its value"),
            ("auth OWNERS 00", 6, "OWNERS is no handle"),
            ("auth OWNER 0", 12, "0 is no value in hex, and not -"),
            ("do GetRandom s:$session:encrypt 4", 14, "session 02000000 has no cipher"),
            ("do GetRandom s:$session:what=1 4", 14, "an entry has pin=, decrypt, encrypt, end"),
            (
                "do GetRandom s:$session:pin=00 4",
                14,
                "entry 1 authorizes nothing, and takes no pin",
            ),
            ("do GetRandom s:02000001 4", 14, "no session 02000001 was started here"),
            ("do GetRandom s:$session s:$session x", 36, "BadField: GetRandom u16"),
            ("do PCR_Reset 00000010 s:$session:pin=0", 23, "0 is no value in hex"),
            (
                "do PCR_Reset 00000010 s:$session s:02000000:-:01:-",
                34,
                "a line has entries with their HMAC, or computed ones",
            ),
        ):
            with self.subTest(script), self.assertRaisesRegex(
                BadScript, f"^line 4, column {column}: {words}"
            ):
                played(START + script)

    def test_fields_that_are_not_there(self):
        start = START + "do GetRandom 4\ndo GetRandom 4\ndo Unseal 80000000 pw:-\n"
        for value, column, words in (
            ("GetRandom.bytes", 19, "GetRandom answers randomBytes, and not bytes"),
            ("GetRandom.randomBytes.1", 31, "randomBytes has the elements 0 to 0"),
            ("Unseal.outData", 9, "Unseal: REFERENCE_H0 .*: a refusal has no fields"),
        ):
            with self.subTest(value), self.assertRaisesRegex(
                BadScript, f"^line 7, column {column}: {words}"
            ):
                played(f"{start}let a = {value}")

    def test_a_device_that_is_none(self):
        """If the HMAC of a response is wrong, the script ends."""

        class Liar(OwnModelDevice):
            def answer(self, buffer, locality, elapsed, random):
                event = super().answer(buffer, locality, elapsed, random)
                if code_of(buffer) != CC.HierarchyChangeAuth:
                    return event
                lie = event.response[:-1] + bytes([event.response[-1] ^ 1])
                return dataclasses.replace(event, response=lie)

        first = "do HierarchyChangeAuth OWNER s:$session 61"
        for start, words in (
            (START, "the response is cut off"),
            (START.replace("NULL NULL", "NULL OWNER"), "entry 1 is answered by a wrong hmac"),
        ):
            with self.subTest(words), self.assertRaisesRegex(
                BadScript, f"^line 4, column 1: {words}"
            ):
                played(start + first, Liar())


class Served(unittest.TestCase):
    """A device on a socket. Its nonces are random. Its random bytes, times and power cycles cannot
    be set, so lines that set them are refused.
    """

    def test_a_served_device(self):
        with tempfile.TemporaryDirectory() as folder, served(folder, connections=100) as path:
            self.play(path)

    def play(self, path):
        codes = played(
            START + "do GetRandom s:$session 8\n", ServedDevice(path, PATIENCE), traces=True
        )
        self.assertEqual(codes[-1], "# 00000000")
        self.assertFalse([it for it in codes if it.startswith("entropy")])
        for line, words in (("entropy 00", "random bytes"), ("wait 1", "time"), ("power", "power")):
            with self.subTest(line), self.assertRaisesRegex(BadScript, f"line 1, .*{words}"):
                played(line, ServedDevice(path, PATIENCE))


if __name__ == "__main__":
    unittest.main()
