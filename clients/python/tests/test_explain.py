"""Tests explanations: their sentences and numbers, and that no refusal lacks an explanation."""

import contextlib
import io
import itertools
import json
import os
import pathlib
import re
import string
import tempfile
import unittest
import unittest.mock

import table_rules
from explained_logs import EXAMPLE, LOCKED, MOVED, events_of, lines_with
from journals import Journal
from tpmsim.caller import area, BY_OWNER, BY_POLICY, Caller
from tpmsim.device import ModelDevice
from tpmsim.explain import main as command_line
from tpmsim.explain.checks import CHECKS
from tpmsim.explain.play import Play
from tpmsim.explain.reason import RULES
from tpmsim.explain.sentences import LOOK_WORDS, ROWS, WORDS
from tpmsim.model.image import image
from tpmsim.standard import CC
from tests.common import places

# Longer scripts are left out, because all of them would take half a minute. They consist mostly of
# altered and truncated commands.
MOST_BYTES = 20_000


def told(*words):
    """Returns the command line's output, its standard error, and its status."""
    output, error = io.TextIOWrapper(io.BytesIO()), io.StringIO()
    with contextlib.redirect_stdout(output), contextlib.redirect_stderr(error):
        status = command_line.main(*map(str, words))
    output.seek(0)
    return output.read(), error.getvalue(), status


class Sentences(unittest.TestCase):
    def test_rules_are_those_of_the_table(self):
        self.assertEqual(RULES, {key: list(it) for key, it in table_rules.rules().items()})
        self.assertEqual(table_rules.WRITTEN.read_text(), table_rules.text())

    def test_links_lead_to_headings(self):
        for _, link in RULES.values():
            page, _, anchor = link.removeprefix("docs/table/").partition("#")
            anchors = {it.partition("#")[2] for _, it, _ in table_rules.sections_of(page)}
            self.assertIn(anchor, anchors, link)

    def test_each_check_has_its_numbers(self):
        """Each check has a row of templates, or a function that explains it. The check G11 has a row
        for each kind of wrong field, and no entity can cause G8/AUTH_MISSING.
        """
        general = re.compile(r"G\d+(/\w+(\.\d)?)?|M|condition/\d")
        checks = {it for it in RULES if general.fullmatch(it) and not it.startswith("G11")}
        checks |= {it for it in RULES if it.partition("/")[0] in CC.__members__ and "/A" in it}
        rows = {
            row.get("rule", key if key in RULES else key.partition(".")[0])
            for key, row in ROWS.items()
        }
        found = {*rows, *(it if it in RULES else it.partition(".")[0] for it in CHECKS)}
        self.assertEqual(checks - {"G8/AUTH_MISSING"}, found - {"G11"})

    def test_templates_name_known_words(self):
        """Each template prints its values in words that exist, or as a number."""
        known, number = {**WORDS, **LOOK_WORDS}, re.compile(r"(#x|,|d|0\d+x|0\{digits\}x)?")
        for key, row in ROWS.items():
            kinds = (row.get(it, {}).values() for it in ("wrong", "wanted", "had", "facts"))
            for template in (row.get("says", ""), *itertools.chain(*kinds)):
                for _, name, words, _ in string.Formatter().parse(template):
                    is_known = name is None or words in known or number.fullmatch(words)
                    self.assertTrue(is_known, (key, template))


class Logs(unittest.TestCase):
    def test_all_scripts(self):
        """Every refusal has a reason, no script causes a crash, and the model's responses never
        differ from the recorded ones. Every second script is explained with its trace, and the
        others with their responses.
        """
        refused = 0
        scripts = [it for it in places.scripts() if it.stat().st_size <= MOST_BYTES]
        for number, script in enumerate(scripts):
            answers = script.with_suffix(".trace" if number % 2 else ".out")
            play = Play(None, answers.read_bytes())
            for event in play.events(script.read_bytes()):
                self.assertEqual(event.differences, [], script.name)
                self.assertEqual(event.reason is None, not event.refused)
                if event.reason is not None:
                    refused += 1
                    self.assertTrue(event.reason.words and event.reason.sentence, script.name)
                    self.assertRegex(event.reason.words, r"[.:]$")
            self.assertEqual(play.bad_line is None, not script.name.startswith("bad_"))
        self.assertGreater(refused, 1000)

    def test_answers_in_comments(self):
        device = ModelDevice(seed=b"answers")
        tpm = Caller(device)
        tpm.start_up()
        tpm.call("GetRandom", bytesRequested=2)
        events = events_of(*device.trace)
        self.assertEqual([(it.answers, it.differences) for it in events], [(1, []), (1, [])])
        bent = [it.replace("ok 00000000", "G5 00000100") for it in device.trace]
        (found,) = events_of(*bent)[0].differences
        traced = "Startup L0 +0 G5 00000100", "Startup L0 +0 ok 00000000"
        self.assertEqual((found.log, found.model), traced)

    def test_answers_behind_a_line(self):
        others = "# 00000123 01234567", "# 54504d490002000000a200000000", "# 0123456", "# Startup"
        other_code = "the response code is another one"
        other_byte = "the response is another one from byte 9 on, in responseCode"
        for lines, answers, *wanted in (
            (("do Startup 0", "# 00000100", "# 80010000000a00000000"), 2, other_code),
            (("do Startup 0", "# 80010000000a00000001"), 1, other_byte),
            (("# 10:11:12.131 Startup L0 +0 ok 00000000", "do Startup 0"), 1),
            (("do Startup 0", *others), 0),
        ):
            event = events_of(*lines)[0]
            told = event.answers, [it.words for it in event.differences]
            self.assertEqual(told, (answers, wanted))

    def test_answers_beside(self):
        script = EXAMPLE.read_bytes().decode().splitlines()
        for ending in (".out", ".trace"):
            answers = EXAMPLE.with_suffix(ending).read_bytes()
            events = events_of(*script, answers=answers)
            self.assertFalse(any(it.differences for it in events))
            half = answers[: len(answers) // 2].rpartition(b"\n")[0] + b"\n"
            cut = events_of(*script, answers=half)
            self.assertEqual(cut[-1].differences[0].words, "the answers end before it")


class CommandLine(unittest.TestCase):
    def setUp(self):
        self.folder = pathlib.Path(self.enterContext(tempfile.TemporaryDirectory()))

    def file(self, name, text):
        path = self.folder / name
        path.write_bytes(text if isinstance(text, bytes) else text.encode())
        return path

    def test_text(self):
        output, error, status = told(EXAMPLE, EXAMPLE.with_suffix(".trace"))
        self.assertEqual((error, status), ("", 0))
        self.assertIn(
            f"line {LOCKED}: Unseal is refused: POLICY_FAIL/s1 (99d), by check G9", output
        )
        self.assertIn(f"PCR 7 was written by  line {MOVED} (PCR_Event of PCR 7)", output)
        self.assertTrue(output.rstrip().endswith("90 answers of the log are the model's."))

    def test_at(self):
        output, _, status = told(EXAMPLE, "--at", LOCKED)
        self.assertEqual(status, 0)
        self.assertNotIn(f"line {lines_with('do Unseal')[0]}", output)
        self.assertIn("itemHandle", output)
        error = f"tpmsim-explain: --at 1: this line of {EXAMPLE} has no command\n"
        self.assertEqual(told(EXAMPLE, "--at", 1)[1:], (error, 2))

    def test_json(self):
        output, _, status = told(EXAMPLE, "--json")
        value = json.loads(output)
        counts = [value[it] for it in ("commands", "refused", "power_cycles")]
        self.assertEqual((counts, status), ([45, 6, 2], 0))
        lines = [(it["line"], it["refused"], it["reason"]["rule"]) for it in value["events"]]
        self.assertIn((LOCKED, "POLICY_FAIL/s1", "condition/8"), lines)
        whole = json.loads(told(EXAMPLE, "--json", "--at", LOCKED)[0])["events"]
        self.assertEqual(whole[0]["fields"][3]["name"], "itemHandle")

    def test_statuses(self):
        bad = self.file("bad.tpm", "do Startup 0\ndo Startup 0\nnothing\n")
        output, error, status = told(bad)
        words = "line 3 is no line of a script; `tpmsim check` says what is wrong with it"
        self.assertEqual((error, status), (f"tpmsim-explain: {bad}: {words}\n", 2))
        self.assertIn("line 2: Startup is refused: INITIALIZE (100), by check G5", output)
        self.assertEqual(told(self.file("other.tpm", "do Startup 0\n# 00000100\n"))[2], 1)
        one = told(self.file("one.tpm", "do Startup 0\n# 00000000\n"))[0]
        self.assertTrue(one.endswith(" 1 answer of the log is the model's.\n"), one)
        help_line = "see tools/explain.py --help"
        for words, said in (
            ("", f"LOG is missing; {help_line}"),
            ("a b c", f"c is one name too many; {help_line}"),
            ("- -", f"- is one name too many; {help_line}"),
            (f"{bad} --at", f"--at needs a value; {help_line}"),
            (f"{bad} --at x", "--at x: this is no number of a line"),
            (f"{bad} --at 1 --at 2", f"--at is given twice; {help_line}"),
            (f"{bad} --what", f"--what is no option; {help_line}"),
            (f"{bad} -x", f"-x is no option; {help_line}"),
            (f"{bad} --json --html", "--json and --html exclude each other"),
            (f"{bad} --try", f"--try needs a value; {help_line}"),
            ("none", "none cannot be read: No such file or directory"),
        ):
            self.assertEqual(told(*words.split())[1:], (f"tpmsim-explain: {said}\n", 2))
        for magic, word in (b"TPMI", "image"), (b"TPMS", "state text"):
            path = self.file("start", magic)
            said = f"tpmsim-explain: {path} is no {word} of a device: Short\n", 2
            self.assertEqual(told(bad, "--image", path)[1:], said)
        output, _, status = told("--help")
        self.assertTrue(output.startswith("Usage: ") and status == 0)

    def test_folder(self):
        """The logs in a folder are read in their order, with the lines of each."""
        journal = Journal().play("do Startup 0", "do GetRandom 4")
        first = journal.text
        journal.cycle()
        journal.play("do Startup 0", "do Startup 0")
        whole, current = first + journal.text, journal.text
        kept = self.folder / "kept"
        kept.mkdir()
        (kept / "lock").touch()
        (kept / "journal.1").write_bytes(first)
        (kept / "journal").write_bytes(current)
        lines = first.count(b"\n")
        output, error, status = told(kept)
        self.assertEqual((error, status), ("", 0))
        said = f"{kept} has 2 logs: journal.1 from line 1 on, journal from line {lines + 1} on."
        self.assertEqual(" ".join(output.split("\n\n")[0].split()), said)
        self.assertEqual(output.partition("\n\n")[2], told(self.file("whole", whole))[0])
        self.assertEqual(told(self.folder)[0], output)
        self.assertIn("1 power cycle.", output)
        with unittest.mock.patch.dict(
            os.environ, {"TPM2TOOLS_TCTI": f"tpmsim:rm,state={kept},keep=3"}
        ):
            self.assertEqual(told()[0], output)
        boots = self.folder / ("boots" * 30)  # longer than a line, which must not break it
        boots.mkdir()
        (boots / "boot-10.tpm").write_bytes(current)
        (boots / "boot-9.tpm").write_bytes(first)
        said = (
            f"{boots} has 2 logs: boot-9.tpm from line 1 on, boot-10.tpm from line {lines + 1} on."
        )
        output = told(boots)[0]
        self.assertEqual(" ".join(output.split("\n\n")[0].split()), said)
        error = told(self.folder)[1]
        self.assertIn(f"{self.folder} has 2 devices; name one of {boots}, {kept}", error)
        empty = self.folder / "empty"
        empty.mkdir()
        said = "has no journal of a device, and no log boot-N.tpm of a virtual machine"
        self.assertIn(f"{empty} {said}", told(empty)[1])

    def test_try(self):
        """--try accepts a text, bytes in hex, and several values of which one is right."""
        line = "do NV_Read 01000001 01000001 pw:6d696e65 8 0"
        public = "010000010004000600060000" "0008"
        script = self.file(
            "try.tpm", f"do Startup 0\ndo NV_DefineSpace OWNER pw:- 70696e {public}\n{line}\n"
        )
        self.assertIn("slip              none of", told(script)[0])
        for words in ("--try", "mine"), ("--try", "hex:6d696e65"), ("--try", "x", "--try", "mine"):
            output, error, status = told(script, *words)
            self.assertEqual((error, status), ("", 0))
            self.assertIn('that is the tried value, 6d696e65 "mine"', output)
        wrong = "tpmsim-explain: --try hex:6: an even number of hex digits follows hex:\n"
        self.assertEqual(told(script, "--try", "hex:6")[1:], (wrong, 2))

    def test_image(self):
        device = ModelDevice(seed=b"image")
        tpm = Caller(device)
        tpm.start_up()
        tpm.define(area(attributes=BY_OWNER | BY_POLICY))
        path = self.file("image", image(device.model))
        script = self.file("script.tpm", "do Startup 0\ndo NV_Read OWNER 01000001 pw:- 1 0\n")
        self.assertIn("01000001 is not written", told(script, "--image", path)[0])
        self.assertIn("Handle 2, nvIndex, is 01000001", told(script)[0])
