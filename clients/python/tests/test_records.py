"""Tests that records are read back as they were written. Some have images in their heads or
incomplete ends, and responses come before or after the commands.
"""

import contextlib
import io
import json
import pathlib
import tempfile
import unittest

from explained_logs import events_of
from journals import Journal
from tpmsim import records
from tpmsim.audit import main as audit
from tpmsim.device import library, LibraryDevice
from tpmsim.explain import main as command_line
from tpmsim.explain.play import Play
from tpmsim.records.parts import parts_of

START = "do Startup 0"
DEFINE = "do NV_DefineSpace OWNER pw:- 736563726574 01000001000b0004000400000010"
WRITE = "do NV_Write 01000001 01000001 pw:736563726574 3136206279746573206f662074657874 0"
WRONG = "do NV_Read 01000001 01000001 pw:776f726e67 8 0"
RIGHT = "do NV_Read 01000001 01000001 pw:736563726574 8 0"


def journal_with_index():
    """Returns a journal whose image contains an index. A command in the journal has a wrong value
    for the index.
    """
    journal = Journal().play(START, DEFINE, WRITE)
    journal.begin()
    return journal.play(START, WRONG, RIGHT)


def played(text):
    play = Play()
    return play, list(play.events(text))


def codes(events):
    return [it.response[6:10].hex().lstrip("0") for it in events]


class Heads(unittest.TestCase):
    def test_the_image_of_a_journal(self):
        play, events = played(journal_with_index().text)
        self.assertEqual(codes(events), ["", "98e", ""])
        self.assertEqual([(it.answers, it.differences) for it in events], [(1, [])] * 3)
        self.assertIn("The password of the entry is not the authValue", events[1].reason.words)
        self.assertEqual((play.fault, play.damages, play.cuts), ("", [], []))

    def test_the_image_of_a_report(self):
        journal = journal_with_index()
        lines = f"# image {Journal(journal.model).image.hex()}", START, WRONG
        events = events_of(*lines)
        self.assertEqual(codes(events), ["", "98e"])
        self.assertIsNotNone(events[1].reason)

    @unittest.skipUnless(library.is_there(), "there is no library")
    def test_a_device_in_process(self):
        with LibraryDevice() as device:
            for line in (START, DEFINE, WRITE):
                device.execute(records_of(line))
            image = device.save()
        with LibraryDevice.open(image) as device:
            for line in (START, WRONG):
                device.execute(records_of(line))
            events = events_of(*device.trace)
        self.assertEqual(codes(events), ["", "98e"])
        self.assertFalse(any(it.differences for it in events))

    def test_one_log_after_another(self):
        """A log of the same device continues with the knowledge from the log before it. A log of
        another device does not.
        """
        for begin in Journal.begin, Journal.cycle:
            first = Journal().play(START, DEFINE)
            before = first.text
            begin(first)
            first.play(START, WRONG)
            _, events = played(before + first.text)
            self.assertEqual(codes([it for it in events if not it.is_power]), ["", "", "", "98e"])
            self.assertEqual([it.is_power for it in events], [False, False, True, False, False])
            self.assertEqual(events[-1].scene.past.begun[0x01000001], 12)
        other = Journal().play(START, RIGHT)
        _, events = played(before + other.text)
        self.assertEqual(codes(events)[-1], "18b")
        self.assertFalse(any(it.differences for it in events))
        self.assertIn("no earlier command made it", events[-1].reason.words)

    def test_heads_that_are_none(self):
        text = journal_with_index().text
        for bent, fault in (
            (
                text.replace(b"54504d49", b"54504d48", 1),
                "line 1 begins with what is no image: Magic",
            ),
            (text[:100], "line 2: the head is not whole"),
            (text[:77], "line 2: the head is not whole"),
        ):
            self.assertEqual(played(bent)[0].fault, fault)
        bent = text.replace(b"# tpmsim journal 1 00", b"# tpmsim journal 1 01", 1)
        words = "line 1: the head is damaged: its sums are others"
        self.assertEqual(played(bent)[0].damages, [words])

    def test_a_word_in_hex(self):
        """A comment with a hex word begins a log only if the word may be an image or a state text."""
        for words in "# state bad", "# state deed", "# image ", "# image of the device":
            play, events = played("\n".join((words, START, words, RIGHT)).encode())
            self.assertEqual((codes(events), play.fault), (["", "18b"], ""), words)
        for words in "# state 54504d53", "# image 54504d49", f"# state {bytes(42).hex()}":
            play, events = played("\n".join((START, words, RIGHT)).encode())
            self.assertEqual(len(events), 1, words)
            self.assertIn("line 2 begins with what is no ", play.fault)


def records_of(line):
    (step,) = [it for it in records.steps_of(line.encode()) if isinstance(it, records.Command)]
    return step.buffer


class Ends(unittest.TestCase):
    def test_a_cut_end(self):
        """A journal that is cut at any offset, with or without zeros after it, still contains its
        complete records.
        """
        journal = journal_with_index()
        for size in range(journal.head_bytes, len(journal.text)):
            whole = sum(it <= size for it in journal.ends) - 1
            last = journal.ends[whole]
            for zeros in (0, 3):
                play, events = played(journal.text[:size] + bytes(zeros))
                self.assertEqual((len(events), play.fault), (whole, ""), size)
                cuts = [it.size for it in play.cuts]
                self.assertEqual(cuts, [size - last + zeros] if size - last + zeros else [])
                self.assertFalse(any(it.differences for it in events))

    def test_a_byte_left_out(self):
        """If a byte of the last record is missing, the record counts as cut off only if the missing
        byte is its last one.
        """
        journal = journal_with_index()
        text = journal.text
        for place in range(journal.ends[-2], len(text)):
            (part,) = parts_of(text[:place] + text[place + 1 :])
            self.assertEqual(part.torn != b"", place == len(text) - 1, place)

    def test_another_log_after_a_cut_end(self):
        journal = journal_with_index()
        for size in range(journal.ends[1], journal.ends[2]):
            play, events = played(journal.text[:size] + journal.text)
            self.assertEqual([it.is_power for it in events], [False, True, False, False, False])
            self.assertEqual((codes(events)[-2:], play.fault), (["98e", ""], ""))

    def test_lines_after_a_journal(self):
        """Lines that a person has appended to a journal are played."""
        journal = journal_with_index()
        play, events = played(journal.text + f"{WRONG}\n# by hand".encode())
        self.assertEqual((codes(events), play.cuts), (["", "98e", "", "98e"], []))


class Answers(unittest.TestCase):
    def test_a_trace_before_its_command(self):
        lines = "# Startup L0 +0 ok 00000000", START, "# NV_Read L0 +0 G6 0000018b", RIGHT
        events = events_of(*lines)
        self.assertEqual([(it.answers, it.differences) for it in events], [(1, [])] * 2)
        bent = events_of(*lines[:2], "# NV_Read L0 +0 ok 00000000", RIGHT)
        self.assertEqual([len(it.differences) for it in bent], [0, 1])

    def test_the_sum_of_an_answer(self):
        """A changed response is reported first, with its line. Changed marks and changed lines are
        reported too.
        """
        journal = journal_with_index()
        at = journal.ends[1] + 2
        mark = journal.text[at : at + 52]
        for old, new, wanted in (
            (HANDLES, OTHER_HANDLES, [OTHER_LINES, OTHER_SUM]),
            (mark, b"00" + mark[2:-2] + b"00", [DAMAGED, OTHER_SUM]),
        ):
            text = journal.text[:at] + journal.text[at:].replace(old, new, 1)
            _, events = played(text)
            self.assertEqual([it.words for it in events[1].differences], wanted)
            self.assertEqual(events[2].differences, [])
            self.assertEqual(events[0].differences, [])
            output, _, status = told(text)
            self.assertEqual(status, 1)
            self.assertTrue(output.startswith("line 12: NV_Read: the record is damaged"), output)

    def test_another_image(self):
        """The image passed with --image must be the log's own image. If it is not, a difference is
        reported.
        """
        journal = journal_with_index()
        text, own = journal.text, bytes.fromhex(journal.text.split(b"\n")[1][2:].decode())
        output, error, status = told(text, own)
        self.assertEqual((error, status), ("", 0))
        output, _, status = told(text, Journal().image)
        words = "line 1: the device in the log is another one than that of --image\n"
        self.assertEqual((output[: len(words)], status), (words, 1))

    def test_what_was_cut_is_told(self):
        text = journal_with_index().text[:-9]
        output, _, status = told(text)
        words = "line 13: 309 bytes of an incomplete record are left out"
        self.assertIn(words, output)
        value = json.loads(told(text, form="--json")[0])
        self.assertEqual((value["cuts"], status), ([{"line": 13, "size": 309}], 0))


class Audits(unittest.TestCase):
    """The audit judges a journal by the journal's own head and checksums, with or without an
    output.
    """

    def test_a_journal(self):
        journal = journal_with_index()
        for text, more in (
            (journal.text, ""),
            (journal.text[:-9], "Script line 13: 309 bytes of an incomplete record are left out."),
        ):
            status, output, error = audited(text)
            self.assertEqual((status, error), (0, ""))
            self.assertTrue(output.startswith("Start: the device of an image, whose SHA-256 is "))
            words = "the password is not the value that the image has"
            self.assertIn(words, output)
            self.assertIn(more, output)

    def test_journals_one_after_another(self):
        for begin in Journal.begin, Journal.cycle:
            journal = Journal().play(START, DEFINE)
            before = journal.text
            begin(journal)
            journal.play(START, WRITE)
            status, output, _ = audited(before + journal.text)
            events = "5 events: 4 commands, 4 of them accepted and 0 refused, and 1 power cycle."
            self.assertEqual((status, output.splitlines()[1]), (0, events))
        status, _, error = audited(before + Journal().text)
        self.assertEqual((status, error), (1, "audit: script line 13 begins with another device\n"))

    def test_what_is_bent(self):
        journal = journal_with_index()
        at = journal.ends[1]
        bent = journal.text[:at] + journal.text[at:].replace(HANDLES, OTHER_HANDLES, 1)
        self.assertEqual(
            audited(bent)[::2], (1, f"audit: script line 12, NV_Read: {OTHER_LINES}\n")
        )
        image = journal.text.split(b"\n")[1][2:].decode()
        self.assertEqual(audited(journal.text, bytes.fromhex(image))[0], 0)
        error = "audit: image of another device than the log begins with\n"
        self.assertEqual(audited(journal.text, Journal().image)[::2], (2, error))
        self.assertEqual(audited(f"{START}\n".encode())[0], 2)


def audited(text, start=None):
    """Returns the status of an audit without an output, its report, and its standard error."""
    output, error = io.StringIO(), io.StringIO()
    with tempfile.TemporaryDirectory() as folder:
        log, image = pathlib.Path(folder, "log"), pathlib.Path(folder, "start")
        log.write_bytes(text)
        image.write_bytes(start or b"")
        words = [str(log), *(["--image", str(image)] if start else [])]
        with contextlib.redirect_stdout(output), contextlib.redirect_stderr(error):
            status = audit.main(*words)
    return status, output.getvalue(), error.getvalue()


OTHER_SUM = "the response is another one than was recorded, by its sum"
OTHER_LINES = "the record is damaged: its lines are not those of its mark"
DAMAGED = "the record is damaged: the sum of its mark is another one"
HANDLES, OTHER_HANDLES = b"0100000101000001", b"0100000201000001"


def told(text, start=None, form=None):
    """Returns the command line's report about a log, its standard error, and its status."""
    output, error = io.TextIOWrapper(io.BytesIO()), io.StringIO()
    with tempfile.TemporaryDirectory() as folder:
        log = pathlib.Path(folder, "log")
        log.write_bytes(text)
        words = [str(log), *([form] if form else [])]
        if start is not None:
            pathlib.Path(folder, "start").write_bytes(start)
            words += ["--image", str(pathlib.Path(folder, "start"))]
        with contextlib.redirect_stdout(output), contextlib.redirect_stderr(error):
            status = command_line.main(*words)
    output.seek(0)
    return output.read(), error.getvalue(), status
