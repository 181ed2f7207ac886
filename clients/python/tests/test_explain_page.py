"""Tests the page of a log. It contains the log and the report about the log, and never treats text
of the log as markup. tests/web/page_browser.sh opens the page in a browser.
"""

import html.parser
import json
import pathlib
import unittest

from explained_logs import EXAMPLE, lines_with
from tpmsim.explain import page
from tpmsim.explain.play import Play
from tpmsim.explain.text import Counts

# A hostile text, which occurs everywhere in a log: in its name, in comments, in words, and in bytes
# that are text.
HOSTILE = "</script><script>alert(1)</script><!--<img src=x onerror=alert(2)>&amp;@FACTS@"
LOG = f"""# {HOSTILE}
do Startup 0
do NV_DefineSpace OWNER pw:- {b'</script><b>'.hex()} 01000001000b0002000200000008
# 80010000000a{HOSTILE.encode().hex()}
do NV_Write OWNER 01000001 pw:{HOSTILE[:32].encode().hex()} {b'<!--'.hex()} 0
"""


def page_of(name, log, answers=None, image=None):
    return page.of_log(name, Play(image, answers, None, True), log, Counts())


class Elements(html.parser.HTMLParser):
    """The elements of a page with their attributes, and the text of each element, by the element's
    id or, without an id, by its tag.
    """

    def __init__(self, text):
        super().__init__()
        self.found, self.texts, self.inside = [], {}, ""
        self.feed(text)
        self.close()

    def handle_starttag(self, tag, attrs):
        self.found.append((tag, dict(attrs)))
        self.inside = dict(attrs).get("id", tag)

    def handle_endtag(self, tag):
        self.inside = ""

    def handle_data(self, data):
        self.texts[self.inside] = self.texts.get(self.inside, "") + data


def log_of(text):
    """Returns the log that a page contains."""
    return json.loads(Elements(text).texts["log"])


class Page(unittest.TestCase):
    def test_escaping(self):
        plain = Elements(page.plain())
        parsed = Elements(page_of(HOSTILE, LOG.encode()))
        self.assertEqual(parsed.found, plain.found)
        name = pathlib.PurePath(HOSTILE).name
        self.assertEqual(parsed.texts["title"], f"{name}, explained")
        self.assertEqual(parsed.texts["script"], plain.texts["script"])
        self.assertNotRegex(parsed.texts["log"], "[<>&]")
        value = json.loads(parsed.texts["log"])
        self.assertEqual((value["name"], value["script"]), (name, LOG))

    def test_content(self):
        answers = EXAMPLE.with_suffix(".trace").read_bytes()
        value = log_of(page_of("x/disk_unlock.tpm", EXAMPLE.read_bytes(), answers))
        self.assertEqual(value["name"], "disk_unlock.tpm")
        self.assertEqual(value["script"].encode(), EXAMPLE.read_bytes())
        told = {int(line): it for line, it in value["events"].items()}
        unseals, loads = lines_with("do Unseal"), lines_with("do Load")
        refused = [line for line, it in told.items() if "reason" in it]
        self.assertEqual(refused, sorted([unseals[0], *unseals[2:], *loads[-2:]]))
        self.assertEqual(value["line"], refused[0])
        self.assertIn("The PCRs differ: PCR 7.", told[refused[3]]["reason"]["words"])
        self.assertFalse(any("differs" in it for it in told.values()))

    def test_differences(self):
        value = log_of(page_of("", b"do Startup 0\n# 00000100\n"))
        wanted = [["the response code is another one", "00000100", "00000000"]]
        self.assertEqual(value["events"]["1"]["differs"], wanted)

    def test_start(self):
        image = log_of(page_of("", b"do Startup 0\n", image=None))["start"]
        self.assertEqual(image, "")

    def test_random_bytes_of_another_log(self):
        """A log of another TPM has no entropy lines. The page then takes the random bytes from the
        responses.
        """
        log = b"cmd 80010000000c000001440000\ncmd 80010000000c0000017b0004\n# 80010000001000000000000401020304\n"
        value = log_of(page_of("", log))
        self.assertTrue(value["events"]["2"]["random"].startswith("01020304"))
        self.assertNotIn("differs", value["events"]["2"])
        value = log_of(page_of("", b"entropy 00\n" + log))
        self.assertIn("differs", value["events"]["3"])
