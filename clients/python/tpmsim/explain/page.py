"""Shows a log as a page: the page of the device (web/README.md), with the log and the findings about
it. The page itself plays the log, so it contains the log's text, but no state and no fields. A log
is data in the page, and the page's script shows it only as text. Therefore no log can close the
element that contains it, or be parsed as markup.
"""

import html
import json
import pathlib
import re
from typing import Any

from tpmsim.device.shipped import DIST
from tpmsim.explain.play import Event, Play
from tpmsim.explain.reason import Fact, Reason
from tpmsim.explain.text import Counts, ends_words, layer_words

Value = dict[str, Any]

# The installed page, and its element that contains the log.
FILE = pathlib.Path(__file__).with_name("tpmsim.html")
NO_LOG = '<script type="application/json" id="log">null</script>'
TITLE = re.compile("<title>[^<]*</title>")

# Characters that must not occur in the element that contains the log, and their escapes in JSON.
ESCAPES = {"<": "\\u003c", ">": "\\u003e", "&": "\\u0026"}


def of_log(name: str, play: Play, log: bytes, counts: Counts) -> str:
    shown = "standard input" if name == "-" else pathlib.PurePath(name).name
    tells_random = b"entropy " in log
    told, first = dict[int, Value](), 0
    for event in play.events(log):
        counts.add(event)
        value = value_of(event, tells_random)
        if value:
            told[event.line] = value
        if event.refused and not first:
            first = event.line
    value = {
        "name": shown,
        "summary": " ".join([*play.remarks, counts.words(), *ends_words(play)]),
        "script": log.decode("utf-8", "replace").rstrip("\0"),
        "line": first or 1,
        "start": (play.given or b"").hex(),
        "events": told,
    }
    return filled(shown, value)


def value_of(event: Event, tells_random: bool) -> Value:
    """Returns what the page cannot compute itself. For most accepted events this is nothing."""
    told: Value = {}
    if event.is_power:
        return told
    scene = event.scene
    if event.reason is not None:
        told["reason"] = reason_value(event.reason)
    if event.notes:
        told["notes"] = [reason_value(it) for it in event.notes]
    if event.entries:
        told["entries"] = [[place, facts_value(facts)] for place, facts in event.entries]
    if scene.plain is not None and scene.plain != scene.command.parameters:
        told["plain"] = [scene.parameters_at, scene.plain.hex()]
    if event.differences:
        told["differs"] = [[it.words, it.log, it.model] for it in event.differences]
    if event.layer:
        told["layer"] = " ".join(it.strip() for it in layer_words(event))
    if not tells_random and any(scene.random):
        told["random"] = scene.random.hex()
    return told


def reason_value(reason: Reason) -> Value:
    return {
        "words": reason.words,
        "facts": facts_value(reason.told),
        "sentence": reason.sentence,
        "link": reason.link,
    }


def facts_value(facts: list[Fact]) -> list[list[str]]:
    return [[it.label, it.value, it.sort] for it in facts]


def plain() -> str:
    """Returns the page without a log: the installed page, or else the one in the repository."""
    return (FILE if FILE.is_file() else DIST / FILE.name).read_text("utf-8")


def filled(name: str, value: Value) -> str:
    spelled = json.dumps(value, separators=(",", ":"))
    data = re.sub("[<>&]", lambda it: ESCAPES[it[0]], spelled)
    page = plain()
    title = f"<title>{html.escape(name)}, explained</title>"
    page = TITLE.sub(lambda it: title, page, count=1)
    return page.replace(NO_LOG, NO_LOG.replace("null", data), 1)
