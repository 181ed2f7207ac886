"""Checks dist/tpmsim.html without a browser: page_built.py PAGE CSS. Prints a line for each check.
The status is 1 if a check fails.
"""

import base64
import hashlib
import html.parser
import json
import pathlib
import re
import sys

TOP = pathlib.Path(__file__).resolve().parents[2]
MOST_BYTES = 700_000

# Functions that treat text as markup or as code, and functions that load something.
FORBIDDEN = re.compile(
    r"innerHTML|outerHTML|insertAdjacentHTML|document\.write|\beval\(|new Function|srcdoc"
    r"|\bfetch\(|XMLHttpRequest|WebSocket|EventSource|sendBeacon|importScripts|\bimport\(|https?://"
)


class Elements(html.parser.HTMLParser):
    def __init__(self, text):
        super().__init__()
        self.found, self.texts, self.is_inside = [], [], False
        self.feed(text)
        self.close()

    def handle_starttag(self, tag, attrs):
        self.found.append((tag, dict(attrs)))
        self.texts.append("")
        self.is_inside = True

    def handle_endtag(self, tag):
        self.is_inside = False

    def handle_data(self, data):
        if self.is_inside:
            self.texts[-1] += data

    def all_of(self, tag):
        return [(it[1], text) for it, text in zip(self.found, self.texts) if it[0] == tag]


def hash_word(text):
    digest = hashlib.sha256(text.encode()).digest()
    return f"'sha256-{base64.b64encode(digest).decode('ascii')}'"


def policy_is_exact(page):
    (policy,) = [it["content"] for it, _ in page.all_of("meta") if "http-equiv" in it]
    ((_, style),) = page.all_of("style")
    (code,) = [text for it, text in page.all_of("script") if "type" not in it]
    wanted = [
        "default-src 'none'",
        f"style-src {hash_word(style)}",
        f"script-src {hash_word(code)} 'wasm-unsafe-eval'",
        "img-src data:",
        "base-uri 'none'",
        "form-action 'none'",
    ]
    return policy.split("; ") == wanted


def has_no_handlers(page):
    names = {name for _, attrs in page.found for name in attrs}
    return not [
        it for it in names if it.startswith("on") or it in ("style", "src", "href", "action")
    ]


def code_of(page):
    return next(text for it, text in page.all_of("script") if "type" not in it)


def data_of(page, name):
    return json.loads(next(text for it, text in page.all_of("script") if it.get("id") == name))


def anchors_of(path):
    found = set()
    for line in path.read_text("utf-8").splitlines():
        heading = re.fullmatch(r"#+ (.*)", line)
        if heading:
            words = re.sub(r"[^\w\- ]", "", heading[1].lower())
            found.add(words.replace(" ", "-"))
    return found


def broken_links(facts):
    links = {it[1] for it in facts["rules"].values()} | {it["section"] for it in facts["commands"]}
    anchors = {}
    for link in sorted(links):
        name, _, anchor = link.partition("#")
        if name not in anchors:
            path = TOP / name
            anchors[name] = anchors_of(path) if path.is_file() else set()
        if anchor not in anchors[name]:
            yield link


# The colours of texts, each with the backgrounds against which it needs the contrast of WCAG 2.1,
# success criterion 1.4.3, level AA.

TEXTS = {
    "ink": ("ground", "panel", "sunk", "tint", "ok-tint", "bad-tint", "warn-tint"),
    "dim": ("ground", "panel", "sunk", "tint", "bad-tint", "warn-tint"),
    "accent": ("ground", "panel", "sunk", "tint", "bad-tint", "warn-tint"),
    "ok": ("ground", "panel", "tint", "ok-tint"),
    "bad": ("ground", "panel", "sunk", "tint", "bad-tint"),
    "warn": ("ground", "panel", "warn-tint"),
    "handle": ("ground", "panel", "sunk", "tint", "handle-tint"),
    "auth": ("ground", "panel", "sunk", "tint", "auth-tint"),
    "data": ("ground", "panel", "sunk", "tint", "data-tint"),
    "ground": ("accent", "bad", "ok"),
}


def luminance(colour):
    parts = [int(colour[at : at + 2], 16) / 255 for at in (1, 3, 5)]
    red, green, blue = (
        it / 12.92 if it <= 0.04045 else ((it + 0.055) / 1.055) ** 2.4 for it in parts
    )
    return 0.2126 * red + 0.7152 * green + 0.0722 * blue


def contrast(one, other):
    low, high = sorted((luminance(one), luminance(other)))
    return (high + 0.05) / (low + 0.05)


def faint_pairs(css):
    for scheme in re.findall(r":root \{(.*?)\}", css, re.DOTALL):
        colours = dict(re.findall(r"--([\w-]+): (#[0-9a-f]{6})", scheme))
        for text, grounds in TEXTS.items():
            for ground in grounds:
                found = contrast(colours[text], colours[ground])
                if found < 4.5:
                    yield f"{text} {colours[text]} on {ground} {colours[ground]}: {found:.2f}"


def main():
    text = pathlib.Path(sys.argv[1]).read_text("utf-8")
    css = pathlib.Path(sys.argv[2]).read_text("utf-8")
    page = Elements(text)
    facts = data_of(page, "facts")
    links, faint = list(broken_links(facts)), list(faint_pairs(css))
    looked = {
        "at most 700,000 bytes": len(text.encode()) <= MOST_BYTES,
        "the policy allows just this style and this script": policy_is_exact(page),
        "no handler, style, link or source in the markup": has_no_handlers(page),
        "the script writes no markup, and fetches nothing": not FORBIDDEN.search(code_of(page)),
        "each rule and command has its section in docs/table": not links,
        "all 47 commands are there": len(facts["commands"]) == 47,
        "ten lessons": len(data_of(page, "lessons")) == 10,
        "contrast is AA, light and dark": not faint,
        "no log is in it": data_of(page, "log") is None,
    }
    for name, holds in looked.items():
        print(f"{'yes' if holds else 'NO'}: {name}")
    for it in [*links, *faint]:
        print(it)
    sys.exit(0 if all(looked.values()) else 1)


if __name__ == "__main__":
    main()
