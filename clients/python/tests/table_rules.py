"""Extracts the sentences about all checks from docs/table, and which checks return each response
code. They are stored in rules.json and codes.json of tpmsim/explain, since the package is used
without docs/table. tools/generated.py writes these files, and a test compares them with docs/table.
"""

import json
import pathlib
import re

TOP = pathlib.Path(__file__).resolve().parents[3]
TABLE = TOP / "docs" / "table"
WRITTEN = TOP / "clients" / "python" / "tpmsim" / "explain" / "rules.json"

LINK = re.compile(r"\[([^\]]*)\]\(([^)]*)\)")
OWN = re.compile(r"- A(\d)(?: to A(\d))?[.:] (.*)", re.DOTALL)
CODE = re.compile(r"([A-Z_]+?)(?:_[HS]0)?(?:/[hps]N?\d?)? [0-9A-F]{3}")
LIST_OF_CHECKS = re.compile(r"\[the checks of [^\]]*\]\(([^)]*)\)")


def plain(text):
    """Returns a text as one line, with each link replaced by its link text. In the result, the
    items of a list are separated by semicolons.
    """
    text = LINK.sub(r"\1", text).replace("`", "")
    text = re.sub(r"\n *- ", "; ", text).replace(":; ", ": ")
    return " ".join(text.split()).replace(".; ", ": ").replace(": - ", ": ").replace(";; ", "; ")


def anchor_of(title):
    """Returns the anchor of a heading."""
    return re.sub(r"[^\w\- ]", "", title.lower()).replace(" ", "-")


def sections_of(page):
    """Yields each section of a page: its title, its link and its text."""
    parts = re.split(r"^#+ (.*)$", (TABLE / page).read_text(), flags=re.MULTILINE)[1:]
    for title, text in zip(parts[::2], parts[1::2]):
        yield title, f"{page}#{anchor_of(title)}", text.strip()


def section_at(link):
    texts = {found: text for _, found, text in sections_of(link.partition("#")[0])}
    return texts[link]


def paragraphs(text):
    """Returns the paragraphs of a text, except the one that links to the definition and the code."""
    found = filter(str.strip, re.split(r"\n\n+", text))
    return [it for it in found if not it.startswith("Definition: ")]


def table_rows(text):
    """Returns the cells of each row of the tables in a text, without the tables' headers."""
    rows = [
        [cell.strip() for cell in it.strip("|").split("|")]
        for it in text.split("\n")
        if it.startswith("|")
    ]
    return [it for it in rows if not set(it[0]) <= set("-") and it[0] != "what is refused"]


def items(text):
    """Returns the items of the lists in a text, each with its continuation lines."""
    return re.findall(r"^(?:- |\d\. ).*(?:\n(?: +\S.*))*", text, flags=re.MULTILINE)


# Sentences that several checks share: the section, the beginning of the sentences, and their
# number.
OTHERS = (
    ("integrity", "objects.md#integrity", "TPM2_Load refuses", 1),
    ("tries", "lockout.md#failed-tries", "While failedTries", 2),
    ("lockoutAuth", "lockout.md#lockoutauth", "A wrong authorization attempt", 3),
    ("guesses", "lockout.md#guesses-that-are-not-tries", "Only an attempt", 3),
    ("entry", "sessions.md#an-entry-in-a-command", "If the key is empty", 2),
    ("nonces", "sessions.md#a-refusal", "When the device accepts", 2),
    ("encryption", "parameter_encryption.md#parameter-encryption", "authValue is the", 2),
    ("zeros", "sessions.md#sessions-and-entries", "Trailing zeros of", 1),
    ("name of an index", "nv.md#the-name", "The public area contains", 3),
    ("random bytes", "README.md#events", "An event is", 1),
)
SENTENCE = re.compile(r"(?<=[.:])\s+(?=[A-Z|])")


class Rules:
    def __init__(self):
        self.found = {}

    def add(self, key, text, link):
        assert key not in self.found, key
        text = plain(text)
        if text.partition(" ")[0].islower():
            text = text[0].upper() + text[1:]
        end = "" if text.endswith((".", ":")) else "."
        self.found[key] = text + end, f"docs/table/{link}"

    def general(self):
        """Adds the rules of G1 to G11, and of M."""
        for title, link, text in sections_of("order_of_refusals.md"):
            check = title.partition(":")[0]
            if not re.fullmatch(r"G\d+|M", check):
                continue
            rows = [it for it in table_rows(text) if CODE.match(it[1])]
            names = [CODE.match(it[1])[1] for it in rows]
            for at, (row, name) in enumerate(zip(rows, names)):
                number = f".{names[: at + 1].count(name)}" if names.count(name) > 1 else ""
                words = row[0]
                if check == "G9" and name in ("AUTH_FAIL", "BAD_AUTH"):
                    words += ". " + " ".join(SENTENCE.split(paragraphs(text)[-1])[:2])
                self.add(f"{check}/{name}{number}", words, link)
            if not rows:
                self.add(check, paragraphs(text)[0], link)
            if check == "G11":
                self.add("G11/INSUFFICIENT", paragraphs(text)[-1], link)
        link = "order_of_refusals.md#sized-buffers"
        self.add("buffer/SIZE", paragraphs(section_at(link))[1], link)
        later = (it.partition(" ")[2] for it in items(section_at(link))[1:])
        self.add("structure/SIZE", " ".join(later), link)

    def conditions(self):
        for title, link, text in sections_of("policies.md"):
            if found := re.match(r"Condition (\d)", title):
                self.add(f"condition/{found[1]}", f"{title}. {paragraphs(text)[0]}", link)

    def structures(self):
        areas = {"public": "objects.md#public-areas", "nvPublic": "nv.md#the-public-area"}
        for key, link in areas.items():
            for field, text, *_ in table_rows(section_at(link)):
                if field != "field":
                    name = field.replace("parameters, of a ", "")
                    self.add(f"{key}/{name}", f"{field}: {text}", link)

    def others(self):
        for key, link, begins, count in OTHERS:
            section = section_at(link)
            those = paragraphs(section[section.index(begins) :])
            words = " ".join(SENTENCE.split(those[0])[:count])
            self.add(key, words + (" " + those[1] if words.endswith(":") else ""), link)

    def commands(self):
        for page in sorted(TABLE.glob("*.md")):
            for title, link, text in sections_of(page.name):
                if found := re.match(r"TPM2_(\w+) \(", title):
                    self.command(found[1], link, text)

    def command(self, name, link, text):
        if found := re.search(r"Parameters?:\s+(?:- )?(.*?)(?:\sAnswer:|\n\n|$)", text, re.DOTALL):
            self.add(f"{name}/parameters", found[1], link)
        if like := re.search(r"Checks and effect: those of TPM2_(\w+)", text):
            page = sections_of(link.partition("#")[0])
            _, link, text = next(it for it in page if it[0].startswith(f"TPM2_{like[1]} ("))
        for own in filter(None, map(OWN.match, items(text))):
            self.own(name, link, own)

    def own(self, name, link, found):
        first, last, words = int(found[1]), int(found[2] or found[1]), found[3]
        if last == first:
            self.add(f"{name}/A{first}", words, link)
            return
        target = LIST_OF_CHECKS.search(words)[1]
        listed = [it for it in items(section_at(target)) if re.match(r"\d\. ", it)]
        for at in range(first, last + 1):
            self.add(f"{name}/A{at}", listed[at - first].partition(" ")[2], target)


CODE_ROW = re.compile(r"`0*([0-9A-F]{2,3})(?: to ([0-9A-F]{3}))?`")
PLACE = re.compile(r"(?:^|\. )(?=(?:/[hps]\d?|Without a number):)")
PLACE_NAME = re.compile(r"(/[hps]\d?|Without a number): ")


def codes():
    """Returns the checks that return each response code: for each, where the fault is, as in `/p2`,
    the check's name, and its link.
    """
    found = {}
    for cell, _, words in table_rows(section_at("README.md#by-response-code")):
        numbers = CODE_ROW.fullmatch(cell)
        if numbers is None:
            continue
        first, last = int(numbers[1], 16), int(numbers[2] or numbers[1], 16)
        for number in range(first, last + 1):
            found[f"{number:03X}"] = [it for part in PLACE.split(words) for it in checks_in(part)]
    return found


def checks_in(part):
    """Yields the checks in a part of a cell, which may begin with where the fault is."""
    place = PLACE_NAME.match(part)
    name = place[1] if place else ""
    for words, link in LINK.findall(part):
        yield ["-" if name.startswith("Without") else name, words, f"docs/table/{link}"]


def codes_text():
    """Returns the text of codes.json, with one code on each line."""
    return (
        "{\n" + ",\n".join(f' "{key}": {json.dumps(it)}' for key, it in codes().items()) + "\n}\n"
    )


def rules():
    """Returns the sentence and the link of each check, by its key."""
    made = Rules()
    for part in (made.general, made.conditions, made.structures, made.others, made.commands):
        part()
    return made.found


def text():
    """Returns the text of rules.json, with one rule on each line."""
    found = rules()
    said = [f" {json.dumps(it, ensure_ascii=False)}: " for it in found]
    told = [json.dumps(list(it), ensure_ascii=False) for it in found.values()]
    return "{\n" + ",\n".join(map("".join, zip(said, told))) + "\n}\n"
