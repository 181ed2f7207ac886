#!/usr/bin/env python3
"""Builds dist/tpmsim.html: one file with the page of web/page, the proved module dist/tpmsim.wasm,
and the contents of the repository's tables. The same sources always result in the same bytes.

    web/build.py             writes dist/tpmsim.html
    web/build.py --check     compares it with the present one; the status is 1 if they differ
    web/build.py --facts     prints the contents of the tables, as the page has them
    web/build.py --out FILE  writes the page there; --module FILE takes the module from there
    web/build.py --docs URL  the page's links lead to URL/table/.., instead of ../docs/table/..
"""

from __future__ import annotations

import argparse
import base64
import hashlib
import json
import pathlib
import re
import sys
import zlib
from dataclasses import dataclass

HERE = pathlib.Path(__file__).resolve().parent
TOP = HERE.parent
sys.path[:0] = [str(TOP / "clients" / "python"), str(TOP)]

from tpmsim.explain import dissection, words  # noqa: E402
from tpmsim.explain.codes import CHECKS  # noqa: E402
from tpmsim.standard import CC, handle_kinds, lines, NAMED, NUMBERED, nv, objects  # noqa: E402
from tpmsim.standard.command_names import NAMES  # noqa: E402
from tpmsim.standard.response_codes import LAYERS, MEANINGS  # noqa: E402
from tests.common import places  # noqa: E402

PAGE = HERE / "page"
MOST_BYTES = 700_000

# The examples in the order of the menu.
EXAMPLES = (
    *("measured_boot", "disk_unlock", "disk_pin", "sealing_policy", "hmac_session", "nv_secret"),
    *("write_once", "anti_rollback", "one_command", "suspend_resume", "guest_boot"),
)

Value = dict[str, object]


# The contents of the tables.


def command_value(code: CC, sections: dict[str, str]) -> Value:
    return {
        "name": code.name,
        "number": int(code),
        "form": lines.form_of(code),
        "section": sections[code.name],
        "handles": [
            {"name": it.name, "kind": it.kind.value, "isAuthorized": it.is_authorized}
            for it in code.handles
        ],
        "parameters": [{"name": it.name, "kind": it.kind.value} for it in code.parameters],
        "answeredHandles": [it.name for it in code.answered_handles],
        "answeredParameters": [
            {"name": it.name, "kind": it.kind.value} for it in code.answered_parameters
        ],
    }


def sections_of_table() -> dict[str, str]:
    """Returns the link to each command's section in docs/table, by the command's name."""
    text = (TOP / "docs" / "table" / "README.md").read_text("utf-8")
    found = re.findall(r"^\| \[TPM2_(\w+)\]\(([\w.#-]+)\) \|", text, re.MULTILINE)
    return {name: f"docs/table/{place}" for name, place in found}


def handle_kind_value(form: handle_kinds.HandleForm) -> Value:
    names = {name.decode("ascii"): number for name, number in lines.HANDLE_NAMES.items()}
    return {
        "fixed": [name for name, number in names.items() if form.holds(number)],
        "isPcr": form.holds(handle_kinds.PCRS[0]),
        "first": [it for it in words.OF_FIRST_BYTE if form.holds(it << 24)],
        "words": form.words,
    }


def rules_value() -> Value:
    text = (TOP / "clients" / "python" / "tpmsim" / "explain" / "rules.json").read_text("utf-8")
    rules: Value = json.loads(text)
    return rules


def version() -> str:
    text = (TOP / "clients" / "python" / "pyproject.toml").read_text("utf-8")
    found = re.search(r'^version = "([^"]+)"$', text, re.MULTILINE)
    return found[1] if found else ""


COMMENT_COLUMNS = 100


def unwrapped(text: str) -> str:
    """Returns a script in which each paragraph of a comment is one line, which the page wraps itself.
    The examples wrap their comments at column 100, so a line goes on in the next one if that one's
    first word did not fit.
    """
    found: list[str] = []
    room = 0
    for line in text.split("\n"):
        word = line.removeprefix("# ").split(" ")[0]
        if line.startswith("# ") and found and found[-1].startswith("# ") and room <= len(word):
            found[-1] += line.removeprefix("#")
        else:
            found.append(line)
        room = COMMENT_COLUMNS - len(line)
    return "\n".join(found)


def facts(docs: str) -> Value:
    sections = sections_of_table()
    kinds = {it.value: lines.WORDS[it].name for it in lines.WORDS}
    return {
        "commands": [command_value(NAMED[it], sections) for it in sorted(NAMED)],
        "otherCommands": {
            str(number): name for number, name in sorted(NAMES.items()) if number not in NUMBERED
        },
        "handleKinds": {
            kind.value: handle_kind_value(form) for kind, form in handle_kinds.HANDLES.items()
        },
        "kindWords": kinds,
        "rules": rules_value(),
        "examples": [[it.stem, unwrapped(it.read_text("utf-8"))] for it in places.named(*EXAMPLES)],
        "algorithms": words.ALGORITHMS,
        "handleNames": {name.decode("ascii"): it for name, it in lines.HANDLE_NAMES.items()},
        "ofFirstByte": words.OF_FIRST_BYTE,
        "sessions": words.SESSIONS,
        "entryFlags": words.ATTRIBUTES,
        "objectFlags": {int(it): it.name for it in objects.Attribute},
        "nvFlags": {int(it): it.name for it in nv.Attribute},
        "nvTypes": {int(it): it.name.lower() for it in nv.Type},
        "operations": words.OPERATIONS,
        "starts": dissection.STARTS,
        "tickets": dissection.TICKETS,
        "tags": dissection.TAGS,
        "pcrs": len(handle_kinds.PCRS),
        "codes": {
            it.number: [it.name, it.words, [at[:2] for at in CHECKS.get(f"{it.number:03X}", [])]]
            for it in MEANINGS.values()
        },
        "layers": LAYERS,
        "stories": json.loads((PAGE / "stories.json").read_text("utf-8")),
        "docs": docs,
        "version": version(),
    }


# The page.

IMPORT = re.compile(r'^import (?:\{([^}]*)\} from )?"([./\w]+\.js)";\n', re.MULTILINE)
EXPORT = re.compile(r"^export ((?:async )?(?:function\*?|const|let|class)\s+(\w+))", re.MULTILINE)
COMMENT = re.compile(r"^[ \t]*(?://[^\n]*|/\*\*(?:(?!\*/).)*\*/)\n", re.MULTILINE | re.DOTALL)
INDENT = re.compile(r"^[ \t]+|\n+(?=\n)", re.MULTILINE)
MARK = re.compile(r"@([A-Z]+)@")


@dataclass(frozen=True)
class Script:
    """A module of JavaScript: its name in the page, the names that it imports from other modules,
    and its text.
    """

    name: str
    imports: list[tuple[str, str]]
    exports: list[str]
    body: str

    @property
    def text(self) -> str:
        """The module as a function that returns its exports."""
        taken = "".join(f"const {{{names}}} = {of};\n" for names, of in self.imports if names)
        given = ", ".join(self.exports)
        return f"const {self.name} = (() => {{\n{taken}{self.body}return {{ {given} }};\n}})();\n"


def name_of(path: pathlib.Path) -> str:
    return "of_" + re.sub(r"\W", "_", str(path.relative_to(TOP).with_suffix("")))


def read_script(path: pathlib.Path) -> tuple[Script, list[pathlib.Path]]:
    text = path.read_text("utf-8")
    found = [(names, (path.parent / of).resolve()) for names, of in IMPORT.findall(text)]
    imports = [
        (re.sub(r"\s+", " ", names.replace(" as ", ": ")).strip(), name_of(of))
        for names, of in found
    ]
    exports = [name for _, name in EXPORT.findall(text)]
    body = INDENT.sub("", COMMENT.sub("", EXPORT.sub(r"\1", IMPORT.sub("", text))))
    if any(line.replace('"`"', "").count("`") % 2 for line in body.splitlines()):
        sys.exit(f"build.py: {path.name} has a text of several lines, whose indentation would go")
    if re.search(r"^(?:import|export)\b", body, re.MULTILINE):
        sys.exit(f"build.py: {path.name} has an import or an export in another form")
    return Script(name_of(path), imports, exports, body), [of for _, of in found]


def scripts(first: pathlib.Path, done: dict[pathlib.Path, Script]) -> dict[pathlib.Path, Script]:
    """Returns the modules of the page, each after those that it imports."""
    found, below = read_script(first)
    for it in below:
        if it not in done:
            scripts(it, done)
    done[first] = found
    return done


def script() -> str:
    """Returns the modules as one script, without indentation, and without comments that have a line
    of their own.
    """
    body = "".join(it.text for it in scripts(PAGE / "main.js", {}).values())
    return f'(() => {{\n"use strict";\n{body}}})();\n'


def hash_word(text: str) -> str:
    digest = hashlib.sha256(text.encode()).digest()
    return f"'sha256-{base64.b64encode(digest).decode('ascii')}'"


def policy(style: str, code: str) -> str:
    return (
        f"default-src 'none'; style-src {hash_word(style)}; "
        f"script-src {hash_word(code)} 'wasm-unsafe-eval'; img-src data:; "
        "base-uri 'none'; form-action 'none'"
    )


def data_text(value: object) -> str:
    """Returns a value as JSON, in which no text can begin or end an HTML element."""
    spelled = json.dumps(value, separators=(",", ":"), ensure_ascii=True)
    return re.sub("[<>&]", lambda it: f"\\u{ord(it[0]):04x}", spelled)


def deflated(module: bytes) -> bytes:
    """Returns the module, compressed for DecompressionStream("deflate-raw")."""
    packer = zlib.compressobj(9, zlib.DEFLATED, -zlib.MAX_WBITS)
    return packer.compress(module) + packer.flush()


MODULE = re.compile(r'(<script [^>]*id="module">)([^<]*)(</script>)')


def unpacked(text: str) -> str:
    """Returns the page with its module in hex, because another version of zlib may compress it
    differently.
    """
    return MODULE.sub(
        lambda it: it[1] + zlib.decompress(base64.b64decode(it[2]), -zlib.MAX_WBITS).hex() + it[3], text
    )


def page(module: bytes, docs: str) -> str:
    style, code = (PAGE / "page.css").read_text("utf-8"), script()
    parts = {
        "POLICY": policy(style, code),
        "STYLE": style,
        "SCRIPT": code,
        "FACTS": data_text(facts(docs)),
        "TUTORIAL": data_text(json.loads((PAGE / "tutorial.json").read_text("utf-8"))),
        "MODULE": base64.b64encode(deflated(module)).decode("ascii"),
    }
    frame = (PAGE / "page.html").read_text("utf-8")
    return MARK.sub(lambda it: parts[it[1]], frame)


def main() -> int:
    parser = argparse.ArgumentParser(prog="build.py")
    parser.add_argument("--check", action="store_true")
    parser.add_argument("--facts", action="store_true")
    parser.add_argument("--module", type=pathlib.Path, default=TOP / "dist" / "tpmsim.wasm")
    parser.add_argument("--out", type=pathlib.Path, default=TOP / "dist" / "tpmsim.html")
    parser.add_argument("--docs", default="../docs")
    asked = parser.parse_args()
    if asked.facts:
        print(json.dumps(facts(asked.docs)))
        return 0
    made = page(asked.module.read_bytes(), asked.docs).encode()
    if len(made) > MOST_BYTES:
        sys.exit(f"build.py: the page has {len(made):,} bytes, over {MOST_BYTES:,}")
    if asked.check:
        is_there = asked.out.is_file()
        is_same = is_there and unpacked(asked.out.read_text("utf-8")) == unpacked(made.decode())
        print(f"{asked.out}: {'the same' if is_same else 'another one'}")
        return 0 if is_same else 1
    asked.out.write_bytes(made)
    print(f"{asked.out}: {len(made):,} bytes")
    return 0


if __name__ == "__main__":
    sys.exit(main())
