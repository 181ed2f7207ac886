"""Prints lines of JSON. Each line contains a command from a script of tests/ or examples/, its
response, and the fields of both according to tpmsim.explain. page_fields.mjs compares the page's
fields with these. Commands that only the complete profile has are left out, since the page does not
know their fields.
"""

import json

from tpmsim.explain import dissection
from tpmsim.records.reader import Command, steps_of
from tpmsim.standard import ALL_NUMBERED, NUMBERED
from tests.common import places

MOST_BYTES = 500_000


def values(fields):
    return [
        [it.name, it.at, it.size, it.front, it.meaning, it.sort, it.depth, it.is_group]
        for it in fields
    ]


def responses_of(path):
    lines = path.read_text("latin-1").splitlines()
    return [bytes.fromhex(it) for it in lines if it.startswith(("8001", "8002", "00c4"))]


def main():
    seen = set()
    for script in places.scripts():
        if script.stat().st_size > MOST_BYTES:
            continue
        commands = [it for it in steps_of(script.read_bytes()) if isinstance(it, Command)]
        for command, response in zip(commands, responses_of(script.with_suffix(".out"))):
            if (command.buffer, response) in seen:
                continue
            seen.add((command.buffer, response))
            number = int.from_bytes(command.buffer[6:10], "big")
            if number in ALL_NUMBERED and number not in NUMBERED:
                continue
            code = int.from_bytes(response[6:10], "big")
            asked = dissection.fields_of_command(command.buffer)
            answered = dissection.fields_of_response(number, response)
            told = command.buffer.hex(), response.hex(), dissection.code_words(code)
            print(json.dumps([*told, values(asked), values(answered)]))


if __name__ == "__main__":
    main()
