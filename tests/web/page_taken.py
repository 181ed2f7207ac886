"""Prints lines of JSON. Each line contains what another program prints about a TPM, in base64, and the
lines of the script that tpmsim.taken makes of it, or the codes that it finds. page_taken.mjs compares
what the page finds.
"""

import base64
import json
import sys

from tests.common import places

sys.path.insert(0, str(places.TOP / "clients" / "python" / "tests"))

import dump_samples  # noqa: E402
import test_taken  # noqa: E402
from tpmsim.explain.code_words import meaning_of, title_of  # noqa: E402
from tpmsim.taken import NothingFound, taken_of  # noqa: E402

READ, MISSING = test_taken.READ, test_taken.MISSING
WHOLE = b"".join(map(bytes.fromhex, dump_samples.BUFFERS))
PACKETS = [
    test_taken.packet(it, at % 2 == 1)
    for at, it in enumerate(map(bytes.fromhex, dump_samples.BUFFERS))
]

OTHERS = {
    "two dumps": dump_samples.DUMPS["hexdump -C"] + "and again:\n" + dump_samples.DUMPS["od -c"],
    "a trace of libtss2": test_taken.TRACE,
    "swtpm's log": test_taken.SWTPM,
    "Linux's log": test_taken.LINUX,
    "what a tool prints": test_taken.TOOL,
    "Linux's message": "[ 1.3] tpm tpm0: A TPM error (2314) occurred attempting the self test\n",
    "a list that is cut": f"[{test_taken.LISTED[:60]}]\n{WHOLE.hex()}",
    "a buffer that is cut": f"<Buffer {READ[:30].hex(' ')} ... 5 more bytes>",
    "octal digits after zero": r'"\x80\x01\0\0\0\x0c\0\0\x01{\01"',
    "a response alone": MISSING.hex(),
    "a response alone, in bytes": MISSING,
    "a command alone": READ,
    "commands and responses": WHOLE,
    "two starts": "\n".join([*dump_samples.BUFFERS[:2]] * 2),
    "a capture": test_taken.pcapng(*PACKETS),
    "a script": "do Startup 0\n# 80010000000a00000000\n",
    "nothing": "nothing",
    "brackets": "[" * 5000,
}
CODES = (
    *("0x98e", "98e", "0x0000098e", "TPM_RC_AUTH_FAIL", "AUTH_FAIL", "AUTH_FAIL/s1", "VALUE/p2"),
    *("HANDLE/h2", "0xb098e", "0xa000a", "rc = TPM2_RC_LOCKOUT", "0x2ca", "0", "SUCCESS", "boot"),
)


def samples():
    for kind in (dump_samples.DUMPS, dump_samples.STARRED, test_taken.PRINTED):
        for name, text in kind.items():
            yield name, text
            yield f"{name}, CRLF", text.replace("\n", "\r\n")
    yield from OTHERS.items()
    yield from zip(CODES, CODES)


def main():
    for name, text in samples():
        data = text if isinstance(text, bytes) else text.encode()
        try:
            found = taken_of(data)
            lines = [it for it in found.script.decode().split("\n") if it]
            told = [[title_of(it), meaning_of(it)] for it in found.codes]
            remarks = [it for it in found.remarks if "tpmsim-explain" not in it]
            value = [found.is_foreign, [] if told else lines, told, remarks]
        except NothingFound:
            value = [False, [], [], []]
        print(json.dumps([name, base64.b64encode(data).decode(), *value]))


if __name__ == "__main__":
    main()
