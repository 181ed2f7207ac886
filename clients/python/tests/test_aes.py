"""Tests both AES implementations with the examples of FIPS 197 and SP 800-38A, and compares them
with other programs.
"""

import hashlib
import importlib.util
import shutil
import subprocess
import unittest

from tpmsim.standard import aes, aes_tables
from tpmsim.standard.aes import BLOCK, cfb_decrypt, cfb_encrypt, S_BOX

of = bytes.fromhex
KEY = of("2b7e151628aed2a6abf7158809cf4f3c")
ZERO_TO_15 = bytes(range(16))
CIPHERS = aes.encrypt_block, aes_tables.encrypt_block


def texts():
    """Yields keys, first blocks and texts of each length up to five blocks."""
    for length in range(5 * BLOCK + 1):
        given = hashlib.sha512(b"%d" % length).digest()
        yield given[:BLOCK], given[BLOCK : 2 * BLOCK], (given + given)[:length]


class Examples(unittest.TestCase):
    def test_s_box(self):
        self.assertEqual((S_BOX[0x00], S_BOX[0x53]), (0x63, 0xED))

    def test_blocks(self):
        """The results equal the examples of FIPS 197, appendices B and C.1."""
        for key, plain, masked in (
            (KEY, "3243f6a8885a308d313198a2e0370734", "3925841d02dc09fbdc118597196a0b32"),
            (ZERO_TO_15, "00112233445566778899aabbccddeeff", "69c4e0d86a7b0430d8cdb78070b4c55a"),
        ):
            for encrypt_block in CIPHERS:
                self.assertEqual(encrypt_block(key, of(plain)), of(masked))

    def test_feedback(self):
        """The results equal the examples of SP 800-38A, F.3.13 and F.3.14, also with an incomplete
        last block.
        """
        text = of(
            "6bc1bee22e409f96e93d7e117393172aae2d8a571e03ac9c9eb76fac45af8e51"
            "30c81c46a35ce411e5fbc1191a0a52eff69f2445df4f9b17ad2b417be66c3710"
        )
        masked = of(
            "3b3fd92eb72dad20333449f8e83cfb4ac8a64537a0b3a93fcde3cdad9f1ce58b"
            "26751f67a3cbb140b1808cf187a4f4dfc04b05357c5d1c0eeac4c66f9ff7f2e6"
        )
        for encrypt_block in CIPHERS:
            for length in (0, 1, 15, 16, 17, 63, 64):
                given, wanted = text[:length], masked[:length]
                self.assertEqual(cfb_encrypt(KEY, ZERO_TO_15, given, encrypt_block), wanted)
                self.assertEqual(cfb_decrypt(KEY, ZERO_TO_15, wanted, encrypt_block), given)

    def test_both_are_one_cipher(self):
        for key, iv, text in texts():
            by_book = cfb_encrypt(key, iv, text)
            self.assertEqual(cfb_encrypt(key, iv, text, aes_tables.encrypt_block), by_book)


def by_openssl(key, iv, text, direction):
    words = ["openssl", "enc", direction, "-aes-128-cfb", "-K", key.hex(), "-iv", iv.hex()]
    return subprocess.run(words, input=text, capture_output=True, check=True).stdout


class OtherPrograms(unittest.TestCase):
    """The results equal those of other programs, if these are installed."""

    @unittest.skipUnless(shutil.which("openssl"), "there is no openssl")
    def test_openssl(self):
        for key, iv, text in texts():
            self.assertEqual(cfb_encrypt(key, iv, text), by_openssl(key, iv, text, "-e"))
            self.assertEqual(cfb_decrypt(key, iv, text), by_openssl(key, iv, text, "-d"))

    @unittest.skipUnless(importlib.util.find_spec("cryptography"), "there is no cryptography")
    def test_cryptography(self):
        from cryptography.hazmat.primitives.ciphers import Cipher, algorithms, modes

        for key, iv, text in texts():
            cipher = Cipher(algorithms.AES(key), modes.CFB(iv))
            encryptor, decryptor = cipher.encryptor(), cipher.decryptor()
            masked = encryptor.update(text) + encryptor.finalize()
            plain = decryptor.update(text) + decryptor.finalize()
            self.assertEqual(cfb_encrypt(key, iv, text), masked)
            self.assertEqual(cfb_decrypt(key, iv, text), plain)
