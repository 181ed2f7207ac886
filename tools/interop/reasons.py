"""The reasons why tpmsim supports less than swtpm, which day.steps and rest.steps refer to."""

from __future__ import annotations

REASONS = {
    "asymmetric": "there are no RSA and ECC keys, and no signatures",
    "audit": "there are no audit sessions, and no audit of commands",
    "bank": "the PCR banks are always SHA-1 and SHA-256",
    "cipher": "an AES key can only be a storage parent, and must name its mode",
    "clock": "the clock is the host's: ClockSet and ClockRateAdjust are not served",
    "hierarchy": "hierarchies have no policies, are always enabled, and keep their seeds until TPM2_Clear",
    "index": "NV indices have no global lock and no PIN",
    "object": "objects cannot be loaded by their creation or from outside, be duplicated, or get another authorization value",
    "policy": "these policy commands are not served",
    "scheme": "keyed hashes have no XOR scheme",
    "ticket": "TPM2_PolicySecret has no expiration, and makes no ticket",
}
