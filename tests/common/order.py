"""A caller for scripts about the order of refusals. A command is first sent with many faults, which
are then repaired one by one. Each response must report the first remaining fault.
"""

from collections.abc import Sequence
from dataclasses import replace

from tpmsim.caller import Means
from tpmsim.standard import area, CC, command, Entry, handle_kinds, number, RS_PW, SESSIONS
from tpmsim.standard.frames import buffer_of
from tests.common.teller import others_in, Teller

# Entities that do not exist: sessions, an NV index, and an object.
ABSENT_SESSION, ABSENT_POLICY = Entry(0x0200_000F, b"", 0xFF, b""), 0x0300_000F
ABSENT_INDEX, ABSENT_OBJECT = 0x0100_0099, 0x8000_0007

PASSWORD, RESERVED, AUDIT = Entry(RS_PW, b"", 1, b""), 0x98, 0x81


class OrderTeller(Teller):
    def refuses_before_parameters(
        self,
        code: CC,
        handles: Sequence[int],
        cut: bytes,
        uses: Sequence[Means],
        closed: int | None = None,
        both: str = "BAD_AUTH/s1",
    ) -> None:
        """Causes all refusals that precede those of the parameters. All commands have the truncated
        parameters `cut`. No password can authorize the index `closed`. `both` is the outcome if two
        entries are wrong.
        """
        self.refuses_handles(code, handles)
        self.refuses_entries(code, handles, cut, uses)
        prepared, last = self.prepare(code, handles, cut, *uses), len(uses)
        if closed:
            words = "Both entries are wrong, on an index that no password can use: AUTH_UNAVAILABLE"
            unavailable = self.prepare(code, [closed, *handles[1:]], cut, *uses)
            self.refused(words, others_in(unavailable, 1, last))
        if last > 1:
            self.refused(f"Both entries are wrong: {both}", others_in(prepared, 1, last))
        self.refused(f"The last entry is wrong: BAD_AUTH/s{last}", others_in(prepared, last))

    def refuses_handles(self, code: CC, handles: Sequence[int]) -> None:
        """Sends commands with a handle that is cut, is of another kind, or names a missing entity.
        Nothing follows that handle, or the other handles and an entry for a missing session.
        """
        for place, wanted in enumerate(code.handles, 1):
            before = b"".join(number(it, 4) for it in handles[: place - 1])
            half = command(code, before + b"\1\0")
            self.raw(f"Half of handle {place}: INSUFFICIENT/h{place}", half)
            for handle in (ABSENT_INDEX, ABSENT_OBJECT, ABSENT_POLICY):
                outcome = f"VALUE/h{place}"
                if handle_kinds.IS_OF_KIND[wanted.kind](handle):
                    is_index = handle == ABSENT_INDEX
                    outcome = f"HANDLE/h{place}" if is_index else f"REFERENCE_H{place - 1}"
                others = [*handles[: place - 1], handle, *handles[place:]]
                alone = command(code, before + number(handle, 4))
                whole = buffer_of(code, others, [ABSENT_SESSION], b"")
                self.raw(f"{handle:08X} as handle {place}: {outcome}", alone, whole)

    def refuses_entries(
        self, code: CC, handles: Sequence[int], cut: bytes, uses: Sequence[Means]
    ) -> None:
        """Sends commands with faults in the authorization area, and in the fields of entries. The
        HMAC of the first entry is wrong.
        """
        text, last = b"".join(number(it, 4) for it in handles), len(uses)
        if code.authorized:
            self.raw("No sessions: AUTH_MISSING", command(code, text + cut))
        eight_bytes = command(code, text + area(bytes(8)) + cut, SESSIONS)
        self.raw("An area of eight bytes: AUTHSIZE", eight_bytes)
        prepared = others_in(self.prepare(code, handles, cut, *uses), 1)
        first = prepared.entries[0]
        for words, *entries in (
            ("Four entries of missing sessions: AUTHSIZE", *4 * [ABSENT_SESSION]),
            ("A nonce of 33 bytes: SIZE/s1", replace(first, nonce=bytes(33)), ABSENT_SESSION),
            ("A missing session: REFERENCE_S0", ABSENT_SESSION),
            ("And after a wrong entry: REFERENCE_S1", first, ABSENT_SESSION),
            ("A password after a wrong entry: HANDLE/s2", first, PASSWORD),
        ):
            self.refused(words, prepared.but(entries=entries))
        for words, attributes in (("RESERVED_BITS", RESERVED), ("ATTRIBUTES", AUDIT)):
            faulty = prepared.but_entry(last, attributes=attributes)
            self.refused(f"Attributes {attributes:X} of the last entry: {words}/s{last}", faulty)

    def in_order(
        self, code: CC, uses: Sequence[Means], *cases: tuple[str, str, Sequence[int], bytes]
    ) -> None:
        """Sends a command several times, with fewer faults each time. A case has a description, an
        outcome, handles and parameters. The authorization value of the first handle authorizes the
        command.
        """
        for what, outcome, handles, parameters in cases:
            by_value = self.auth_value(handles[0])
            prepared = self.prepare(code, handles, parameters, by_value, *uses[1:])
            self.comes_to(f"{what}: {outcome}", prepared)
