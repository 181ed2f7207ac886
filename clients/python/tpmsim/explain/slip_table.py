"""The common mistakes in the parts of an HMAC, as a table: each has a name, and a change of the
ingredients. Their descriptions are in slips.json.
"""

from typing import Callable, Iterator

from tpmsim.explain.ingredients import Ingredients
from tpmsim.explain.slip import other_hash, other_words, rows, Slip, Turn
from tpmsim.standard import digest, number, sized
from tpmsim.standard.sessions import mac


# Wrong ways to combine the parts of an HMAC.


def value_first(session_key: bytes, auth_value: bytes) -> bytes:
    return auth_value + session_key


def names_last(code: bytes, names: bytes, parameters: bytes) -> bytes:
    return code + parameters + names


def code_last(code: bytes, names: bytes, parameters: bytes) -> bytes:
    return names + parameters + code


def cp_hash_last(cp_hash: bytes, *others: bytes) -> bytes:
    return b"".join(others) + cp_hash


def attributes_first(
    cp_hash: bytes, newer: bytes, older: bytes, others: bytes, own: bytes
) -> bytes:
    return cp_hash + own + newer + older + others


def others_last(cp_hash: bytes, newer: bytes, older: bytes, others: bytes, own: bytes) -> bytes:
    return cp_hash + newer + older + own + others


def plain_hash(algorithm: int, key: bytes, message: bytes) -> bytes:
    return digest(algorithm, key + message)


def mac_of_hash(algorithm: int, key: bytes, message: bytes) -> bytes:
    return mac(algorithm, key, digest(algorithm, message))


def by_other(*names: str) -> Turn:
    return lambda it: {name: other_hash(it.algorithm) for name in names}


CpHashOf = Callable[[int, bytes], bytes]


def then(made: CpHashOf, turn: Callable[[bytes], bytes]) -> CpHashOf:
    return lambda algorithm, text: turn(made(algorithm, text))


def as_hex(data: bytes) -> bytes:
    return data.hex().encode()


def without_size(parameters: bytes) -> bytes:
    """Returns the parameters without the size of their first buffer, if they begin with a buffer."""
    size = int.from_bytes(parameters[:2], "big")
    return parameters[2:] if 0 < size <= len(parameters) - 2 else parameters


TURNS: dict[str, Turn] = {
    # Mistakes with the two nonces.
    "nonces swapped": lambda it: {"newer": it.older, "older": it.newer},
    "nonces with their sizes": lambda it: {"newer": sized(it.newer), "older": sized(it.older)},
    "nonceCaller with its size": lambda it: {"newer": sized(it.newer)},
    "nonceTPM with its size": lambda it: {"older": sized(it.older)},
    "nonceCaller left out": lambda it: {"newer": b""},
    "nonceTPM left out": lambda it: {"older": b""},
    "nonces left out": lambda it: {"newer": b"", "older": b""},
    "zeros as nonceCaller": lambda it: {"newer": bytes(len(it.newer))},
    # Mistakes with the attributes.
    "attributes left out": lambda it: {"attributes": b""},
    "attributes in four bytes": lambda it: {"attributes": bytes(3) + it.attributes},
    "attributes before the nonces": lambda it: {"message_of": attributes_first},
    "cpHash after the rest": lambda it: {"message_of": cp_hash_last},
    # Mistakes with the key.
    "session key left out": lambda it: {"session_key": b""},
    "key in another order": lambda it: {"key_of": value_first},
    # Mistakes with cpHash.
    "response's hash": lambda it: {"code": bytes(4) + it.code, "names": ()},
    "command code left out": lambda it: {"code": b""},
    "command code in two bytes": lambda it: {"code": it.code[2:]},
    "command code little-endian": lambda it: {"code": it.code[::-1]},
    "Names left out": lambda it: {"names": ()},
    "Names in another order": lambda it: {"names": it.names[::-1]},
    "one Name left out.last": lambda it: {"names": it.names[:1]},
    "one Name left out.first": lambda it: {"names": it.names[-1:]},
    "parameters left out": lambda it: {"parameters": b""},
    "parameter without its size": lambda it: {"parameters": without_size(it.parameters)},
    "parameters with a size": lambda it: {
        "parameters": number(len(it.parameters), 4) + it.parameters
    },
    "parameters before the Names": lambda it: {"text_of": names_last},
    "command code after the rest": lambda it: {"text_of": code_last},
    "cpHash left out": lambda it: {"cp_hash_of": lambda algorithm, text: b""},
    "cpHash not hashed": lambda it: {"cp_hash_of": lambda algorithm, text: text},
    "cpHash with its size": lambda it: {"cp_hash_of": then(it.cp_hash_of, sized)},
    "cpHash as hex": lambda it: {"cp_hash_of": then(it.cp_hash_of, as_hex)},
    # Mistakes with the hash algorithms.
    "wrong hash.cpHash": by_other("hash_algorithm"),
    "wrong hash.HMAC": by_other("algorithm"),
    "wrong hash.both": by_other("hash_algorithm", "algorithm"),
    "hash instead of an HMAC": lambda it: {"mac_of": plain_hash},
    "HMAC of a hash": lambda it: {"mac_of": mac_of_hash},
    # Mistakes with the nonces of other sessions.
    "other nonces left out": lambda it: {"others": ()},
    "other nonces in another order": lambda it: {"others": it.others[::-1]},
    "other nonces with their sizes": lambda it: {"others": tuple(map(sized, it.others))},
    "other nonces after the rest": lambda it: {"message_of": others_last},
}
ROWS = rows("HMAC", TURNS)


def of_rows(right: Ingredients) -> Iterator[Slip]:
    """Yields the mistakes of the table. A row that changes nothing here makes the correct HMAC, so
    it explains nothing.
    """
    said = other_words(right.algorithm)
    for row in ROWS:
        changes = row.turn(right)
        if any(getattr(right, name) != it for name, it in changes.items()):
            yield Slip(((row.name, row.words.format(hash=said)),), changes, turn=row.turn)
