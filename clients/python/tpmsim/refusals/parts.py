"""Parts of commands that are refused, and what a refusal's response code names."""

from tpmsim.caller.entries import Prepared, Session
from tpmsim.standard import CONTINUE_SESSION, Entry, RS_PW
from tpmsim.standard.rows import Row


def place_of(row: Row) -> int:
    """Returns the number of the handle or of the entry that a response code names."""
    place = int(row.code_name[-1])
    return place + 1 if row.code_name.startswith("REFERENCE") else place


def word_of(row: Row) -> str:
    """Returns the name of a response code without its place, such as REFERENCE_S or HASH."""
    return row.code_name.rstrip("012").partition("/")[0]


def bytes_of(prepared: Prepared, *entries: Entry) -> bytes:
    """Returns the bytes of a command with these entries instead of its own."""
    return prepared.but(entries=list(entries)).buffer()


def password(value: bytes = b"", attributes: int = CONTINUE_SESSION) -> Entry:
    """Returns the entry of a password."""
    return Entry(RS_PW, b"", attributes, value)


def entry_of(session: Session, attributes: int = CONTINUE_SESSION, hmac: bytes = b"") -> Entry:
    """Returns the entry of a session, with an empty hmac unless one is given."""
    return Entry(session.handle, session.nonce_tpm, attributes, hmac)
