"""The base class of this package's exceptions."""


class TpmsimError(Exception):
    """The base class of every exception that this package defines."""


class BadValue(TpmsimError, ValueError):
    """A value that a field cannot hold. `field` is the name of the field; a parameter is named as
    in Part 3. `value` is the rejected value.
    """

    def __init__(self, field: str, value: object, wanted: str) -> None:
        self.field, self.value = field, value
        super().__init__(f"{field} takes {wanted}, not {value!r}")
