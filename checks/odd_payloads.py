"""Payloads that no plan gives to an operator: with fields too few or too many, or with texts for numbers.

The plain definitions in nodes.py read columns of payloads as a plan's types have them. These payloads answer them by
what the operators promise of all payloads: a test whose column isn't there, or whose sides differ in type, doesn't
hold; a column that isn't there gives no field; and a sum leaves out what is no number.
"""


def never(one, other) -> bool:
    return False


def among(kind: type, compare):
    """A comparison of fields of a kind, which doesn't hold where the other side is of none."""
    return lambda one, other: isinstance(other, kind) and compare(one, other)


class Number(int):
    __eq__, __ne__ = among(int, int.__eq__), among(int, int.__ne__)
    __lt__, __le__ = among(int, int.__lt__), among(int, int.__le__)
    __gt__, __ge__ = among(int, int.__gt__), among(int, int.__ge__)
    __hash__ = int.__hash__


class Text(bytes):
    __eq__, __ne__ = among(bytes, bytes.__eq__), among(bytes, bytes.__ne__)
    __lt__, __le__ = among(bytes, bytes.__lt__), among(bytes, bytes.__le__)
    __gt__, __ge__ = among(bytes, bytes.__gt__), among(bytes, bytes.__ge__)
    __hash__ = bytes.__hash__

    def __mul__(self, count: int) -> int:
        return 0


class Missing:
    """The field of a column that isn't there."""

    __eq__ = __ne__ = __lt__ = __le__ = __gt__ = __ge__ = never
    __hash__ = object.__hash__

    def __mul__(self, count: int) -> int:
        return 0


MISSING = Missing()


class Payload(tuple):
    def __getitem__(self, column: int):
        return super().__getitem__(column) if column < len(self) else MISSING

    def __add__(self, other: tuple) -> "Payload":
        return Payload((*self, *other))

    def __radd__(self, other: tuple) -> "Payload":
        return Payload((*other, *self))


def in_order(table) -> list:
    """The rows of a table in canonical order, which has numbers before texts."""
    return sorted(table.elements(), key=lambda row: (row.end, row.begin, [order(one) for one in row.payload]))


def order(field) -> tuple:
    return (1, bytes(field)) if isinstance(field, bytes) else (0, int(field))


def without_missing(payload: tuple) -> Payload:
    return Payload(one for one in payload if one is not MISSING)
