"""Values that are missing in arrays of NumPy, and columns that are missing in pages."""

import importlib
from typing import Any, Callable, Literal, Tuple

from ._turns import Error

Missing = Literal["refuse", "mask", "zero"]
"""What becomes of values that are missing: they are refused, or masked, or zeros."""

# How many names an error lists.
_MOST = 20


class ValuesMissing(Error, ValueError):
    """`count` values of a column are missing, and plain arrays of NumPy have nothing for them."""

    def __init__(self, count: int, column: str) -> None:
        text = '%d values of %s are missing: pass missing="mask" for a masked array, or missing="zero" for zeros in their place'
        super().__init__(text % (count, column))
        self.count = count


class ColumnsMissing(Error, ValueError):
    """A page has no columns of these names, which were asked for."""

    def __init__(self, page: int, names: Tuple[str, ...], found: Tuple[str, ...]) -> None:
        super().__init__("page %d has no column %s: it has %s" % (page, _listed(names), _listed(found)))
        self.page, self.names = page, names


def _listed(names: Tuple[str, ...]) -> str:
    """The first names, and how many more there are."""
    more = " and %d more" % (len(names) - _MOST) if len(names) > _MOST else ""
    return (", ".join(map(repr, names[:_MOST])) or "none") + more


def numpy_of(numbers: memoryview, column: Any, missing: str, count: int, mask: Callable[[Any], Any]) -> Any:
    """An array of NumPy over these numbers, of which so many are missing; the function makes its mask, with the module of NumPy."""
    if missing not in ("refuse", "mask", "zero"):
        raise ValueError('missing is "refuse", "mask" or "zero"')
    if count and missing == "refuse":
        raise ValuesMissing(count, "the column %r" % column.name if column else "a column")
    numpy: Any = importlib.import_module("numpy")
    found = numpy.asarray(numbers)
    return numpy.ma.MaskedArray(found, mask(numpy) if count else numpy.ma.nomask) if missing == "mask" else found
