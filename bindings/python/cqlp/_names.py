"""The words of numbers, and the version of the library."""

from typing import Optional

from . import _native
from .numbers import Group


def name(group: Group, number: int) -> Optional[str]:
    """The word of a number of a group, as `cqlp show` and `cqlp check` write it where they write one: name(Group.ERROR, 0x1000) is
    "Unavailable". None where the group, or the number in it, is not known."""
    if not (0 <= group < 1 << 32 and -(1 << 63) <= number < 1 << 63):
        return None
    word = _native.library.cqlp_name(group, number)
    return None if word is None else word.decode("ascii")


def version() -> str:
    """The version of the library that was loaded, as "0.1.0"."""
    return str(_native.library.cqlp_version().decode("ascii"))


def version_number() -> int:
    """The same as a number: 1,000,000 for each of its first part, 1,000 of its second, 1 of its third."""
    return int(_native.library.cqlp_version_number())
