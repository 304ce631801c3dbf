"""The types of columns: as they are read from events, and from texts."""

import re
from functools import lru_cache
from typing import Dict, Iterator, List, NamedTuple, Optional, Sequence, Tuple, Union

from ._events import Event
from .numbers import Field, Kind, Tag


class Type(NamedTuple):
    """The type of a column."""

    kind: Union[Kind, int]
    inner: "Tuple[Type, ...]" = ()
    """The types in it: one of a list or a set, a key's and a value's of a map, one for each field of a tuple or a udt."""
    names: Tuple[str, ...] = ()
    """The names of the fields of a udt."""
    name: str = ""
    """The name of a udt, with its keyspace; the class of a custom type."""

    @classmethod
    def of(cls, text: "Union[str, Type]", *udts: "Type") -> "Type":
        """The type that has this text: `Type.of("map<text, frozen<list<int>>>")`. A class in quotes is a custom type. The name of one of `udts` is that
        type. A Type is returned as it is. Raises ValueError if no type has this text."""
        if isinstance(text, Type):
            return text
        if not isinstance(text, str):
            raise TypeError("a type is a Type, or its text")
        return _type_of(text, udts)

    @classmethod
    def udt(cls, name: str, fields: "Sequence[Tuple[str, Union[str, Type]]]", *udts: "Type") -> "Type":
        """A user-defined type, by its name with its keyspace: `Type.udt("shop.address", [("street", "text"), ("number", "int")])`."""
        inner = tuple(cls.of(type, *udts) for _, type in fields)
        return cls(Kind.UDT, inner, tuple(field for field, _ in fields), name)

    def __repr__(self) -> str:
        return "Type.of(%r)" % (str(self),)

    def __str__(self) -> str:
        word = getattr(self.kind, "name", str(self.kind)).lower()
        if self.kind == Kind.UDT:
            return self.name
        if self.kind == Kind.CUSTOM:
            return "'%s'" % self.name.replace("'", "''")
        return "%s<%s>" % (word, ", ".join(map(str, self.inner))) if self.inner else word


class Column(NamedTuple):
    """A column of a page."""

    keyspace: str
    table: str
    name: str
    type: Type


def column_text(column: Optional[Column], kind: Union[Kind, int] = Kind.RAW) -> str:
    """The name and the type of a column, or what is known of one without metadata."""
    return str(Type(kind)) if column is None else "%s %s" % (column.name, column.type)


_ARITY: Dict[int, int] = {Kind.LIST: 1, Kind.SET: 1, Kind.MAP: 2}


def has_arity(type: Type) -> bool:
    """Whether it has as many types in it as its kind has."""
    return type.kind in (Kind.TUPLE, Kind.UDT) or len(type.inner) == _ARITY.get(type.kind, 0)


# ---- read from events


class _Open:
    """A type option whose parameters are still to come."""

    def __init__(self, kind: Union[Kind, int]) -> None:
        self.kind = kind
        self.inner: List[Type] = []
        self.names: List[str] = []
        self.words: List[str] = []
        # a custom type is whole after its class, a tuple or a udt after as many fields as its count says
        self.wanted = None if kind in (Kind.CUSTOM, Kind.TUPLE, Kind.UDT) else _ARITY.get(kind, 0)

    def type(self) -> Type:
        return Type(self.kind, tuple(self.inner), tuple(self.names), ".".join(self.words))


# The types of scalars but the custom ones, which have a class.
PLAIN: Dict[int, Type] = {kind: Type(kind) for kind in Kind if kind not in _ARITY and kind not in (Kind.CUSTOM, Kind.TUPLE, Kind.UDT)}


class TypeReader:
    """Makes a type of the events of a type option."""

    def __init__(self) -> None:
        self.open: List[_Open] = []

    def add(self, event: Event) -> Optional[Type]:
        """The type, once it is whole."""
        if event.tag == Tag.TYPE_NODE:
            if not self.open and event.kind in PLAIN:
                return PLAIN[event.kind]
            self.open.append(_Open(event.kind))
        elif event.tag == Tag.COUNT:
            self.open[-1].wanted = event.number
        elif event.field == Field.FIELD_NAME:
            self.open[-1].names.append(event.value)
        else:
            self.open[-1].words.append(event.value)
            if event.field == Field.CLASS:
                self.open[-1].wanted = 0
        return self._closed()

    def _closed(self) -> Optional[Type]:
        while self.open[-1].wanted == len(self.open[-1].inner):
            whole = self.open.pop().type()
            if not self.open:
                return whole
            self.open[-1].inner.append(whole)
        return None


# ---- read from texts

_KINDS: Dict[str, Kind] = {kind.name.lower(): kind for kind in Kind if kind not in (Kind.CUSTOM, Kind.UDT)}
_KINDS["text"] = Kind.VARCHAR
# A class in quotes, the begin of inner types, their end, what separates them, and a word.
_TOKEN = re.compile(r"\s*('(?:[^']|'')*'|[<>,]|[^<>,']+)")


@lru_cache(512)
def _type_of(text: str, udts: Tuple[Type, ...]) -> Type:
    reader = _TextReader(text, {udt.name: udt for udt in udts})
    found = reader.type()
    if reader.token != "":
        raise reader.bad()
    return found


class _TextReader:
    """Reads a type from its text, token by token."""

    def __init__(self, text: str, udts: Dict[str, Type]) -> None:
        self.text = text
        self.udts = udts
        self.tokens = self._tokens()
        self.token = next(self.tokens, "")

    def _tokens(self) -> Iterator[str]:
        at, end = 0, len(self.text.rstrip())
        while at < end:
            found = _TOKEN.match(self.text, at)
            if found is None:
                raise self.bad()
            at = found.end()
            yield found.group(1).rstrip()

    def bad(self) -> ValueError:
        return ValueError("no type has the text %r" % self.text)

    def step(self) -> str:
        token, self.token = self.token, next(self.tokens, "")
        return token

    def type(self) -> Type:
        word = self.step()
        if word.startswith("'"):
            return Type(Kind.CUSTOM, name=word[1:-1].replace("''", "'"))
        if word in self.udts:
            return self.udts[word]
        inner = tuple(self.inner()) if self.token == "<" else ()
        if word.lower() == "frozen" and len(inner) == 1:
            return inner[0]
        found = Type(_KINDS.get(word.lower(), Kind.CUSTOM), inner)
        if found.kind == Kind.CUSTOM or not has_arity(found):
            raise self.bad()
        return found

    def inner(self) -> Iterator[Type]:
        """What is between a `<` and its `>`."""
        while self.step() in ("<", ","):
            yield self.type()
            if self.token not in (",", ">"):
                raise self.bad()
