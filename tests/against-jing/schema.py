"""Modules in the compact syntax as trees: what is drawn at random, written, and given its meaning."""
from dataclasses import dataclass, field
from typing import Optional, Union


@dataclass(frozen=True)
class Name:
    prefix: Optional[str]
    local: str


@dataclass(frozen=True)
class AnyName:
    but: Optional["Names"] = None


@dataclass(frozen=True)
class AnyOf:
    prefix: str
    but: Optional["Names"] = None


@dataclass(frozen=True)
class NameChoice:
    members: tuple


Names = Union[Name, AnyName, AnyOf, NameChoice]


@dataclass(frozen=True)
class Element:
    names: Names
    content: "Pattern"


@dataclass(frozen=True)
class Attribute:
    names: Names
    content: "Pattern"


@dataclass(frozen=True)
class Chain:
    sign: str  # "," "|" or "&"
    members: tuple


@dataclass(frozen=True)
class Repeated:
    sign: str  # "?" "*" or "+"
    pattern: "Pattern"


@dataclass(frozen=True)
class Braced:
    word: str  # "list" or "mixed"
    pattern: "Pattern"


@dataclass(frozen=True)
class Ref:
    name: str


@dataclass(frozen=True)
class Word:
    word: str  # "empty", "text" or "notAllowed"


@dataclass(frozen=True)
class Type:
    prefix: Optional[str]
    name: str


@dataclass(frozen=True)
class Value:
    type: Optional[Type]
    text: str


@dataclass(frozen=True)
class Data:
    type: Type
    params: tuple = ()
    but: Optional["Pattern"] = None


@dataclass(frozen=True)
class Parent:
    name: str


@dataclass(frozen=True)
class External:
    file: str
    inherit: Optional[str]


@dataclass(frozen=True)
class Nested:
    items: tuple  # of a grammar within a pattern


Pattern = Union[Element, Attribute, Chain, Repeated, Braced, Ref, Word, Value, Data, Parent, External, Nested]


@dataclass(frozen=True)
class Define:
    key: str  # "start", or a name
    method: str  # "=", "|=" or "&="
    pattern: Pattern


@dataclass(frozen=True)
class Div:
    items: tuple


@dataclass(frozen=True)
class Include:
    module: str  # the name of a module, or the path of a file
    inherit: Optional[str]
    items: tuple = ()


@dataclass
class Module:
    name: str
    default: Optional[str] = None  # a namespace, INHERIT, or none declared
    default_prefix: Optional[str] = None
    spaces: dict = field(default_factory=dict)  # prefixes, each with its namespace or INHERIT
    items: list = field(default_factory=list)
    pattern: Optional[Pattern] = None  # of a file that is a pattern, which has no items

    def prefixes(self):
        return [*self.spaces, *([self.default_prefix] if self.default_prefix else [])]


INHERIT = object()
XSD = "http://www.w3.org/2001/XMLSchema-datatypes"
XML = "http://www.w3.org/XML/1998/namespace"
KEYWORDS = set(
    "attribute datatypes default div element empty external grammar include inherit list mixed namespace notAllowed parent start string text token".split()
)


def group(parts, sign=","):
    """The parts in a chain, which one alone doesn't need."""
    return parts[0] if len(parts) == 1 else Chain(sign, tuple(parts))


def keys_of(items):
    """The keys that the items define, in their order, divs dissolved and includes left out."""
    found = {}
    for item in items:
        match item:
            case Define(key=key):
                found[key] = None
            case Div(items=inner):
                found.update(dict.fromkeys(keys_of(inner)))
    return list(found)
