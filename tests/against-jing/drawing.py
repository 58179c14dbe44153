"""Module sets drawn at random: most of them good, the others with one thing damaged."""
import dataclasses

from schema import INHERIT, Define, Div, Include, Module, group, keys_of
from schema import AnyName, AnyOf, Attribute, Braced, Chain, Data, Element, Name, NameChoice, Ref, Repeated, Type, Value, Word

SPACES = ["urn:a", "urn:b", "urn:\"é\\x{41}"]
LOCALS = ["a", "b", "é", "list", "start"]
ATTRIBUTES = ["k", "l", "m"]
TEXTS = ["a", "b", "1", " a", "a  b", "01", '"', "\\x{41}", "a\nb", ""]
XSD_TYPES = [
    ("int", ()),
    ("int", (("minInclusive", "2"),)),
    ("token", (("maxLength", "2"),)),
    ("string", (("minLength", "1"), ("maxLength", "3"))),
    ("NCName", ()),
    ("boolean", ()),
]


def weighted(rng, choices):
    """One of the values, each drawn as often as its weight says."""
    weights, values = zip(*choices)
    return rng.choices(values, weights)[0]


class Drawer:
    """Patterns of one module. `kinds` says what a definition holds: "particle", "data" or "attributes"."""

    def __init__(self, rng, kinds, prefixes):
        self.rng, self.kinds, self.prefixes = rng, kinds, prefixes
        self.behind = None  # outside elements, only names behind this one are referred to

    def names_of(self, kind):
        names = list(self.kinds)
        if self.behind in names:
            names = names[names.index(self.behind) + 1 :]
        return [name for name in names if self.kinds[name] == kind]

    def name(self, locals_):
        prefix = self.rng.choice(self.prefixes) if self.prefixes and self.rng.random() < 0.4 else None
        return Name(prefix, self.rng.choice(locals_))

    def names(self, locals_, depth=2):
        rng, prefixes = self.rng, self.prefixes
        kind = weighted(rng, [(14, "name"), (2 * (depth > 0), "choice"), (1, "any"), (bool(prefixes), "any of")])
        if kind == "name":
            return self.name(locals_)
        if kind == "choice":
            return NameChoice(tuple(self.names(locals_, depth - 1) for _ in range(rng.randint(2, 3))))
        but = self.excepted(locals_, kind == "any") if rng.random() < 0.5 else None
        return AnyName(but) if kind == "any" else AnyOf(rng.choice(prefixes), but)

    def excepted(self, locals_, may_be_any_of):
        if may_be_any_of and self.prefixes and self.rng.random() < 0.3:
            return AnyOf(self.rng.choice(self.prefixes))
        name = self.name(locals_)
        return NameChoice((name, self.name(locals_))) if self.rng.random() < 0.4 else name

    def data(self, depth=2):
        rng = self.rng
        names = self.names_of("data")
        kind = weighted(rng, [(4, "value"), (3, "built-in"), (3, "xsd"), (2 * (depth > 0), "choice"), (bool(names), "ref")])
        if kind == "value":
            type_ = rng.choice([None, None, Type(None, "token"), Type(None, "string"), Type("xsd", "int"), Type("xsd", "string")])
            return Value(type_, rng.choice(["1", "01", "22"] if type_ == Type("xsd", "int") else TEXTS))
        if kind == "choice":
            return Chain("|", tuple(self.data(depth - 1) for _ in range(rng.randint(2, 3))))
        if kind == "ref":
            return Ref(rng.choice(names))
        but = self.data_excepted() if depth > 0 and rng.random() < 0.3 else None
        if kind == "built-in":
            return Data(Type(None, rng.choice(["string", "token"])), (), but)
        name, params = rng.choice(XSD_TYPES)
        return Data(Type("xsd", name), params, but)

    def data_excepted(self):
        value = Value(None, self.rng.choice(["a", "b", "1"]))
        choice = Chain("|", (Value(None, "a"), Value(None, "b")))
        data = Data(Type(None, "token"), (), Value(None, "b") if self.rng.random() < 0.3 else None)
        return weighted(self.rng, [(4, value), (2, choice), (1, data), (0.3, Word("notAllowed"))])

    def words(self, depth=2):
        """What stands in a list."""
        rng = self.rng
        kind = weighted(rng, [(4, "data"), (3 * (depth > 0), "group"), (2 * (depth > 0), "repeated"), (depth > 0, "choice"), (0.5, "empty")])
        if kind == "data":
            return self.data(1)
        if kind == "empty":
            return Word("empty")
        if kind == "repeated":
            return Repeated(rng.choice("?*+"), self.words(depth - 1))
        return Chain("," if kind == "group" else "|", tuple(self.words(depth - 1) for _ in range(rng.randint(2, 3))))

    def string(self):
        """What a string alone matches."""
        kind = weighted(self.rng, [(4, "text"), (3, "data"), (2, "list"), (1, "empty")])
        if kind == "data":
            return self.data()
        return Braced("list", self.words()) if kind == "list" else Word(kind)

    def attribute(self, local):
        prefix = "xml" if self.rng.random() < 0.05 else self.name([local]).prefix
        pattern = Attribute(Name(prefix, local), self.string())
        absent = Chain("|", (Word("empty"), pattern))
        never = Chain("|", (pattern, Word("notAllowed")))
        return weighted(self.rng, [(5, pattern), (3, Repeated("?", pattern)), (1, absent), (0.4, never)])

    def attributes(self):
        rng = self.rng
        parts = [self.attribute(local) for local in rng.sample(ATTRIBUTES, rng.randint(0, 2))]
        if rng.random() < 0.05:
            others = AnyName(NameChoice(tuple(Name(None, local) for local in ATTRIBUTES)))
            parts.append(Repeated("+", Attribute(others, Word("text"))))
        return parts

    def particle(self, depth):
        rng, names = self.rng, self.names_of("particle")
        nested = [(4, "element"), (4, ","), (4, "|"), (2, "&"), (4, "repeated")] if depth > 0 else []
        kind = weighted(rng, [*nested, (4 * bool(names), "ref"), (1, "empty"), (0.7, "notAllowed"), (0.6, "text")])
        if kind == "element":
            return self.element(depth - 1)
        if kind == "ref":
            return Ref(rng.choice(names))
        if kind == "repeated":
            return Repeated(rng.choice("?*+"), self.particle(depth - 1))
        if kind in (",", "|", "&"):
            return Chain(kind, tuple(self.particle(depth - 1) for _ in range(rng.randint(2, 4))))
        return Word(kind)

    def element(self, depth):
        held, self.behind = self.behind, None
        content = self.content(depth)
        self.behind = held
        return Element(self.names(LOCALS), content)

    def content(self, depth):
        rng, parts = self.rng, self.attributes()
        if self.names_of("attributes") and rng.random() < 0.15:
            parts.append(Ref(rng.choice(self.names_of("attributes"))))
        kind = weighted(rng, [(3, "string"), (5, "particle"), (1.5, "mixed"), (1, "none")])
        if kind == "string":
            parts.append(self.string())
        elif kind == "particle":
            parts.append(self.particle(depth))
        elif kind == "mixed":
            parts.append(Braced("mixed", self.particle(depth)))
        rng.shuffle(parts)
        return group(parts, weighted(rng, [(4, ","), (1, "&")])) if parts else Word("empty")

    def body(self, key):
        """The pattern of a definition."""
        self.behind = key if self.rng.random() < 0.97 else None
        kind = self.kinds.get(key)
        if kind == "particle":
            return self.particle(3)
        if kind == "data":
            return self.data()
        if kind == "attributes":
            parts = self.attributes()
            return group(parts) if parts else Word("empty")
        return self.element(3) if self.rng.random() < 0.8 else Chain("|", (self.element(3), self.element(2)))


def kinds_of(rng):
    kinds = dict.fromkeys(["x", "y", "z", "text", "list"][: rng.randint(1, 5)], "particle")
    if rng.random() < 0.5:
        kinds["d"] = "data"
    if rng.random() < 0.4:
        kinds["t"] = "attributes"
    return kinds


def declared(rng, name):
    """A module with declarations alone."""
    module = Module(name)
    module.default = weighted(rng, [(5, None), (3, rng.choice(SPACES)), (1, INHERIT), (0.7, "")])
    if module.default is not None and rng.random() < 0.3:
        module.default_prefix = "dp"
    for prefix in ["p", "q"]:
        if rng.random() < 0.4:
            module.spaces[prefix] = weighted(rng, [(5, rng.choice(SPACES)), (1, INHERIT), (1, "")])
    return module


def methods(rng, key):
    """The methods of a name's definitions: one is plain at most, and the others agree, but for a few."""
    other = "|=" if key == "start" else rng.choice(["|=", "&="])
    found = [other] * weighted(rng, [(6, 1), (3, 2), (1, 3)])
    if rng.random() < 0.8:
        found[0] = "="
    return [rng.choice(["=", "|=", "&="]) if rng.random() < 0.02 else method for method in found]


def define(rng, modules, drawers, kinds):
    for key in ["start", *kinds]:
        for method in methods(rng, key):
            at = rng.randrange(len(modules))
            modules[at].items.append(Define(key, method, drawers[at].body(key)))


def include(rng, modules, drawers):
    """Each module but the first is included by one before it, or by none."""
    for at, included in enumerate(modules[1:], 1):
        if rng.random() < 0.2:
            continue
        by = rng.randrange(at)
        own = [Define(key, "=", drawers[by].body(key)) for key in keys_of(included.items) if rng.random() < 0.25]
        if own and rng.random() < 0.2:
            own = [Div(tuple(own))]
        prefixes = modules[by].prefixes()
        inherit = rng.choice(prefixes) if prefixes and rng.random() < 0.3 else None
        for _ in range(2 if rng.random() < 0.05 else 1):
            modules[by].items.append(Include(included.name, inherit, tuple(own)))


def module_set(rng):
    """One to four modules that include one another without loops."""
    kinds = kinds_of(rng)
    modules = [declared(rng, f"m{at}.rnc") for at in range(weighted(rng, [(3, 1), (4, 2), (4, 3), (2, 4)]))]
    drawers = [Drawer(rng, kinds, module.prefixes()) for module in modules]
    define(rng, modules, drawers, kinds)
    include(rng, modules, drawers)
    for module in modules:
        module.items = module.items or [Define("o", "|=", Word("notAllowed"))]
        rng.shuffle(module.items)
        if len(module.items) > 1 and rng.random() < 0.3:
            cut = rng.randrange(1, len(module.items))
            module.items[cut:] = [Div(tuple(module.items[cut:]))]
    return modules


def element_of(names):
    return Element(names, Word("empty"))


def attribute_of(names):
    return Element(Name(None, "a"), Attribute(names, Word("text")))


# Patterns that no schema holds, each with the refusal that it deserves where nothing before it is refused.
BAD_PATTERNS = {
    "Undefined": [Ref("gone"), Element(Name(None, "a"), Chain("|", (Word("text"), Ref("gone"))))],
    "Prefix": [element_of(Name("gone", "a")), attribute_of(AnyOf("gone")), Data(Type("gone", "t"))],
    "Builtin": [Data(Type(None, "string"), (("minLength", "1"),))],
    "Except": [Data(Type(None, "token"), (), Ref("x")), Data(Type(None, "token"), (), Word("text"))],
    "NameClass": [
        element_of(AnyName(AnyName())),
        element_of(AnyName(NameChoice((Name(None, "a"), AnyName())))),
        attribute_of(Name(None, "xmlns")),
        attribute_of(NameChoice((Name(None, "a"), Name(None, "xmlns")))),
        attribute_of(AnyName(Name(None, "xmlns"))),
    ],
}


def without_start(items):
    """The items without definitions of the start, those of includes apart."""
    left = [dataclasses.replace(item, items=tuple(without_start(item.items))) if isinstance(item, Div) else item for item in items]
    return [item for item in left if not isinstance(item, Define) or item.key != "start"]


def damage(rng, modules):
    """Does one thing to a module that no schema may hold, and answers the refusal that it deserves."""
    module = rng.choice(modules)
    kind = rng.choice([*BAD_PATTERNS, "Missing", "Cycle", "Override", "NoStart"])
    if kind in BAD_PATTERNS:
        module.items.append(Define("bad", "|=", rng.choice(BAD_PATTERNS[kind])))
    elif kind == "Missing":
        module.items.append(Include("gone.rnc", None))
    elif kind == "Cycle":
        module.items.append(Include(modules[0].name, None))
        kind = "Cycle" if module is modules[0] else "Cycle or more"
    elif kind == "Override":
        includes = [at for at, item in enumerate(module.items) if isinstance(item, Include)]
        if not includes:
            return None
        at = rng.choice(includes)
        module.items[at] = dataclasses.replace(module.items[at], items=(*module.items[at].items, Define("gone", "=", Word("text"))))
    else:
        for module in modules:
            module.items = without_start(module.items) or [Define("o", "|=", Word("notAllowed"))]
    return kind
