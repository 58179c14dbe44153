"""What a module set means, worked out apart from the tool: its components, and documents that they allow, drawn at random."""
from drawing import LOCALS, SPACES
from schema import INHERIT, XML, Define, Div, Include
from schema import AnyName, Attribute, Braced, Chain, Data, Element, Name, NameChoice, Ref, Repeated, Value, Word


class NoDocument(Exception):
    """No document was found on this way."""


def spaces_of(module, inherited):
    """The namespaces of a module's prefixes, and of names without one."""
    default = inherited if module.default in (None, INHERIT) else module.default
    spaces = {prefix: inherited if space is INHERIT else space for prefix, space in module.spaces.items()}
    return spaces | {"xml": XML, None: default} | ({module.default_prefix: default} if module.default_prefix else {})


def components(modules, name, inherited):
    """The definitions that a module brings under a namespace, each with the namespaces that it is read in."""
    module = modules[name]
    spaces = spaces_of(module, inherited)

    def of(items):
        found = []
        for item in items:
            match item:
                case Define():
                    found.append((item, spaces))
                case Div(inner):
                    found += of(inner)
                case Include(included, inherit, inner):
                    own = of(inner)
                    overridden = {define.key for define, _ in own}
                    found += [it for it in components(modules, included, spaces[inherit]) if it[0].key not in overridden] + own
        return found

    return of(module.items)


def included(items):
    for item in items:
        if isinstance(item, Include):
            yield item.module
        elif isinstance(item, Div):
            yield from included(item.items)


def roots(modules):
    """The names of the modules that no module includes."""
    inner = {name for module in modules.values() for name in included(module.items)}
    return sorted(set(modules) - inner)


def reached(modules, name):
    """The names of the modules that a module includes, itself among them."""
    seen, left = {name}, [name]
    while left:
        inner = {it for it in included(modules[left.pop()].items) if it in modules} - seen
        seen |= inner
        left += inner
    return seen


def first_modules(modules):
    """The roots, and a module of each loop that they don't reach."""
    found, seen = [], set()
    for name in [*roots(modules), *sorted(modules)]:
        if name not in seen:
            found.append(name)
            seen |= reached(modules, name)
    return found


class Sampler:
    """Documents of a list of components. An element is its name, its attributes by name, and its children; a name is a namespace and a local name."""

    def __init__(self, rng, found):
        self.rng = rng
        self.definitions = {}
        for define, spaces in found:
            self.definitions.setdefault(define.key, []).append((define, spaces))

    def document(self):
        _, items = self.key("start", 40)
        elements = [item for item in items if not isinstance(item, str)]
        if len(elements) != 1:
            raise NoDocument
        return elements[0]

    def key(self, key, fuel):
        parts = self.definitions.get(key)
        if not parts or fuel <= 0:
            raise NoDocument
        if any(define.method == "&=" for define, _ in parts):
            return self.mixed([self.sample(define.pattern, spaces, fuel - 1) for define, spaces in parts])
        define, spaces = self.rng.choice(parts)
        return self.sample(define.pattern, spaces, fuel - 1)

    def group(self, parts):
        attributes = {}
        for found, _ in parts:
            if attributes.keys() & found.keys():
                raise NoDocument
            attributes |= found
        return attributes, [item for _, items in parts for item in items]

    def mixed(self, parts):
        """The parts with their items interleaved."""
        attributes, _ = self.group(parts)
        turns = [at for at, (_, items) in enumerate(parts) for _ in items]
        self.rng.shuffle(turns)
        left = [iter(items) for _, items in parts]
        return attributes, [next(left[at]) for at in turns]

    def name(self, names, spaces, is_attribute):
        rng = self.rng
        match names:
            case Name(prefix, local):
                return ("" if is_attribute and not prefix else spaces[prefix], local)
            case NameChoice(members):
                return self.name(rng.choice(members), spaces, is_attribute)
        space = rng.choice([*SPACES, ""]) if isinstance(names, AnyName) else spaces[names.prefix]
        return (space, rng.choice([*LOCALS, "o"]))

    def text(self):
        return self.rng.choice(["", "a", "b", "1", "2", "03", " a ", "a b", "a  b", "true", '"', "\\x{41}", "a\nb", "A"])

    def datum(self, data):
        texts = {"int": ["1", "2", "03", " 7"], "boolean": ["true", "0"], "NCName": ["a", "c", "bb", "x1"]}.get(data.type.name)
        return self.rng.choice(texts) if texts else self.text()

    def sample(self, pattern, spaces, fuel):
        """Attributes and items that the pattern matches, as far as it is looked at."""
        rng = self.rng
        if fuel <= 0:
            raise NoDocument
        match pattern:
            case Element(names, content):
                return {}, [(self.name(names, spaces, False), *self.sample(content, spaces, fuel - 1))]
            case Attribute(names, content):
                return {self.name(names, spaces, True): "".join(self.strings(content, spaces, fuel))}, []
            case Chain("|", members):
                return self.first([(member, spaces, fuel - 1) for member in rng.sample(members, len(members))])
            case Chain(sign, members):
                parts = [self.sample(member, spaces, fuel - 1) for member in members]
                return self.group(parts) if sign == "," else self.mixed(parts)
            case Repeated(sign, inner):
                return self.repeated(sign, inner, spaces, fuel)
            case Braced("list", inner):
                return {}, [rng.choice([" ", "  ", "\n"]).join(self.strings(inner, spaces, fuel))]
            case Braced("mixed", inner):
                return self.mixed([self.sample(inner, spaces, fuel - 1), ({}, rng.choices(["t", "", " "], k=rng.randint(0, 2)))])
            case Ref(name):
                return self.key(name, fuel)
            case Word("text"):
                return {}, [self.text()]
            case Word("empty"):
                return {}, []
            case Value(_, text):
                return {}, [rng.choice([text, text, " " + text, text + " "])]
            case Data():
                return {}, [self.datum(pattern)]
        raise NoDocument

    def strings(self, pattern, spaces, fuel):
        return [item for item in self.sample(pattern, spaces, fuel - 1)[1] if isinstance(item, str)]

    def first(self, ways):
        for way in ways:
            try:
                return self.sample(*way)
            except NoDocument:
                pass
        raise NoDocument

    def repeated(self, sign, inner, spaces, fuel):
        least, most = {"?": (0, 1), "*": (0, 3), "+": (1, 3)}[sign]
        try:
            return self.group([self.sample(inner, spaces, fuel - 2) for _ in range(self.rng.randint(least, most))])
        except NoDocument:
            if least:
                raise
            return {}, []


def changed(rng, element):
    """The element with one thing changed somewhere in it."""
    name, attributes, children = element
    inner = [at for at, child in enumerate(children) if not isinstance(child, str)]
    if inner and rng.random() < 0.6:
        at = rng.choice(inner)
        return name, attributes, [*children[:at], changed(rng, children[at]), *children[at + 1 :]]
    space, local = rng.choice([*SPACES, ""]), rng.choice(LOCALS)
    at, child = rng.randint(0, len(children)), rng.choice(["a", " ", "1", ((space, local), {}, []), *children])
    dropped = rng.choice([None, *attributes])
    ways = [
        ((space, name[1]), attributes, children),
        ((name[0], local), attributes, children),
        (name, attributes, children[:at] + children[at + 1 :]),
        (name, attributes, [*children[:at], child, *children[at:]]),
        (name, attributes, rng.sample(children, len(children))),
        (name, {it: attributes[it] for it in attributes if it != dropped}, children),
        (name, attributes | {(rng.choice(["", "urn:a"]), rng.choice("klm")): rng.choice(["a", "1", ""])}, children),
    ]
    return rng.choice(ways)


def escaped(text):
    return "".join(f"&#{ord(c)};" if c in "&<>\"\n\t\r" else c for c in text)


def xml(element):
    """The element as a document. Each element declares its own namespaces."""
    (space, local), attributes, children = element
    out = f'<{local} xmlns="{escaped(space)}"'
    for at, ((space, name), value) in enumerate(attributes.items()):
        prefix = "" if not space else "xml:" if space == XML else f"a{at}:"
        out += f' xmlns:a{at}="{escaped(space)}"' if prefix == f"a{at}:" else ""
        out += f' {prefix}{name}="{escaped(value)}"'
    return out + ">" + "".join(escaped(it) if isinstance(it, str) else xml(it) for it in children) + f"</{local}>"
