"""Modules written in the compact syntax, with space, comments, parentheses, annotations and literals laid out at random."""
from drawing import weighted
from schema import INHERIT, KEYWORDS, XSD, Define, Div
from schema import AnyName, AnyOf, Attribute, Braced, Chain, Data, Element, External, Name, NameChoice, Nested, Parent, Ref, Repeated, Value, Word

NOTES = ['[ n:x = "1" ]', '[ n:y [ "t" ~ "u" n:z [ ] ] ]', "[ ]"]
ITEM_NOTES = ["## doc\n", '[ n:a = "v" ] ', 'n:note [ "x" ]\n']


class Writer:
    """Writes a module. A plain one has no annotations and no `grammar { }` around it."""

    def __init__(self, rng, is_plain=False):
        self.rng, self.is_plain = rng, is_plain

    def gap(self):
        return weighted(self.rng, [(20, " "), (3, "\n"), (1, " # note\n"), (1, "\t"), (0.5, "\r\n")])

    def maybe_gap(self):
        return weighted(self.rng, [(5, " "), (4, ""), (1, "\n  ")])

    def joined(self, sign, parts):
        out = parts[0]
        for part in parts[1:]:
            out += self.maybe_gap() + sign + self.maybe_gap() + part
        return out

    def literal(self, text):
        """A literal of one segment or more."""
        cuts = sorted(self.rng.randint(0, len(text)) for _ in range(self.rng.random() < 0.2))
        parts = [text[a:b] for a, b in zip([0, *cuts], [*cuts, len(text)])]
        return self.joined("~", [self.segment(part) for part in parts])

    def segment(self, text):
        quotes = self.rng.choice([quotes for quotes in ['"', "'", '"""', "'''"] if quotes[0] not in text])
        return quotes + "".join(self.character(c, text, quotes) for c in text) + quotes

    def character(self, c, text, quotes):
        """The character as it is, or escaped where it must be so and sometimes elsewhere."""
        is_escaped = c == "\n" and len(quotes) == 1 or c == "\\" and "\\x" in text or self.rng.random() < 0.05
        return "\\" + "x" * self.rng.randint(1, 2) + "{%x}" % ord(c) if is_escaped else c

    def identifier(self, name):
        return "\\" + name if name in KEYWORDS or self.rng.random() < 0.05 else name

    def word(self, name):
        return "\\" + name if name not in KEYWORDS and self.rng.random() < 0.05 else name

    def names(self, names, is_operand=False):
        match names:
            case Name(prefix, local):
                return f"{prefix}:{local}" if prefix else self.word(local)
            case NameChoice(members):
                out = self.joined("|", [self.names(member, True) for member in members])
            case AnyName(but) | AnyOf(but=but):
                out = "*" if isinstance(names, AnyName) else names.prefix + ":*"
                if not but:
                    return out
                out += self.maybe_gap() + "-" + self.maybe_gap() + self.names(but, True)
        return f"({out})" if is_operand else out

    def type_name(self, type_):
        return f"{type_.prefix}:{type_.name}" if type_.prefix else type_.name

    def data(self, data):
        out = self.type_name(data.type)
        if data.params:
            params = " ".join(f"{self.word(name)} = {self.literal(value)}" for name, value in data.params)
            out += self.maybe_gap() + "{" + params + "}"
        if data.but:
            out += self.maybe_gap() + " - " + self.maybe_gap() + self.pattern(data.but, True)
        return out

    def braced(self, front, content):
        return front + self.maybe_gap() + "{" + self.maybe_gap() + self.pattern(content) + self.maybe_gap() + "}"

    def bare(self, pattern):
        match pattern:
            case Element(names, content) | Attribute(names, content):
                return self.braced(type(pattern).__name__.lower() + self.gap() + self.names(names), content)
            case Braced(word, content):
                return self.braced(word, content)
            case Chain(sign, members):
                return self.joined(sign, [self.pattern(member, True) for member in members])
            case Repeated(sign, inner):
                return self.pattern(inner, True) + sign
            case Ref(name):
                return self.identifier(name)
            case Parent(name):
                return "parent" + self.gap() + self.identifier(name)
            case External(file, inherit):
                return "external" + self.gap() + self.literal(self.link(file)) + self.inherit(inherit)
            case Nested(items):
                return f"grammar{self.maybe_gap()}{{{self.items(items)}}}"
            case Value(type_, text):
                return (self.type_name(type_) + " " if type_ else "") + self.literal(text)
            case Data():
                return self.data(pattern)
            case Word(word):
                return word

    def pattern(self, pattern, is_operand=False):
        out = self.bare(pattern)
        needs = isinstance(pattern, (Chain, Repeated)) or isinstance(pattern, Data) and pattern.but
        if is_operand and needs or self.rng.random() < 0.04:
            out = f"({self.maybe_gap()}{out}{self.maybe_gap()})"
            needs = False
        if not self.is_plain and not needs and self.rng.random() < 0.03:
            out = f"({self.rng.choice(NOTES)} {out})"
        return out

    def link(self, target):
        """What an include or an external says for its target."""
        return target

    def inherit(self, prefix):
        return f"{self.gap()}inherit{self.maybe_gap()}={self.maybe_gap()}{prefix}" if prefix else ""

    def item(self, item):
        match item:
            case Define(key, method, pattern):
                name = key if key == "start" else self.identifier(key)
                return name + self.maybe_gap() + method + self.maybe_gap() + self.pattern(pattern)
            case Div(items):
                return f"div{self.maybe_gap()}{{{self.items(items)}}}"
        out = "include" + self.gap() + self.literal(self.link(item.module)) + self.inherit(item.inherit)
        if item.items or self.rng.random() < 0.1:
            out += f"{self.maybe_gap()}{{{self.items(item.items)}}}"
        return out

    def items(self, items):
        out = self.maybe_gap()
        for item in items:
            if not self.is_plain and self.rng.random() < 0.04:
                out += self.rng.choice(ITEM_NOTES)
            out += self.item(item) + self.gap()
        return out

    def namespace(self, declared):
        return "inherit" if declared is INHERIT else self.literal(declared)

    def module(self, module):
        rng = self.rng
        declarations = ['namespace n = "urn:note"', *([f'datatypes xsd = "{XSD}"'] if rng.random() < 0.3 else [])]
        if module.default is not None:
            prefix = module.default_prefix + " " if module.default_prefix else ""
            declarations.append(f"default namespace {prefix}= {self.namespace(module.default)}")
        for prefix, space in module.spaces.items():
            declarations.append(f"namespace {prefix} = {self.namespace(space)}")
        rng.shuffle(declarations)
        items = self.maybe_gap() + self.pattern(module.pattern) if module.pattern else self.items(module.items)
        if not self.is_plain and not module.pattern and rng.random() < 0.1:
            items = f"grammar {{{items}}}"
        return "".join(it + self.gap() for it in declarations) + items
