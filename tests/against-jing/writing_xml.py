"""Files of a tree written in the XML syntax, each with what it means in the compact syntax (compact syntax, appendix A; RELAX NG, section 4)."""
from xml.sax.saxutils import escape, quoteattr

from schema import INHERIT, XML, XSD, Define, Div, Include
from schema import AnyName, AnyOf, Attribute, Braced, Chain, Data, Element, External, Name, NameChoice, Nested, Parent, Ref, Repeated, Value, Word

RELAXNG = "http://relaxng.org/ns/structure/1.0"
CHAINS = {",": "group", "|": "choice", "&": "interleave"}
REPEATS = {"?": "optional", "*": "zeroOrMore", "+": "oneOrMore"}
METHODS = {"|=": ' combine="choice"', "&=": ' combine="interleave"', "=": ""}
NOTES = ["<!-- note -->", "<?note of?>", '<n:note xmlns:n="urn:note" a="b"><n:in/>text</n:note>', "\n  ", "\t"]


class NotWritable(Exception):
    """The file has something that `ns` of an element around it would give another namespace."""


class XmlWriter:
    """Writes a file. What has the inherited namespace has no `ns`, and no element around it has one."""

    def __init__(self, rng, module, link):
        self.rng, self.module, self.link = rng, module, link
        self.is_bound = False  # an element around has `ns`

    def namespace(self, prefix):
        """The namespace of a prefix, or INHERIT."""
        if prefix is None:
            return INHERIT if self.module.default is None else self.module.default
        if prefix == self.module.default_prefix:
            return self.module.default
        if prefix == "xml":
            return XML
        if prefix not in self.module.spaces:
            raise NotWritable
        return self.module.spaces[prefix]

    def ns(self, namespace):
        """The attribute for a namespace."""
        if namespace is not INHERIT:
            return f" ns={quoteattr(namespace)}"
        if self.is_bound:
            raise NotWritable
        return ""

    def within(self, namespace, content):
        """What a function writes in an element with `ns` for a namespace."""
        before, self.is_bound = self.is_bound, self.is_bound or namespace is not INHERIT
        written = content()
        self.is_bound = before
        return written

    def tag(self, name, content, attributes=""):
        note = self.rng.choice(NOTES) if self.rng.random() < 0.1 else ""
        if not content and not note and self.rng.random() < 0.7:
            return f"<{name}{attributes}/>"
        return f"<{name}{attributes}>{note}{content}</{name}>"

    def names(self, names, is_attribute):
        match names:
            case Name(prefix, local):
                namespace = "" if is_attribute and prefix is None else self.namespace(prefix)
                return f"<name{self.ns(namespace)}> {local}\n</name>"
            case NameChoice(members):
                return self.tag("choice", "".join(self.names(it, is_attribute) for it in members))
            case AnyName(but):
                return self.tag("anyName", self.tag("except", self.names(but, is_attribute)) if but else "")
            case AnyOf(prefix, but):
                namespace = self.namespace(prefix)
                inside = self.within(namespace, lambda: self.tag("except", self.names(but, is_attribute))) if but else ""
                return self.tag("nsName", inside, self.ns(namespace))

    def named(self, pattern):
        """An element or attribute, with its name in an attribute or as a name class."""
        is_attribute = isinstance(pattern, Attribute)
        word, content, names = "attribute" if is_attribute else "element", self.content(pattern.content), pattern.names
        if isinstance(names, Name) and self.rng.random() < 0.6:
            namespace = self.namespace(names.prefix)
            if is_attribute and names.prefix is None or not is_attribute and namespace is INHERIT and not self.is_bound:
                return self.tag(word, content, f' name="{names.local}"')
            if namespace is not INHERIT and namespace not in ("", XML):
                return self.tag(word, content, f' name=" y:{names.local}" xmlns:y={quoteattr(namespace)}')
        return self.tag(word, self.names(names, is_attribute) + content)

    def content(self, pattern):
        """What is in an element that puts its children into a group."""
        if isinstance(pattern, Chain) and pattern.sign == "," and self.rng.random() < 0.7:
            return "".join(self.pattern(it) for it in pattern.members)
        return self.pattern(pattern)

    def typed(self, type_):
        """The attributes for a type."""
        if type_.prefix not in (None, "xsd"):
            raise NotWritable
        return f' type="{type_.name}" datatypeLibrary="{XSD if type_.prefix else ""}"'

    def text(self, text):
        written = escape(text, {"\r": "&#13;", "\n": "&#xA;"})
        return f"<![CDATA[{text}]]>" if self.rng.random() < 0.1 and "]]>" not in text and "\r" not in text else written

    def data(self, data):
        params = "".join(f'<param name="{name}">{self.text(value)}</param>' for name, value in data.params)
        return self.tag("data", params + (self.tag("except", self.pattern(data.but)) if data.but else ""), self.typed(data.type))

    def pattern(self, pattern):
        match pattern:
            case Element() | Attribute():
                # An attribute has one pattern, and so no group that is left out.
                return self.named(pattern) if isinstance(pattern, Element) else self.attribute(pattern)
            case Chain(sign, members):
                return self.tag(CHAINS[sign], "".join(self.pattern(it) for it in members))
            case Repeated(sign, inner):
                return self.tag(REPEATS[sign], self.content(inner))
            case Braced(word, inner):
                return self.tag(word, self.content(inner))
            case Ref(name):
                return self.tag("ref", "", f' name="{name}"')
            case Parent(name):
                return self.tag("parentRef", "", f' name="{name}"')
            case External(file, inherit):
                return self.tag("externalRef", "", f" href={quoteattr(self.link(file))}{self.ns(self.namespace(inherit))}")
            case Nested(items):
                return self.tag("grammar", self.items(items))
            case Value(type_, text):
                return f"<value{self.typed(type_) if type_ else ''}>{self.text(text)}</value>"
            case Data():
                return self.data(pattern)
            case Word(word):
                return self.tag(word, "")
        raise NotWritable

    def attribute(self, pattern):
        """An attribute, whose content is one pattern."""
        before, self.content = self.content, self.pattern
        written = self.named(pattern)
        self.content = before
        return written

    def item(self, item):
        match item:
            case Define("start", method, pattern):
                return self.tag("start", self.pattern(pattern), METHODS[method])
            case Define(key, method, pattern):
                return self.tag("define", self.content(pattern), f' name="{key}"{METHODS[method]}')
            case Div(items):
                return self.tag("div", self.items(items))
            case Include(file, inherit, items):
                namespace = self.namespace(inherit)
                inside = self.within(namespace, lambda: self.items(items))
                return self.tag("include", inside, f" href={quoteattr(self.link(file))}{self.ns(namespace)}")

    def items(self, items):
        return "".join(self.item(it) for it in items)

    def file(self):
        """The text of the file. Refused where a namespace can't be said so (NotWritable)."""
        module = self.module
        text = self.pattern(module.pattern) if module.pattern else self.tag("grammar", self.items(module.items))
        end = min(it for it in (text.find(" "), text.find(">"), text.find("/>")) if it > 0)
        return f'<?xml version="1.0"?>\n{text[:end]} xmlns="{RELAXNG}"{text[end:]}\n'
