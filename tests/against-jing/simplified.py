"""Schemas in the simplified form that jing writes (-s), compared up to the names of definitions.

The order of choices and interleaves doesn't count, nor do members of choices that repeat. Each pattern has a number, the same for all that are made
of the same parts; a definition's colour is the number of its pattern, in which references are told by colours, round after round, until no two that
differ are told as one. What holds no reference is numbered once.
"""
import re
import xml.etree.ElementTree as ElementTree

RNG = "{http://relaxng.org/ns/structure/1.0}"


def members(node, kind):
    """The members of a chain of choices, interleaves or groups."""
    for child in node:
        if child.tag == RNG + kind:
            yield from members(child, kind)
        else:
            yield child


def is_nullable(node):
    """Whether a pattern is valid for nothing at all."""
    kind = node.tag.removeprefix(RNG)
    if kind in ("empty", "text", "optional", "zeroOrMore"):
        return True
    if kind in ("group", "interleave", "mixed", "oneOrMore"):
        return all(is_nullable(child) for child in node)
    return kind == "choice" and any(is_nullable(child) for child in node)


class Numbers:
    """Numbers of patterns: one for each that is made of the same parts. A part is a number, or a call that answers one where it is given colours."""

    def __init__(self):
        self.numbers = {}
        self.empty = self.of("empty")

    def of(self, *key):
        return self.numbers.setdefault(key, len(self.numbers))

    def made(self, call, parts):
        """What is made of parts by a call that takes their numbers."""
        if all(isinstance(part, int) for part in parts):
            return call(parts)
        return lambda colours: call([part if isinstance(part, int) else part(colours) for part in parts])

    def group(self, parts):
        def joined(numbers):
            numbers = [it for it in numbers if it != self.empty] or [self.empty]
            return numbers[0] if len(numbers) == 1 else self.of("group", *numbers)

        return self.made(joined, parts)

    def interleave(self, parts):
        def joined(numbers):
            numbers = sorted(it for it in numbers if it != self.empty)
            return numbers[0] if len(numbers) == 1 else self.of("interleave", *numbers)

        return self.made(joined, parts)

    def choice(self, parts, nullable):
        """A choice, whose members have no order and don't repeat. jing drops an empty one beside one that is nullable."""

        def joined(numbers):
            members = set(numbers)
            if any(is_nullable for it, is_nullable in zip(numbers, nullable) if it != self.empty):
                members.discard(self.empty)
            return members.pop() if len(members) == 1 else self.of("choice", *sorted(members))

        return self.made(joined, parts)

    def node(self, parts, *front):
        return self.made(lambda numbers: self.of(*front, *numbers), parts)

    def chain(self, node):
        """The members of a node one after the other."""
        return self.group([self.pattern(child) for child in members(node, "group")])

    def pattern(self, node):
        """A pattern or a name class."""
        kind = node.tag.removeprefix(RNG)
        if kind == "ref":
            name = node.get("name")
            return lambda colours: colours[name]
        if kind in ("choice", "optional", "zeroOrMore"):
            found = list(self.alternatives(node))
            return self.choice([part for part, _ in found], [is_nullable for _, is_nullable in found])
        if kind == "mixed":
            return self.interleave([self.of("text"), self.chain(node)])
        if kind == "interleave":
            return self.interleave([self.pattern(child) for child in members(node, "interleave")])
        if kind == "group":
            return self.chain(node)
        if kind in ("empty", "text"):
            return self.of(kind)
        if kind in ("oneOrMore", "list"):
            return self.node([self.chain(node)], kind)
        if kind in ("element", "attribute"):
            return self.named(kind, node)
        if kind == "name":
            return self.of("name", node.get("ns", ""), (node.text or "").strip())
        text = value_text(node) if kind == "value" else (node.text or "").strip()
        parts = [self.pattern(child) for child in node if not is_nothing_excepted(child)]
        return self.node(parts, kind, *sorted(node.attrib.items()), text)

    def named(self, kind, node):
        """An element or an attribute, whose name is an attribute or a name class before its content."""
        if node.get("name") is not None:
            name, content = self.of("name", node.get("ns", ""), node.get("name")), list(node)
        else:
            name, content = self.pattern(node[0]), node[1:]
        rest = self.chain(content) if content else self.of("text" if kind == "attribute" else "empty")
        return self.node([name, rest], kind)

    def alternatives(self, node):
        """What a pattern chooses from, and whether each is nullable."""
        kind = node.tag.removeprefix(RNG)
        if kind == "choice":
            for child in node:
                yield from self.alternatives(child)
        elif kind == "optional":
            yield self.empty, True
            if len(node) == 1:
                yield from self.alternatives(node[0])
            else:
                yield self.chain(node), all(is_nullable(child) for child in node)
        elif kind == "zeroOrMore":
            yield self.empty, True
            yield self.node([self.chain(node)], "oneOrMore"), all(is_nullable(child) for child in node)
        else:
            yield self.pattern(node), is_nullable(node)

    def schema(self, text):
        """The number of a schema."""
        grammar = ElementTree.fromstring(text)
        if grammar.tag != RNG + "grammar":
            return valued(self.pattern(grammar), {})
        definitions = {node.get("name"): self.chain(node) for node in grammar.findall(RNG + "define")}
        colours, count = dict.fromkeys(definitions, 0), 1
        while True:
            colours = {name: self.of("colour", colours[name], valued(part, colours)) for name, part in definitions.items()}
            if len(set(colours.values())) == count:
                break
            count = len(set(colours.values()))
        return valued(self.chain(grammar.find(RNG + "start")), colours)


def valued(part, colours):
    return part if isinstance(part, int) else part(colours)


def is_nothing_excepted(node):
    return node.tag == RNG + "except" and [child.tag for child in node] == [RNG + "notAllowed"]


def value_text(node):
    """The text of a value. jing writes the same text for all that are one value to their datatype."""
    text = node.text or ""
    if node.get("type") == "token":
        return " ".join(text.split())
    is_number = node.get("type") == "int" and re.fullmatch(r"\s*[+-]?[0-9]+\s*", text)
    return str(int(text)) if is_number else text


def is_same(one, other):
    """Whether two schemas are the same up to names."""
    numbers = Numbers()
    return numbers.schema(one) == numbers.schema(other)
