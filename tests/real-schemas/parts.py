"""Schemas around files that are only a part of one: so that jing and rnc-flat read all that is in them."""
import os
import urllib.parse
import xml.etree.ElementTree as ElementTree

RELAXNG = "{http://relaxng.org/ns/structure/1.0}"


class Names:
    """The names that files in the XML syntax define and refer to, and how the start is combined."""

    def __init__(self):
        self.defined, self.used, self.method = set(), set(), "choice"

    def add(self, path, seen):
        """Adds those of a file and of all that it includes."""
        if path in seen or not os.path.isfile(path):
            return
        seen.add(path)
        self.add_items(ElementTree.parse(path).getroot(), path, seen)

    def add_items(self, element, path, seen):
        """Adds those of an element's content. A grammar within it has names of its own."""
        for child in element:
            if child.tag == f"{RELAXNG}grammar":
                continue
            if child.tag == f"{RELAXNG}include":
                link = urllib.parse.unquote(child.get("href", "").strip())
                self.add(os.path.normpath(os.path.join(os.path.dirname(path), link)), seen)
            if child.tag == f"{RELAXNG}start":
                self.method = child.get("combine", self.method).strip()
            if child.tag == f"{RELAXNG}define":
                self.defined.add(child.get("name", "").strip())
            if child.tag == f"{RELAXNG}ref":
                self.used.add(child.get("name", "").strip())
            self.add_items(child, path, seen)


def names_of(path):
    """The names of a file that is a grammar in the XML syntax, or None where it is none or can't be read."""
    names = Names()
    try:
        if ElementTree.parse(path).getroot().tag != f"{RELAXNG}grammar":
            return None
        names.add(os.path.normpath(path), set())
    except ElementTree.ParseError:
        return None
    return names


def in_xml(path, names):
    """A schema that includes a part: its start is an element for each name, and each name that the part lacks is empty, which may stand anywhere."""
    elements = "".join(f'<element name="of-{name}"><ref name="{name}"/></element>' for name in sorted(names.defined))
    lacking = "".join(f'<define name="{name}"><empty/></define>' for name in sorted(names.used - names.defined))
    start = f'<start combine="{names.method}"><choice>{elements}<notAllowed/></choice></start>'
    return f'<grammar xmlns="{RELAXNG[1:-1]}"><include href="{urllib.parse.quote(str(path))}"/>{start}{lacking}</grammar>'


def in_compact(path, names):
    """The same schema in the compact syntax."""
    sign = {"choice": "|=", "interleave": "&="}[names.method]
    elements = " | ".join([f"element of-{name} {{ \\{name} }}" for name in sorted(names.defined)] + ["notAllowed"])
    lacking = "".join(f"\\{name} = empty\n" for name in sorted(names.used - names.defined))
    return f'include "{urllib.parse.quote(str(path))}"\nstart {sign} {elements}\n{lacking}'


def around(room, number, path, names):
    """Writes the schema around a part into a folder, in the part's syntax, and answers where."""
    text = (in_xml if path.suffix == ".rng" else in_compact)(path, names)
    to = room / f"part-{number}{path.suffix}"
    to.write_text(text, encoding="utf-8")
    return to
