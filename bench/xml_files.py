#!/usr/bin/env python3
"""Files in the XML syntax that aim at one cost, beside the same schema in the compact syntax: what rnc-flat takes for both.

bench/xml_files.py SHAPE N [compact] > FILE: SHAPE is one of the functions below, each of which says what it aims at; N is how many there are of it.
bench/xml_files.py --run PROGRAM [--rounds N]: a table of all shapes at n, 2 n and 4 n, with medians of the rounds (5). Each run may have 8 GB.
"""
import argparse
import os
import sys
import tempfile

import measuring
from measuring import ended, megabytes, row, seconds, table

MEMORY = 8 << 30
RELAXNG = 'xmlns="http://relaxng.org/ns/structure/1.0"'


def grammar(lines, attributes=""):
    return f"<grammar {RELAXNG}{attributes}>\n" + "\n".join(lines) + "\n</grammar>\n"


def prefixes(n, is_compact):
    """n prefixes in scope, each used once."""
    if is_compact:
        lines = [f'namespace p{i} = "u{i}"' for i in range(n)]
        return "\n".join([*lines, "start = " + " | ".join(f"element p{i}:a {{ text }}" for i in range(n))])
    lines = (f'<element name="p{i}:a"><text/></element>' for i in range(n))
    return grammar(["<start><choice>", *lines, "</choice></start>"], "".join(f' xmlns:p{i}="u{i}"' for i in range(n)))


def attributes(n, is_compact):
    """n attributes of one element, which leave nothing."""
    if is_compact:
        notes = " ".join(f'p:a{i} = ""' for i in range(n))
        return f'namespace p = "u"\n[ {notes} ] grammar {{ start = text }}'
    return grammar(["<start><text/></start>"], ' xmlns:p="u"' + "".join(f' p:a{i}=""' for i in range(n)))


def uri(n, is_compact):
    """A URI of 16 n bytes that n names have."""
    long = "u" * (16 * n)
    if is_compact:
        return f'namespace p = "{long}"\nstart = ' + " | ".join(f"element p:a{i} {{ text }}" for i in range(n))
    lines = (f'<element name="p:a{i}"><text/></element>' for i in range(n))
    return grammar(["<start><choice>", *lines, "</choice></start>"], f' xmlns:p="{long}"')


def references(n, is_compact):
    """A value of 2 n references to characters."""
    if is_compact:
        return 'start = "' + "&A" * n + '"'
    return grammar(["<start><value>" + "&amp;&#65;" * n + "</value></start>"])


def brackets(n, is_compact):
    """A value of n times `]]`, which nearly ends it."""
    if is_compact:
        return 'start = "' + "]]>" * n + '"'
    return grammar(["<start><value>" + "]]&gt;" * n + "</value></start>"])


def nested(n, is_compact):
    """n elements, 480 of them within each other."""
    deep = 480
    if is_compact:
        return "start = " + " | ".join(["text"] * (n // deep))
    inside = "<group>" * deep + "<text/>" + "</group>" * deep
    return grammar(["<start><choice>", *(inside for _ in range(n // deep)), "</choice></start>"])


def undefined(n, is_compact):
    """n names that nothing defines."""
    if is_compact:
        return "\n".join(["start = text", *(f"d{i} = u{i}" for i in range(n))])
    return grammar(["<start><text/></start>", *(f'<define name="d{i}"><ref name="u{i}"/></define>' for i in range(n))])


def unused(n, is_compact):
    """n definitions that the start doesn't reach, which --unused tells of."""
    if is_compact:
        return "\n".join(["start = text", *(f"d{i} = text" for i in range(n))])
    return grammar(["<start><text/></start>", *(f'<define name="d{i}"><text/></define>' for i in range(n))])


def origins(n, is_compact):
    """n definitions, whose places --origins tells."""
    if is_compact:
        return "\n".join(["start = d0", *(f"d{i} = element e {{ d{(i + 1) % n} }}" for i in range(n))])
    lines = (f'<define name="d{i}"><element name="e"><ref name="d{(i + 1) % n}"/></element></define>' for i in range(n))
    return grammar(['<start><ref name="d0"/></start>', *lines])


# How many there are in the first of three sizes, and the words before the file.
SHAPES = {
    prefixes: (15000, ()),
    attributes: (25000, ()),
    uri: (15000, ()),
    references: (75000, ()),
    brackets: (150000, ()),
    nested: (48000, ()),
    undefined: (20000, ()),
    unused: (20000, ("--unused",)),
    origins: (12000, ("--origins",)),
}


def measured(program, shape, room, count):
    """For n, 2 n and 4 n: the number, the size of the file, and how the program did on it and on the compact one."""
    first, words = SHAPES[shape]
    sizes, commands = {}, {}
    for n in (first, 2 * first, 4 * first):
        for suffix in ("rng", "rnc"):
            path = f"{room}/{n}.{suffix}"
            with open(path, "w", encoding="utf-8") as out:
                size = out.write(shape(n, suffix == "rnc"))
            sizes.setdefault(n, size)
            commands[n, suffix] = ([program, *words, path], None, MEMORY)
    got = measuring.rounds(commands, count)
    for n, size in sizes.items():
        yield n, size, got[n, "rng"], got[n, "rnc"]


def show(program, count):
    table("shape:", "n", "MB", "XML, s", "growth", "compact, s", "XML / compact", "peak, MB", "compact's, MB", "ends:")
    for shape in SHAPES:
        before = None
        with tempfile.TemporaryDirectory() as room:
            for n, size, xml, compact in measured(program, shape, room, count):
                growth = f"{xml.times(before):.2f}" if before else ""
                row(shape.__name__, f"{n:,}", f"{size / 1e6:.1f}", seconds(xml), growth, seconds(compact), f"{xml.times(compact):.2f}", megabytes(xml),
                    megabytes(compact), "" if xml.status == compact.status else ended(xml) + ended(compact))
                before = xml


def main():
    if "--run" not in sys.argv:
        return write(sys.argv[1:])
    parser = argparse.ArgumentParser()
    parser.add_argument("--run", required=True)
    parser.add_argument("--rounds", type=int, default=measuring.ROUNDS)
    words = parser.parse_args()
    show(os.path.abspath(words.run), words.rounds)


def write(words):
    by_name = {shape.__name__: shape for shape in SHAPES}
    if len(words) not in (2, 3) or words[0] not in by_name or not words[1].isdecimal() or words[2:] not in ([], ["compact"]):
        sys.exit("usage: xml_files.py " + "|".join(by_name) + " N [compact], or xml_files.py --run PROGRAM [--rounds N]")
    sys.stdout.write(by_name[words[0]](int(words[1]), len(words) == 3))


if __name__ == "__main__":
    main()
