#!/usr/bin/env python3
"""Compares how rnc-flat reads XML with xmllint, on files of which a part or more was changed, dropped or put in.

documents.py PROGRAM FOLDER COUNT [SEED]: PROGRAM is rnc-flat, FOLDER has schemas in the XML syntax (.rng), of which those of at most 8,000 bytes are
taken. A file that xmllint refuses must be refused as no document, and one that it takes must not be. Prints how often each pair of answers came, and
a line for each difference.

Needs libxml2's xmllint. Known, and left out: files that don't begin with `<`; document type declarations and encodings that aren't read; what xmllint
says of URIs and of xml:id. xmllint takes a version `1.` without digits behind it, which production 26 doesn't.
"""
import collections
import os
import pathlib
import random
import re
import subprocess
import sys
import tempfile

PARTS = re.compile(rb"<!--|-->|<!\[CDATA\[|\]\]>|<\?|\?>|</|/>|&[^;<\s]*;|[A-Za-z_][\w.\-]*|\s+|.", re.S)
TOKENS = [*(bytes([it]) for it in b"<>&\"'/=:!?-]a1\t\r\0\x01\x0b\x7f\xff"), b"<!--", b"-->", b"--", b"<![CDATA[", b"]]>", b"<?", b"?>", b"</", b"/>", b" "]
TOKENS += [b"<?p q?>", b"<?p?>", b"<?xml?>", b'<?xml version="1.0"?>', b"<?p:q?>", b"<!-- - -->", b"<!---->", b"<![CDATA[&<]]>", b"<b/>", b"<p:b/>", b"</b>", b"<b>"]
TOKENS += [b"&amp;", b"&#65;", b"&#x41;", b"&#0;", b"&#xD800;", b"&#xFFFE;", b"&#x110000;", b"&x;", b"&#", b"&", b"xmlns", b"xml", b"p:", b"xml:", b"xmlns:"]
TOKENS += [b' a="1"', b" a='1'", b' p:a="1"', b' xml:a="1"', b' xmlns:p="u"', b' xmlns:q="u" q:a=""', b' xmlns:p=""', b' xmlns=""', b' xmlns:xml="u"']
TOKENS += [b' xmlns:p="http://www.w3.org/XML/1998/namespace"', b' xmlns="http://www.w3.org/2000/xmlns/"', b' xmlns:xmlns="u"', b' version="1.1"', b' encoding="UTF-8"']
TOKENS += [it.encode() for it in "\x85\xa0\xb7\xe9\u0300\u037e\u203f\u2028\u3000\ud7ff\ue000\ufeff\ufffd\ufffe\uffff\U00010000\U000effff\U000f0000\U0010ffff"]
TOKENS += [b"\xc0\xaf", b"\xed\xa0\x80", b"\xf4\x90\x80\x80", b"\xe9"]
# What the program says where the bytes are no document.
NO_DOCUMENT = re.compile(
    r"this is not UTF-8|this is no XML declaration|no XML document has|this is no reference|this refers to a character|an attribute has = behind|a value stands in quotes"
    r"|< can't stand in a value|this value is not closed|a tag goes on with|]]> can't stand|this comment is|this processing instruction is|this CDATA section is"
    r"|there is no root|there is a second root|text outside of the root|&.*; is not defined|a name is missing|[^`]* is no name$|this closes |.* is not closed$"
    r"|the attribute .* is given twice|the prefix [^`]* is not declared|.* can't declare this namespace", re.S)
LEFT_OUT = re.compile(r"a document type declaration|the document says that its encoding|this is not (UTF-16|ISO-8859-1|US-ASCII)")
# A file whose first character behind a mark and white space is another than `<` is no file in the XML syntax.
SHORT_VERSION = re.compile(rb"(?:\xef\xbb\xbf)?<\?xml\s+version\s*=\s*[\"']1\.[\"']")
IS_XML = re.compile(rb"(?:\xef\xbb\xbf)?[ \t\r\n]*<")
OF_XMLLINT = re.compile(r"^(\S+?):\d+: (?:parser|namespace) error : (.*)", re.M)
NO_FAULT = re.compile(r"is not a valid URI|xml:id")


def changed(rng, text):
    """A text of which a part or two are changed, dropped or put in."""
    parts = PARTS.findall(text)
    for _ in range(rng.choice([1, 1, 1, 2])):
        at, token = rng.randrange(len(parts)), rng.choice(TOKENS)
        parts[at : at + 1] = rng.choice([[], [token], [token, parts[at]], [parts[at], parts[at]], [rng.choice(parts), parts[at]], [token, rng.choice(TOKENS), parts[at]]])
    return b"".join(parts)


def said_by_xmllint(room, names):
    """What xmllint says first of each file that it refuses, by their names."""
    ran = subprocess.run(["xmllint", "--noout", "--nonet", *names], cwd=room, capture_output=True)
    found = {}
    for name, sentence in OF_XMLLINT.findall(ran.stderr.decode("utf-8", "replace")):
        if not NO_FAULT.search(sentence):
            found.setdefault(name, sentence)
    return found


def said_by(program, room, name):
    """The sentence with which the program refuses a file, or nothing."""
    ran = subprocess.run([program, "--lint", name], cwd=room, capture_output=True)
    assert ran.returncode in (0, 1, 3), ran
    return ran.stderr.decode("utf-8", "replace").split("\n")[0].split("error: ", 1)[-1]


def is_compared(text):
    """Whether a file is in the XML syntax, and none that xmllint alone takes."""
    return IS_XML.match(text) and not SHORT_VERSION.match(text)


def kind(refusal):
    """What the program's answer comes to."""
    if LEFT_OUT.match(refusal):
        return "left out"
    return "no document" if NO_DOCUMENT.match(refusal) else "a document"


def main(program, folder, count, seed="1"):
    texts = [path.read_bytes() for path in sorted(pathlib.Path(folder).rglob("*.rng")) if path.is_file() and 0 < path.stat().st_size <= 8000]
    tally, differences = collections.Counter(), []
    with tempfile.TemporaryDirectory() as room:
        names = [f"{number}.rng" for number in range(int(seed), int(seed) + int(count))]
        for name in names:
            rng = random.Random(name)
            pathlib.Path(room, name).write_bytes(changed(rng, rng.choice(texts)))
        refused = {}
        for at in range(0, len(names), 200):
            refused |= said_by_xmllint(room, names[at : at + 200])
        for name in names:
            refusal = said_by(os.path.abspath(program), room, name)
            other = "no document" if name in refused else "a document"
            answer = kind(refusal) if is_compared(pathlib.Path(room, name).read_bytes()) else "left out"
            tally[f"{answer}; xmllint: {other}"] += 1
            if answer not in ("left out", other):
                differences.append(f"{name}: {refusal or 'printed'}; xmllint: {refused.get(name, 'taken')}")
                kept = pathlib.Path(tempfile.gettempdir(), f"documents-{name}")
                kept.write_bytes(pathlib.Path(room, name).read_bytes())
    for answers, often in sorted(tally.items()):
        print(f"{often:6} {answers}")
    print(*differences, f"{len(differences)} differences", sep="\n")
    return 1 if differences else 0


if __name__ == "__main__":
    sys.exit(main(*sys.argv[1:]))
