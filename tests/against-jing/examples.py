#!/usr/bin/env python3
"""Asks jing about the examples of matching in crates/matching_examples/src/lib.rt: whether each document that is proved valid or not is so for jing.

examples.py

Needs Debian's jing. Prints a line for each difference, and then how many examples were asked. Left out: examples with a table of datatypes of their
own or a type that no library has, and schemas that section 7 of the standard forbids, which only jing tests.
"""
import os
import re
import subprocess
import sys
import tempfile

HERE = os.path.dirname(os.path.abspath(__file__))
EXAMPLES = os.path.join(HERE, "..", "..", "crates", "matching_examples", "src", "lib.rt")
CLAUSE = re.compile(r"ensures (\w+) \{ (Accepts|Rejects) (.+) (no_library|numbers|spellings)\s+(.+) \}$", re.M)

# the grammars and documents of the clauses, as RELAX NG compact syntax and XML
SCHEMAS = {
    'a_or_b': 'start = doc\ndoc = element a { empty } | element b { text }',
    'a_then_b': 'start = element doc { element a { empty }, element b { empty } }',
    'a_holding empty': 'start = element a { empty }',
    'a_holding any_string': 'start = element a { string }',
    'a_holding (string_is [])': 'start = element a { string "" }',
    'a_holding token_x': 'start = element a { token "x" }',
    'a_holding x_is_empty': 'start = element a { attribute x { empty } }',
    'a_holding x_is_one': 'start = element a { attribute x { token "1" } }',
    'a_holding x_and_string': 'start = element a { attribute x { text }, string }',
    'a_holding x_then_y': 'start = element a { list { token "x", token "y" } }',
    'a_holding some_x': 'start = element a { list { token "x"+ } }',
    'a_holding (list empty)': 'start = element a { list { empty } }',
    'a_holding string_x_y': 'start = element a { string "x y" }',
    'a_holding token_x_y': 'start = element a { token "x y" }',
    'a_holding string_but_x': 'start = element a { string - string "x" }',
    'a_holding token_but_x': 'start = element a { token - token "x" }',
    'a_and_b': 'start = element doc { element a { empty } & element b { empty } }',
    'a_twice_and_b': 'start = element doc { element a { empty } & element a { empty } & element b { empty } }',
    'mixed_a': 'start = element doc { text & element a { empty }* }',
    'some_a': 'start = element doc { element a { empty }+ }',
    'any_a': 'start = element doc { element a { empty }* }',
    'a_holding x_and_y': 'start = element a { attribute x { text }, attribute y { text } }',
    'a_holding all_but_x': 'start = element a { attribute * - x { text }+ }',
    'a_holding x_beside_y': 'start = element a { attribute x { text } & attribute y { text } }',
    'named_by any_name': 'namespace u = "urn:u"\nstart = element (*) { empty }',
    'named_by all_but_a': 'namespace u = "urn:u"\nstart = element (* - a) { empty }',
    'named_by of_u': 'namespace u = "urn:u"\nstart = element (u:*) { empty }',
    'named_by of_u_but_a': 'namespace u = "urn:u"\nstart = element (u:* - u:a) { empty }',
    'named_by a_or_of_u': 'namespace u = "urn:u"\nstart = element (a | u:*) { empty }',
    'through_two': 'start = first\nfirst = second | element b { empty }\nsecond = element a { empty }',
    'nested': 'start = tree\ntree = element doc { (tree | leaf)* }\nleaf = element a { empty }',
}
DOCUMENTS = {
    'bare_a': '<a/>',
    'b_of_text': '<b>text</b>',
    'bare_b': '<b/>',
    'leaf (codes "c")': '<c/>',
    'a_of (codes "x")': '<a>x</a>',
    'a_with_x': '<a x="1"/>',
    'b_of_a': '<b><a/></b>',
    'a_in_u': '<u:a xmlns:u="urn:u"/>',
    'b_with_x': '<b x="1"/>',
    'doc_a_b': '<doc><a/><b/></doc>',
    'doc_padded_by blank': '<doc>&#32;&#9;&#10;&#13;<a/>&#32;&#9;&#10;&#13;<b/>&#32;&#9;&#10;&#13;</doc>',
    'doc_padded_by (codes "x")': '<doc>x<a/>x<b/>x</doc>',
    'doc_padded_by no_break_space': '<doc>&#160;<a/>&#160;<b/>&#160;</doc>',
    'doc_of (string blank ∷ [])': '<doc>&#32;&#9;&#10;&#13;</doc>',
    'doc_led_by (codes "x")': '<doc>x<a/><b/></doc>',
    'doc_ended_by (codes "x")': '<doc><a/><b/>x</doc>',
    'doc_led_by blank': '<doc>&#32;&#9;&#10;&#13;<a/><b/></doc>',
    'doc_ended_by blank': '<doc><a/><b/>&#32;&#9;&#10;&#13;</doc>',
    'doc_with_x': '<doc x="1"><a/><b/></doc>',
    'a_of blank': '<a>&#32;&#9;&#10;&#13;</a>',
    'a_of_b': '<a><b/></a>',
    'a_with (said (codes "x") blank ∷ [])': '<a x="&#32;&#9;&#10;&#13;"/>',
    'a_with_x_of blank': '<a x="1">&#32;&#9;&#10;&#13;</a>',
    'a_of (codes "x y")': '<a>x y</a>',
    'a_of padded_x_y': '<a>&#32;&#9;&#10;&#13;x&#32;&#9;&#10;&#13;y&#32;&#9;&#10;&#13;</a>',
    'a_of (codes "xy")': '<a>xy</a>',
    'a_of (codes "y x")': '<a>y x</a>',
    'a_of (codes "x x x")': '<a>x x x</a>',
    'a_of (codes "x y x")': '<a>x y x</a>',
    'a_with_x_of (codes "x")': '<a x="1">x</a>',
    'a_of (codes "y")': '<a>y</a>',
    'a_of padded_x': '<a>&#32;&#9;&#10;&#13;x&#32;&#9;&#10;&#13;</a>',
    'a_with_x_of (codes "y")': '<a x="1">y</a>',
    'doc_b_a': '<doc><b/><a/></doc>',
    'doc_a': '<doc><a/></doc>',
    'doc_a_b_a': '<doc><a/><b/><a/></doc>',
    'doc_a_a_a_b': '<doc><a/><a/><a/><b/></doc>',
    'doc_text_a_text': '<doc>one<a/>two</doc>',
    'doc_text_b': '<doc>one<b/></doc>',
    'doc_a_a': '<doc><a/><a/></doc>',
    'bare_doc': '<doc/>',
    'a_with (x_one ∷ y_two ∷ [])': '<a x="1" y="2"/>',
    'a_with_y_x': '<a y="2" x="1"/>',
    'a_with (x_one ∷ y_two ∷ z_three ∷ [])': '<a x="1" y="2" z="3"/>',
    'a_with (y_two ∷ z_three ∷ [])': '<a y="2" z="3"/>',
    'a_with (said (codes "x") (codes "2") ∷ [])': '<a x="2"/>',
    'a_of (codes "1")': '<a>1</a>',
    'a_with (y_two ∷ [])': '<a y="2"/>',
    'b_in_u': '<u:b xmlns:u="urn:u"/>',
    'b_in_v': '<v:b xmlns:v="urn:v"/>',
    'doc_doc_a_a': '<doc><doc><a/></doc><a/></doc>',
    'doc_doc_b': '<doc><doc><b/></doc></doc>',
}
OF_OTHER_TYPES = {"a_holding one", "a_holding unknown_type", "a_holding unknown_value"}


def bare(term):
    return term[1:-1] if term.startswith("(") else term


def is_valid(schema, document):
    """Whether jing finds the document valid; None where it refuses the schema."""
    with tempfile.TemporaryDirectory() as folder:
        paths = [os.path.join(folder, name) for name in ("schema.rnc", "document.xml")]
        for path, text in zip(paths, (schema, document)):
            with open(path, "w", encoding="utf-8") as file:
                file.write(text)
        ran = subprocess.run(["jing", "-c", *paths], capture_output=True, text=True)
    if paths[0] in ran.stdout:
        return None
    assert ran.returncode == 0 or paths[1] in ran.stdout, ran
    return ran.returncode == 0


def main():
    asked, forbidden, left_out, differences = 0, 0, 0, 0
    with open(EXAMPLES, encoding="utf-8") as file:
        clauses = CLAUSE.findall(file.read())
    for name, word, grammar, table, document in clauses:
        if table != "no_library" or bare(grammar) in OF_OTHER_TYPES:
            left_out += 1
            continue
        found = is_valid(SCHEMAS[bare(grammar)], DOCUMENTS[bare(document)])
        if found is None:
            forbidden += 1
            continue
        asked += 1
        if found != (word == "Accepts"):
            differences += 1
            print(f"{name}: {word}, but jing finds it {'valid' if found else 'not valid'}")
    print(f"{len(clauses)} examples: {asked} asked, {differences} differ, {forbidden} with a schema that section 7 forbids, {left_out} left out")
    return differences > 0


if __name__ == "__main__":
    sys.exit(main())
