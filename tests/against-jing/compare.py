#!/usr/bin/env python3
"""Compares rnc-merge and rnc-flat with jing, another reader of the compact syntax, on schemas drawn at random.

compare.py PROGRAM sets COUNT [SEED]: module sets of one to four modules that include, override and combine. Where jing takes the set (a schema that
includes its roots and its loops), the program must print it, jing must take what is printed, both must be valid for the same documents, drawn from
the set and changed in one place, and what is printed must be printed again. Where jing refuses the set by another rule than section 7, the program
must refuse it.
compare.py PROGRAM texts COUNT [SEED]: module texts of which a token or more is changed, dropped or put in. `check` must find a fault where jing
finds a syntax error, and none where jing takes the text.
compare.py PROGRAM files COUNT [SEED]: trees of two to six files in folders, with PROGRAM rnc-flat: includes, overrides, externals with and without
inherit, nested grammars and parents. Where jing takes the main file, the program must print it, jing must take what is printed, the simplified forms
that jing makes of both must be the same up to names (simplified.py), both must be valid for the same documents, and what is printed must be printed
again. Where jing refuses the tree by another rule than section 7, the program must refuse it. The tree of a seed is the same whatever COUNT is.
The tree is also written with some of its files in the XML syntax (writing_xml.py): the same must be printed, or the tree refused again.
Each printed text is written in the XML syntax too (--rng): where jing takes the one it must take the other, with the same simplified form byte for
byte and the same valid documents, and what trang makes of the XML must be printed as the same text. What lxml says of the documents is counted.

Needs Debian's jing and a Java compiler. Prints how often each pair of answers came, and then a line for each difference.
Differences that are known, and left out or told apart: the program takes whatever annotations hold, characters of names that XML's Fifth Edition
brought, a module without items, and an except in a chain without parentheses. It refuses a bare pattern as a module, a prefix that is declared twice
and a second default namespace, and a wrong except of data also out of reach and behind a reference. jing alone tests section 7 of the standard.
An include that overrides one name by two components isn't drawn: jing then loses what other modules add to that name (4.7 keeps it). Nor are a space
in a reference to a file, which jing doesn't escape, and loops in excepts, which jing doesn't look for out of reach. A file that is a pattern with
annotations before it jing refuses. rnc-flat refuses files that come to more than 512 instances of modules,
or to more than 1,024 modules.
"""
import collections
import os
import pathlib
import random
import re
import shutil
import subprocess
import sys
import tempfile

import drawing
import jing
import meaning
import schema
import simplified
import trees
import writing
import xml_syntax

PARTS = re.compile(r'"""(?:[^"]|"{1,2}(?!"))*"""|"[^"\n]*"|\'[^\'\n]*\'|#[^\n]*|\\?[A-Za-z_][\w.\-]*(?::\*|:[A-Za-z_][\w.\-]*)?|>>|\|=|&=|\s+|.', re.S)
TOKENS = [*"{}()[]=,|&?*+-~:\\1", "|=", "&=", ">>", "x", "p:a", "p:*", "u:x", "xsd:int", "xsd:string", "xml:lang", "a:", "a.b", "-a", "x {", "div {", "\\start", "\\x"]
TOKENS += [*sorted(schema.KEYWORDS - {"external", "parent"}), '"a"', "'b'", '"""c"""', '"\\x{41}"', "#c\n", *"é·\r\x0c\x85\u00a0\u2028\u3000\u0001\ufffe"]

SECTION_7 = re.compile(r"section 7|operands? of|duplicate attribute|(interleave|group|repeat) of")
LIMITS = ("more than 512 instances", "more than 1,024 modules")  # of rnc-flat alone
JING_ALONE = re.compile(SECTION_7.pattern + r"|top-level pattern cannot have following annotations")
LAST_ITEM = "\nstart |= notAllowed\n"  # so that each text has an item, and no bare pattern


class Program:
    def __init__(self, path):
        self.path = path

    def run(self, *words, given=None):
        ran = subprocess.run([self.path, *words], input=given, capture_output=True)
        assert ran.returncode in (0, 1) or ran.returncode == 3 and b"no such file" in ran.stderr, ran
        return ran.stdout, ran.stderr.decode().strip()

    def bundle(self, path):
        return self.run("pack", os.path.basename(path), "1", path)[0]


def write(path, text):
    with open(path, "w", encoding="utf-8", newline="") as file:
        file.write(text)
    return path


def documents(rng, sampler):
    """Documents of a sampler, and each of them twice with one thing changed."""
    drawn = []
    for _ in range(60):
        try:
            drawn.append(sampler.document())
        except (meaning.NoDocument, RecursionError):
            continue
    drawn = drawn[:8]
    return drawn + [meaning.changed(rng, it) for it in drawn for _ in range(2)]


def make_set(program, folder, seed):
    """Draws a set and writes its modules, its driver, its documents and what is printed. Answers the damage done, the refusal, and whether what is printed stays."""
    rng = random.Random(seed)
    modules = drawing.module_set(rng)
    damage = drawing.damage(rng, modules) if rng.random() < 0.2 else None
    writer, by_name = writing.Writer(rng), {module.name: module for module in modules}
    paths = [write(f"{folder}/{module.name}", writer.module(module)) for module in modules]
    bundles = [write_bytes(f"{path}.bundle", program.bundle(path)) for path in rng.sample(paths, len(paths))]
    printed, refusal = program.run("print", *bundles)
    write(f"{folder}/driver.rnc", "".join(f'include "{name}"\n' for name in meaning.first_modules(by_name)))
    if refusal:
        return damage, refusal, True
    path = write_bytes(f"{folder}/printed.rnc", printed)
    found = [] if damage else [it for root in meaning.roots(by_name) for it in meaning.components(by_name, root, "")]
    write_documents(folder, documents(rng, meaning.Sampler(rng, found)))
    return damage, "", program.run(given=program.bundle(path))[0] == printed


def write_tree(folder, texts):
    for path, text in texts.items():
        os.makedirs(os.path.dirname(f"{folder}/{path}"), exist_ok=True)
        write(f"{folder}/{path}", text)


def write_documents(folder, drawn):
    for at, document in enumerate(drawn):
        write(f"{folder}/{at:02}.xml", meaning.xml(document))


def write_bytes(path, content):
    with open(path, "wb") as file:
        file.write(content)
    return path


def kind_of(refusal):
    """The name of a refusal or fault, or nothing."""
    return refusal.split(" ")[0]


def first_error(errors):
    """The first of jing's errors without its place and names."""
    return re.sub(r'"[^"]*"|/\S*', '".."', errors.split("\t")[0].split(" ", 1)[1])[:80]


def is_difference(refusal, is_good, rest, takes, again):
    """Whether the answer to a set is none that jing's answers to its driver and to the printed text allow."""
    if refusal:
        return is_good and kind_of(refusal) != "Except"
    if is_good:
        return not takes or rest != again
    return not all(SECTION_7.search(error) for error in rest.split("\t"))


def compare_sets(program, seeds, room):
    told = {}
    for seed in seeds:
        os.mkdir(f"{room}/{seed}")
        told[f"{room}/{seed}"] = make_set(program, f"{room}/{seed}", seed)
    printed = [f"{folder}/printed.rnc" for folder, (_, refusal, _) in told.items() if not refusal]
    answers = jing.answers(room, [f"{folder}/driver.rnc" for folder in told] + printed)
    tally, differences = collections.Counter(), []
    for folder, (damage, refusal, stays) in told.items():
        is_good, rest = answers[f"{folder}/driver.rnc"]
        takes, again = answers.get(f"{folder}/printed.rnc", (False, ""))
        if not stays or is_difference(refusal, is_good, rest, takes, again):
            differences.append(f"{folder}: {refusal or 'printed'}; jing: {rest[:80]}; of the printed text: {again[:80]}")
        answer = kind_of(refusal) or "printed"
        if is_good:
            tally[f"{answer}; taken by jing"] += 1
            tally["documents that are valid"] += rest.count("1")
            tally["documents that are not valid"] += rest.count("0")
        else:
            tally[f"{damage or 'no damage'}: {answer}; jing: {first_error(rest)}"] += 1
    return tally, differences


class Told:
    """What was drawn and said of a tree of files: what is damaged in it, the main file, the refusal, and whether what is printed stays."""

    def __init__(self, program, folder, seed):
        rng, tree, self.damage = trees.drawn(seed)
        write_tree(f"{folder}/files", trees.written(rng, tree))
        texts = trees.mixed(random.Random(f"{seed} mixed"), tree)
        self.in_xml = sum(text.startswith("<?xml") for text in texts.values())
        write_tree(f"{folder}/mixed", texts)
        self.folder, self.main, self.printed = folder, f"{folder}/files/{tree.paths[0]}", f"{folder}/printed.rnc"
        self.xml = None
        printed, self.refusal = program.run(self.main)
        of_mixed, refusal = program.run(f"{folder}/mixed/{tree.paths[0]}")
        self.of_mixed = "" if of_mixed == printed and bool(refusal) == bool(self.refusal) else refusal.split("\n")[0] or "printed otherwise"
        self.stays = True
        if not self.refusal:
            write_bytes(self.printed, printed)
            self.stays = program.run(self.printed)[0] == printed
            self.xml = xml_syntax.written(program.path, self.printed)
            if not self.damage:
                write_documents(folder, documents(rng, trees.TreeSampler(rng, tree)))

    def paths(self):
        return [f"{path}\t{self.folder}" for path in ([self.main] if self.refusal else [self.main, self.printed, self.xml])]

    def kind(self):
        """The first line of the refusal without its place and names, or `printed`."""
        sentence = self.refusal.split("\n")[0].split("error: ")[-1].split(": ")[0]
        return re.sub(r"`[^`]*`|[^ ,]*\.rnc(:\d+:\d+)?", "..", sentence) or "printed"

    def difference(self, answers):
        """What differs between the program and jing, or between its answers to the files in either syntax, or nothing."""
        if self.of_mixed:
            return f"with files in the XML syntax: {self.of_mixed}"
        is_good, rest = answers[self.paths()[0]]
        if self.refusal:
            is_early = self.damage in ("Except", "ExceptReference") and "excepted" in self.kind()
            is_known = is_early or any(limit in self.kind() for limit in LIMITS)
            return f"{self.refusal.splitlines()[0]}; jing takes it" if is_good and not is_known else ""
        if not self.stays:
            return "what is printed is printed otherwise again"
        if not is_good:
            return "" if all(JING_ALONE.search(error) for error in rest.split("\t")) else f"printed; jing: {rest[:120]}"
        takes, again = answers[self.paths()[1]]
        if not takes or rest != again:
            return f"printed; jing: {rest[:80]}; of the printed text: {again[:120]}"
        forms = [read(f"{path}.simplified") for path in (self.main, self.printed)]
        if not simplified.is_same(*forms):
            return "the simplified forms differ"
        takes, of_xml = answers[self.paths()[2]]
        if not takes or rest != of_xml:
            return f"printed; jing: {rest[:80]}; of the XML: {of_xml[:120]}"
        return "" if read(f"{self.xml}.simplified") == forms[1] else "the simplified form of the XML differs"

    def of_lxml(self, answers):
        """What lxml says of the schema in the XML syntax, beside jing."""
        is_good, rest = answers[self.paths()[0]]
        if self.refusal or not is_good:
            return []
        said, why = xml_syntax.verdicts(self.xml, sorted(pathlib.Path(self.folder).glob("*.xml")))
        if said is None:
            return [f"lxml: {why}"] if why else []
        return [f"lxml: {beside_jing(one, other)}" for one, other in zip(said, rest)]


def beside_jing(of_lxml, of_jing):
    """How the verdicts of lxml and of jing on a document go together."""
    if of_lxml == "?":
        return "no verdict, since it doesn't read the document"
    if of_lxml == of_jing:
        return "as jing"
    return "valid for jing alone" if of_jing == "1" else "not valid for jing alone"


def read(path):
    with open(path, encoding="utf-8") as file:
        return file.read()


def compare_files(program, seeds, room):
    told = [Told(program, f"{room}/{seed}", seed) for seed in seeds]
    answers = jing.answers(room, [path for it in told for path in it.paths()])
    others = xml_syntax.not_the_same(program.path, room, [it.xml for it in told if it.xml])
    tally, differences = collections.Counter(), [f"{path}: {why}" for path, why in others.items()]
    for it in told:
        tally.update(it.of_lxml(answers))
        is_good, rest = answers[it.paths()[0]]
        tally["files written in the XML syntax too"] += it.in_xml
        difference = it.difference(answers)
        if difference:
            differences.append(f"{it.folder}: {difference}")
        if is_good:
            tally[f"{it.kind()}; taken by jing"] += 1
            tally["documents that are valid"] += rest.count("1")
            tally["documents that are not valid"] += rest.count("0")
        else:
            tally[f"{it.damage or 'no damage'}: {it.kind()}; jing: {first_error(rest)}"] += 1
    return tally, differences


def changed(rng, text):
    parts = PARTS.findall(text)
    for _ in range(drawing.weighted(rng, [(6, 1), (2, 2), (1, 3)])):
        at, token = rng.randrange(len(parts)), rng.choice(TOKENS)
        parts[at : at + 1] = rng.choice([[], [token], [token, parts[at]], [" ", token, " ", parts[at]], [rng.choice(parts), parts[at]]])
    return "".join(parts)


def compare_texts(program, seeds, room):
    told = {}
    for seed in seeds:
        rng = random.Random(seed)
        module = drawing.module_set(rng)[0]
        module.items = [it for it in module.items if isinstance(it, schema.Define)]
        text = writing.Writer(rng, is_plain=True).module(module)
        for at in range(8):
            os.mkdir(f"{room}/{seed}-{at}")
            path = write(f"{room}/{seed}-{at}/text.rnc", changed(rng, text) + LAST_ITEM)
            told[path] = program.run("check", path)[1]
    tally, differences = collections.Counter(), []
    for path, (is_good, rest) in jing.answers(room, [*told]).items():
        fault = kind_of(told[path])
        tally[f"{fault or 'good'}; jing: {'good' if is_good else first_error(rest)}"] += 1
        if is_good and fault not in ("", "Prefix", "Except") or not fault and "syntax error" in rest:
            differences.append(f"{path}: {told[path] or 'good'}; jing: {rest[:80]}")
    return tally, differences


def main(path, what, count, seed="1"):
    room = tempfile.mkdtemp(prefix="against-jing-")
    compare = {"sets": compare_sets, "texts": compare_texts, "files": compare_files}[what]
    tally, differences = compare(Program(os.path.abspath(path)), range(int(seed), int(seed) + int(count)), room)
    for answers, often in sorted(tally.items()):
        print(f"{often:6} {answers}")
    print(*differences, f"{len(differences)} differences", sep="\n")
    if differences:
        print(f"all files are in {room}")
        return 1
    shutil.rmtree(room)
    return 0


if __name__ == "__main__":
    sys.exit(main(*sys.argv[1:]))
