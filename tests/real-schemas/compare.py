#!/usr/bin/env python3
"""Puts the schemas of Debian packages through rnc-flat, and compares what is printed with them by jing.

compare.py PROGRAM FOLDER [--only WORD] [--all]: fetches the packages into FOLDER where they aren't there yet (apt-get download, dpkg -x), and runs
rnc-flat on each driver as it lies on disk, in either syntax: a file that includes or refers to others, and that no other file leads to. With --all
every file is run, and one in the XML syntax that is only a part of a schema within one that includes it (parts.py); with --only those whose path
holds WORD.

Where jing takes the file, the simplified forms that it makes (-i -c -s) of the file and of what is printed are compared up to names
(tests/against-jing/simplified.py), and what is printed must be printed again. Each printed schema is written in the XML syntax too (--rng): jing must
make the same form of it, byte for byte, and trang a text that is printed as the same. Where a file lies in both syntaxes and both are the same to
jing, both must print the same. Prints a line for each file, with what came of it and why, a line for each XML that xmllint doesn't load, and counts.

Needs Debian's jing and trang, and a Java compiler. Two programs run side by side. This is no part of the gate.
"""
import argparse
import collections
import concurrent.futures
import pathlib
import subprocess
import sys
import tempfile

sys.path.insert(0, str(pathlib.Path(__file__).resolve().parent.parent / "against-jing"))
from jing import JOBS, answers  # noqa: E402
from packages import PACKAGES, chosen, fetch, open_archives  # noqa: E402
from parts import around, names_of  # noqa: E402
from simplified import is_same  # noqa: E402
from xml_syntax import not_the_same, written, xmllint  # noqa: E402

# The longest time for one schema.
SECONDS = 180


def each(made, things):
    """What a function makes of each of these, by those: some at a time."""
    with concurrent.futures.ThreadPoolExecutor(JOBS) as pool:
        return dict(zip(things, pool.map(made, things)))


def forms(room, paths):
    """What jing says of schemas, by their paths: the simplified form and nothing, or nothing and the errors."""
    found = {}
    for line, (is_good, errors) in answers(room, [f"{path}\t{room}" for path in paths]).items():
        path = pathlib.Path(line.split("\t")[0])
        form = pathlib.Path(f"{path}.simplified")
        found[path] = (form.read_text("utf-8"), "") if is_good else (None, errors)
        form.unlink(missing_ok=True)
    return found


def flat(program, path, to):
    """Prints the schema of a file to another, and answers the first line of the refusal, or nothing."""
    try:
        done = subprocess.run([program, path.name], capture_output=True, timeout=SECONDS, cwd=path.parent)
    except subprocess.TimeoutExpired:
        return f"more than {SECONDS} seconds"
    if done.returncode == 0:
        to.write_bytes(done.stdout)
        return ""
    return (done.stderr.decode("utf-8", "replace").splitlines() or [f"status {done.returncode}"])[0]


class Schemas:
    """Schemas, with what jing and rnc-flat make of them."""

    def __init__(self, program, room, paths):
        self.program, self.room = program, room
        self.forms = forms(room, paths)
        self.printed = {path: room / f"{at}.{path.suffix[1:]}.rnc" for at, path in enumerate(paths)}
        self.refused = each(lambda path: flat(program, path, self.printed[path]), paths)
        good = [path for path in paths if not self.refused[path]]
        self.again = forms(room, [self.printed[path] for path in good])
        self.xml = each(lambda path: written(program, self.printed[path]), good)
        self.xml_forms = forms(room, self.xml.values())
        self.others = not_the_same(program, room, self.xml.values())
        self.unloaded = each(lambda path: xmllint(self.xml[path], room), good)

    def answer(self, path):
        """What comes of a schema, and why."""
        form, errors = self.forms[path]
        if form is None:
            first = errors.split("\t")[0][:160]
            return "not taken by jing", f"{first}; rnc-flat: {self.refused[path] or 'printed'}"
        if self.refused[path]:
            return "not printed", self.refused[path]
        printed = self.printed[path]
        form_again, errors = self.again[printed]
        if form_again is None:
            return "printed, and not taken by jing", errors[:160]
        if not is_same(form, form_again):
            return "printed, and differs", ""
        to = pathlib.Path(f"{printed}.again")
        refusal = flat(self.program, printed, to)
        if refusal or to.read_bytes() != printed.read_bytes():
            return "equal, and printed otherwise again", refusal
        return "equal", ""

    def answers_in_xml(self, path):
        """What comes of a printed schema in the XML syntax."""
        if path not in self.xml:
            return
        xml = self.xml[path]
        form, errors = self.xml_forms[xml]
        if self.again[self.printed[path]][0] != form:
            yield "XML that jing takes otherwise", errors[:160]
        elif xml in self.others:
            yield "XML that is printed otherwise", self.others[xml]
        else:
            yield "XML as the text", ""
        if self.unloaded[path]:
            yield "XML not loaded by xmllint", self.unloaded[path]

    def answer_of_pair(self, path, beside):
        """What comes of the same schema in both syntaxes."""
        of_both = [self.forms[path][0], self.forms[beside][0]]
        if None in of_both:
            means = "perhaps other than"
        else:
            means = "the same as" if is_same(*of_both) else "other than"
        if self.refused[path] or self.refused[beside]:
            return f"pair, {means} the compact file: refused", self.refused[path] or self.refused[beside]
        same = self.printed[path].read_bytes() == self.printed[beside].read_bytes()
        return f"pair, {means} the compact file: prints " + ("the same" if same else "otherwise"), ""


def with_parts(room, paths):
    """The schemas that are run in place of files: those around files that are only a part of one, by those."""
    taken = forms(room, paths)
    names = {path: names_of(path) for path in paths if path.suffix == ".rng" and taken[path][0] is None}
    made = {path: path for path in paths}
    for number, (path, found) in enumerate(names.items()):
        if not found:
            continue
        made[path] = around(room, number, path, found)
        beside = path.with_suffix(".rnc")
        if beside in made:
            made[beside] = around(room, number, beside, found)
    return made


def compare(program, room, paths, has_parts):
    """What comes of each file, and why."""
    made = with_parts(room, paths) if has_parts else {path: path for path in paths}
    beside = {path: path.with_suffix(".rnc") for path in paths if path.suffix == ".rng" and path.with_suffix(".rnc").is_file()}
    made |= {other: other for other in beside.values() if other not in made}
    schemas = Schemas(program, room, list(made.values()))
    for path in paths:
        for answer, why in schemas.answers_in_xml(made[path]):
            yield path, answer, why
        answer, why = schemas.answer(made[path])
        yield path, answer + (", as a part" if made[path] != path else ""), why
        if path in beside:
            yield path, *schemas.answer_of_pair(made[path], made[beside[path]])


def main():
    parser = argparse.ArgumentParser()
    parser.add_argument("program", type=pathlib.Path)
    parser.add_argument("folder", type=pathlib.Path)
    parser.add_argument("--only", default="")
    parser.add_argument("--all", action="store_true")
    words = parser.parse_args()
    folder = words.folder.resolve()
    fetch(folder, PACKAGES)
    open_archives(folder)
    with tempfile.TemporaryDirectory() as room:
        found = chosen(folder, words)
        paths = found[".rnc"] + found[".rng"]
        print(f"{len(found['.rnc'])} shipped in the compact syntax, {len(found['.rng'])} in the XML syntax", flush=True)
        counts = collections.Counter()
        for path, answer, why in compare(words.program.resolve(), pathlib.Path(room), paths, words.all):
            counts[answer] += 1
            print(answer, path.relative_to(folder), why, sep="\t", flush=True)
    for answer, count in sorted(counts.items()):
        print(f"{count} {answer}")


if __name__ == "__main__":
    main()
