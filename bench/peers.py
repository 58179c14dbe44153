#!/usr/bin/env python3
"""Times rnc-merge and rnc-flat on real schemas, beside jing, trang and sha256sum; and rnc-flat beside `rnc-merge print` of the same set, and
`rnc-flat --rng` beside rnc-flat.

bench/peers.py PROGRAM FLAT FOLDER [--old PROGRAM] [--size N] [--rounds N] [--xml]: PROGRAM is rnc-merge, FLAT is rnc-flat. The packages of the schemas are
unpacked in FOLDER where they aren't there yet (as tests/real-schemas/compare.py does), and schemas in the XML syntax are put into the compact one by
trang. Each set is what `rnc-flat --bundle` writes of the driver. Then two tables, with medians of the rounds (5), all commands in each round:
real schemas, with jing -i -c -s and trang on the driver as they lie on disk; and what rnc-flat takes beside `print`, for these and for sets of
files of the shapes of bench/run.py at N (32,000). A third one is of real schemas in the XML syntax: rnc-flat and jing -i -s on the driver as it lies
on disk, and rnc-flat on what it printed of that, as XML and as text. --xml makes this one alone.

Needs Debian's jing and trang, and a Java compiler. Start-up is part of each time, and shown first.
"""
import argparse
import os
import pathlib
import subprocess
import sys
import tempfile

import measuring
import shapes
from measuring import ended, megabytes, row, seconds, table

sys.path.insert(0, str(pathlib.Path(__file__).resolve().parent.parent / "tests" / "real-schemas"))
import packages  # noqa: E402

CLOSURES = {
    "TEI (xmlcopyeditor)": "xmlcopyeditor/usr/share/xmlcopyeditor/rng/tei_all.rnc",
    "slides (docbook-xsl-ns)": "docbook-xsl-ns/usr/share/xml/docbook/stylesheet/docbook-xsl-ns/slides/schema/relaxng/slides.rng",
    "EPUB 3 (epubcheck)": "epubcheck/usr/share/java/epubcheck.schemas/com/adobe/epubcheck/schema/30/epub-nav-30.rnc",
    "DocBook 5 (docbook5-xml)": "docbook5-xml/usr/share/xml/docbook/schema/rng/5.0/docbookxi.rnc",
}
IN_XML = {
    "TEI (xmlcopyeditor)": "xmlcopyeditor/usr/share/xmlcopyeditor/rng/tei_all.rng",
    "DocBook (xmlcopyeditor)": "xmlcopyeditor/usr/share/xmlcopyeditor/rng/docbook.rng",
    "slides (docbook-xsl-ns)": "docbook-xsl-ns/usr/share/xml/docbook/stylesheet/docbook-xsl-ns/slides/schema/relaxng/slides.rng",
    "domain snapshots (libvirt0)": "libvirt0/usr/share/libvirt/schemas/domainsnapshot.rng",
    "answers (pacemaker-common)": "pacemaker-common/usr/share/pacemaker/api/api-result-2.25.rng",
    "XHTML (xhtml-relaxng)": "xhtml-relaxng/usr/share/xml/xhtml-relaxng/xhtml.rng",
    "patches (libzypp-common)": "libzypp-common/usr/share/zypp/schema/yum/patch.rng",
}
JING = ["jing", "-i", "-c", "-s"]


def drivers(folder, room):
    """The drivers in the compact syntax by the names of the schemas."""
    packages.fetch(folder, sorted({path.split("/")[0] for path in CLOSURES.values()}))
    packages.open_archives(folder)
    paths = {name: folder / "packages" / path for name, path in CLOSURES.items()}
    made = packages.translated(room, folder, [path for path in paths.values() if path.suffix == ".rng"])
    return {name: made.get(path, path) for name, path in paths.items()}


def externals(n):
    """A grammar that refers to 200 others of n / 200 definitions each."""
    count = max(n // 200, 1)
    modules = {"driver": "start = element r { " + ", ".join(f'external "m{j}"' for j in range(200)) + " }"}
    for j in range(200):
        lines = [f"d{i} = element e{i} {{ d{(i + 1) % count}? }}" for i in range(count)]
        modules[f"m{j}"] = "start = d0\n" + "\n".join(lines)
    return modules


def nested(n):
    """A grammar with n / 20 grammars within its patterns, each of 20 definitions, which refer to the outer one too. Each is included twice, and of that
    512 is the most, so they are 200 at most."""
    inner = " ".join(f"d{i} = element e{i} {{ d{(i + 1) % 20}?, parent x? }}" for i in range(20))
    lines = [f"g{j} = grammar {{ start = d0 {inner} }}" for j in range(min(max(n // 20, 1), 200))]
    return {"driver": "x = element x { empty }\nstart = " + " | ".join(f"g{j}" for j in range(len(lines))) + "\n" + "\n".join(lines)}


def files(room, modules):
    """Writes the modules of a set as files, and answers those that are roots."""
    os.makedirs(room)
    for name, text in modules.items():
        pathlib.Path(room, name).write_text(text, encoding="utf-8")
    is_led = any(word in modules.get("driver", "") for word in ("include ", "external "))
    return ["driver"] if is_led else sorted(modules)


def bundled(flat, paths, folder, to):
    """Writes the set of drivers, and answers its length and how many modules it has."""
    with open(to, "wb") as out:
        subprocess.run([flat, "--bundle", *paths], cwd=folder, stdout=out, check=True)
    listed = subprocess.run([flat, "--list", *paths], cwd=folder, stdout=subprocess.PIPE, check=True)
    return os.path.getsize(to), listed.stdout.count(b"\n")


def show_start_up(words, room):
    path, bundle = f"{room}/small.rnc", f"{room}/small"
    pathlib.Path(path).write_text("start = text\n", encoding="utf-8")
    shapes.made(bundle, lambda: shapes.bundle({"a": "start = text"}))
    commands = {"rnc-merge": ([words.program], bundle), "rnc-flat": ([words.flat, path],), "jing": ([*JING, path],)}
    commands |= {"trang": (["trang", path, f"{room}/small.rng"],), "sha256sum": (["sha256sum"], bundle)}
    for name, it in measuring.rounds(commands, words.rounds).items():
        print(f"start-up of {name}: {it.seconds * 1000:.1f} ms, {it.peak / 1e6:.1f} MB")


def show_closures(words, found, room):
    """Real schemas. Answers the rows of the table of rnc-flat."""
    table("schema:", "modules", "KB", "old print, s", "print, s", "times sha256sum", "jing, s", "trang, s", "jing / print", "jing / rnc-flat",
          "peak, MB", "jing's, MB", "peak / jing's", "status:")
    rows = []
    for name, driver in found.items():
        bundle = f"{room}/bundle"
        size, count = bundled(words.flat, [driver.name], driver.parent, bundle)
        commands = {"old": ([words.old], bundle)} if words.old else {}
        commands |= {"print": ([words.program], bundle), "flat": ([words.flat, str(driver)],), "jing": ([*JING, str(driver)],)}
        commands |= {"xml": ([words.flat, "--rng", str(driver)],)}
        commands |= {"trang": (["trang", str(driver), f"{room}/made.rng"],), "sha256sum": (["sha256sum"], bundle)}
        got = measuring.rounds(commands, words.rounds)
        new, jing = got["print"], got["jing"]
        row(name, count, size // 1000, seconds(got["old"]) if words.old else "", seconds(new), f"{new.times(got['sha256sum']):.1f}",
            seconds(jing), seconds(got["trang"]) + ended(got["trang"]), f"{jing.times(new):.1f}", f"{jing.times(got['flat']):.1f}",
            megabytes(new), megabytes(jing), f"{new.peak / jing.peak:.2f}", ended(new) + ended(jing))
        rows.append((name, count, size, new, got["flat"], got["xml"]))
    return rows


def generated(words, room):
    """The rows of the table of rnc-flat for sets of files of growing shapes."""
    for shape in (*shapes.SHAPES, externals, nested):
        folder, bundle = f"{room}/{shape.__name__}", f"{room}/bundle"
        roots = files(folder, shape(words.size))
        size, count = bundled(words.flat, roots, folder, bundle)
        paths = [f"{folder}/{root}" for root in roots]
        commands = {"print": ([words.program], bundle), "flat": ([words.flat, *paths],), "xml": ([words.flat, "--rng", *paths],)}
        got = measuring.rounds(commands, words.rounds)
        yield shape.__name__, count, size, got["print"], got["flat"], got["xml"]


def show_flat(rows):
    table("set:", "modules", "KB", "print, s", "rnc-flat, s", "rnc-flat / print", "print, MB", "rnc-flat, MB", "memory, rnc-flat / print",
          "--rng, s", "--rng / rnc-flat", "memory, --rng / rnc-flat", "status:")
    for name, count, size, printed, flat, xml in rows:
        row(name, count, size // 1000, seconds(printed), seconds(flat), f"{flat.times(printed):.2f}",
            megabytes(printed), megabytes(flat), f"{flat.peak / printed.peak:.2f}", seconds(xml), f"{xml.times(flat):.2f}", f"{xml.peak / flat.peak:.2f}",
            ended(printed) + ended(flat) + ended(xml))


def show_syntaxes(words, room):
    """Real schemas in the XML syntax."""
    folder = words.folder.resolve()
    packages.fetch(folder, sorted({path.split("/")[0] for path in IN_XML.values()}))
    table("schema:", "KB of XML", "rnc-flat, s", "jing, s", "jing / rnc-flat", "peak / jing's", "the printed text, s", "its XML, s", "XML / text", "memory, XML / text")
    for name, path in IN_XML.items():
        driver = str(folder / "packages" / path)
        printed = {"text": f"{room}/printed.rnc", "xml": f"{room}/printed.rng"}
        for kind, to in printed.items():
            with open(to, "wb") as out:
                subprocess.run([words.flat, *(["--rng"] if kind == "xml" else []), driver], stdout=out, check=True)
        commands = {kind: ([words.flat, to],) for kind, to in printed.items()}
        commands |= {"flat": ([words.flat, driver],), "jing": (["jing", "-i", "-s", driver],)}
        got = measuring.rounds(commands, words.rounds)
        flat, jing, text, xml = (got[it] for it in ("flat", "jing", "text", "xml"))
        row(name, os.path.getsize(printed["xml"]) // 1000, seconds(flat), seconds(jing), f"{jing.times(flat):.1f}", f"{flat.peak / jing.peak:.2f}", seconds(text),
            seconds(xml), f"{xml.times(text):.2f}", f"{xml.peak / text.peak:.2f}")


def main():
    parser = argparse.ArgumentParser()
    parser.add_argument("program", type=os.path.abspath)
    parser.add_argument("flat", type=os.path.abspath)
    parser.add_argument("folder", type=pathlib.Path)
    parser.add_argument("--old", type=os.path.abspath)
    parser.add_argument("--xml", action="store_true")
    parser.add_argument("--size", type=int, default=32000)
    parser.add_argument("--rounds", type=int, default=measuring.ROUNDS)
    words = parser.parse_args()
    with tempfile.TemporaryDirectory() as room:
        show_start_up(words, room)
        if words.xml:
            return show_syntaxes(words, room)
        rows = show_closures(words, drivers(words.folder.resolve(), room), room)
        show_flat(rows + list(generated(words, room)))
        show_syntaxes(words, room)


if __name__ == "__main__":
    main()
