"""Printed schemas in the XML syntax: what jing, trang and libxml2 make of them. libxml2 is asked where xmllint or lxml is installed."""
import pathlib
import shutil
import subprocess

from jing import java

try:
    from lxml import etree
except ImportError:
    etree = None

TRANG = pathlib.Path(__file__).resolve().parent.parent / "real-schemas" / "Trang.java"
# The longest time for one schema.
SECONDS = 60


def written(program, path):
    """Writes a schema in the XML syntax beside it, and answers where."""
    to = pathlib.Path(path).with_suffix(".rng")
    to.write_bytes(subprocess.run([program, "--rng", path], stdout=subprocess.PIPE, check=True).stdout)
    return to


def not_the_same(program, room, paths):
    """Of schemas in the XML syntax those that trang puts into another compact text, with why: what rnc-flat prints of that must be the text that they
    were made of, which lies beside them."""
    back = {path: path.with_suffix(".back.rnc") for path in paths}
    statuses = java(room, TRANG, [f"{path}\t{to}" for path, to in back.items()])
    found = {}
    for (path, to), status in zip(back.items(), statuses, strict=True):
        if status != "status 0":
            found[path] = f"trang: {status}"
            continue
        ran = subprocess.run([program, to], capture_output=True)
        if ran.stdout != path.with_suffix(".rnc").read_bytes():
            found[path] = "another text by trang: " + ran.stderr.decode("utf-8", "replace").split("\n")[0]
    return found


def xmllint(path, room):
    """Why xmllint doesn't load a schema, or nothing; nothing where it isn't installed."""
    if not shutil.which("xmllint"):
        return ""
    document = pathlib.Path(room) / "document"
    document.write_text("<document-of-no-schema/>", encoding="utf-8")
    try:
        ran = subprocess.run(["xmllint", "--noout", "--relaxng", path, document], capture_output=True, timeout=SECONDS)
    except subprocess.TimeoutExpired:
        return f"more than {SECONDS} seconds"
    lines = ran.stderr.decode("utf-8", "replace").splitlines()
    return "" if ran.returncode in (0, 3) else (lines or [f"status {ran.returncode}"])[0]


def verdicts(path, documents):
    """What lxml says of documents by a schema, as jing's answers say it: 1 for a valid one, 0 for another. Why it doesn't load the schema, if it doesn't;
    nothing where it isn't installed."""
    if etree is None:
        return None, ""
    try:
        schema = etree.RelaxNG(etree.parse(str(path)))
    except (etree.RelaxNGError, etree.LxmlError) as error:
        return None, str(error)[:120]
    return "".join(verdict(schema, it) for it in documents), ""


def verdict(schema, document):
    """What lxml says of a document: 1 where it is valid, 0 where it isn't, ? where lxml doesn't read it (a namespace with characters other than those of URIs)."""
    try:
        return "1" if schema.validate(etree.parse(str(document))) else "0"
    except etree.XMLSyntaxError:
        return "?"
