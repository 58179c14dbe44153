"""Schemas of Debian packages: unpacked in a folder, chosen among, and put into the compact syntax."""
import os
import pathlib
import re
import subprocess
import sys
import zipfile

HERE = pathlib.Path(__file__).resolve().parent
sys.path.insert(0, str(HERE.parent / "against-jing"))
from jing import java  # noqa: E402

PACKAGES = [
    "crmsh",
    "docbook-slides",
    "docbook-website",
    "docbook-xsl",
    "docbook-xsl-ns",
    "emacs-common",
    "epubcheck",
    "latexml",
    "libvirt0",
    "libzypp-common",
    "pacemaker-common",
    "xhtml-relaxng",
    "xmlcopyeditor",
]
LINKS = {
    ".rnc": re.compile(r"""^[^#"'\n]*?\b(?:include|external)\s+["']([^"'\n]+)""", re.M),
    ".rng": re.compile(r"""<(?:\w+:)?(?:include|externalRef)\b[^>]*?\bhref\s*=\s*["']([^"']+)"""),
}


def fetch(folder, packages):
    """Unpacks the packages that aren't there yet."""
    for package in packages:
        place = folder / "packages" / package
        if place.exists():
            continue
        place.parent.mkdir(parents=True, exist_ok=True)
        subprocess.run(["apt-get", "download", package], cwd=place.parent, capture_output=True)
        for archive in place.parent.glob(f"{package}_*.deb"):
            subprocess.run(["dpkg", "-x", archive, place], check=True)
            archive.unlink()
        if not place.exists():
            print(f"no package {package}")


def open_archives(folder):
    """Puts the schemas that lie in Java archives beside them."""
    for archive in (folder / "packages").rglob("*.jar"):
        place = archive.with_suffix(".schemas")
        if archive.is_symlink() or place.exists():
            continue
        with zipfile.ZipFile(archive) as opened:
            for name in opened.namelist():
                if name.endswith((".rnc", ".rng")):
                    opened.extract(name, place)


def links(path):
    """The files that a schema includes or refers to."""
    text = path.read_text("utf-8", "replace")
    if path.suffix == ".rng":
        text = re.sub(r"<!--.*?-->", "", text, flags=re.S)
    return [os.path.normpath(path.parent / link) for link in LINKS[path.suffix].findall(text)]


def chosen(folder, words):
    """The schemas to be run, by their syntax."""
    found = {}
    for suffix in LINKS:
        paths = sorted(path for path in (folder / "packages").rglob(f"*{suffix}") if path.is_file())
        leads = {path: links(path) for path in paths}
        reached = {target for targets in leads.values() for target in targets}
        drivers = paths if words.all else [path for path in paths if leads[path] and os.path.normpath(path) not in reached]
        found[suffix] = [path for path in drivers if words.only in str(path)]
    return found


def translated(room, folder, paths):
    """The files in the compact syntax that trang makes of schemas in the XML syntax, by those; None where it makes none."""
    made = {}
    for path in paths:
        place = folder / "translated" / path.relative_to(folder / "packages")
        place.mkdir(parents=True, exist_ok=True)
        made[path] = place / (path.stem + ".rnc")
    missing = [path for path in paths if not made[path].exists()]
    answers = java(room, HERE / "Trang.java", [f"{path}\t{made[path]}" for path in missing])
    for path, answer in zip(missing, answers, strict=True):
        if answer != "status 0":
            made[path].unlink(missing_ok=True)
    return {path: to if to.exists() else None for path, to in made.items()}
