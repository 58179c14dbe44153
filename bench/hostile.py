#!/usr/bin/env python3
"""Bundles that are meant to cost much more than others of their size, beside their harmless twins.

bench/hostile.py SHAPE [twin] > BUNDLE: SHAPE is one of the functions named at the end, each of which says what it aims at. A twin has the same
kind and size, and nothing in it is aimed. `rnc-merge print` of both is to take about the same time and memory.
bench/hostile.py --run PROGRAM [--old PROGRAM] [--rounds N]: a table of all shapes beside their twins, and of four that have none, with medians of the
rounds (5). The old program runs once, and where any run takes more than 20 s, one is enough. Each run may have 8 GB.
"""
import argparse
import os
import random
import sys
import tempfile

import measuring
from measuring import ended, megabytes, row, seconds, table
from shapes import bundle, made

WORD = (1 << 64) - 1
# The numbers of a hasher that multiplies 16 bytes at a time, and begins in a state that all can read.
MULTIPLIER = 0x9E3779B97F4A7C15
BEGIN = 0x243F6A8885A308D3
LETTERS = b"abcdefghijklmnopqrstuvwxyzABCDEFGHIJKLMNOPQRSTUVWXYZ"
NAME_BYTES = set(LETTERS + b"0123456789_-.")


def folded(a, b):
    """The two halves of a product of 128 bits, joined by xor."""
    product = a * b
    return (product & WORD) ^ (product >> 64)


def word(text, at):
    """Eight bytes as a number, the lowest first."""
    return int.from_bytes(text[at:at + 8], "little")


def written(state, text):
    """The hasher's state behind at most three bytes."""
    short = text[0] | text[len(text) // 2] << 8 | text[-1] << 16 if text else 0
    if len(text) > 3:
        short = int.from_bytes(text[:4], "little") | int.from_bytes(text[-4:], "little") << 32
    return folded(state ^ short, MULTIPLIER ^ 2 * len(text))


def colliding(n, twin, state=BEGIN):
    """n names of 48 bytes. Behind the first 16 the state is itself eight bytes of a name: where these follow, the product is 0 whatever comes next,
    and stays so to the common end. So all have one hash. In a twin other bytes follow."""
    rng = random.Random(1)
    while True:
        front = bytes(rng.choice(LETTERS) for _ in range(16))
        begun = (state + 48) & WORD
        zero = folded(word(front, 0) ^ begun, word(front, 8) ^ MULTIPLIER).to_bytes(8, "little")
        if NAME_BYTES.issuperset(zero):
            break
    if twin:
        zero = zero[::-1]
    return [(front + zero + b"%08d" % i + b"abcdefghijklmnop").decode() for i in range(n)]


def definitions(twin):
    """74,000 definitions whose names have one hash."""
    return {"a": "start = text\n" + "\n".join(f"{name} = text" for name in colliding(74000, twin))}


def prefixes(twin):
    """60,000 prefixes of namespaces that have one hash."""
    return {"a": "\n".join(f'namespace {name} = ""' for name in colliding(60000, twin)) + "\nstart = text"}


def namespaces(twin):
    """30,000 namespaces that have one hash, each of them used."""
    uris = colliding(30000, twin)
    lines = [f'namespace n{i} = "{uri}"' for i, uri in enumerate(uris)]
    return {"a": "\n".join(lines) + "\nstart = " + "|".join(f"element n{i}:a {{text}}" for i in range(len(uris)))}


def literals(twin):
    """60,000 literals whose patterns have one hash: a number for the kind, the library, the type, and then the text."""
    state = written(BEGIN, b"\4")
    for part in (b"", b"token"):
        state = written(written(state, part), b"\xff")
    texts = colliding(60000, twin, state)
    return {"a": "start = element a {" + "|".join(f'"{text}"' for text in texts) + "}"}


def parentheses(twin):
    """A choice of 100,000 elements within 240 pairs of parentheses, with an element beside each pair."""
    many = "|".join(f"element e{i}{{text}}" for i in range(100000))
    around = "".join(f"|element a{i}{{text}}" + ("" if twin else ")") for i in range(240))
    return {"a": "start = " + ("" if twin else "(" * 240) + many + around}


def interleaved(twin):
    """The same as an interleave of 40,000 within 240 pairs of parentheses, with a member beside each pair."""
    many = "&".join(f"element e{i}{{text}}" for i in range(40000))
    around = "".join(f"&element a{i}{{text}}" + ("" if twin else ")") for i in range(240))
    return {"a": "start = element r {" + ("" if twin else "(" * 240) + many + around + "}"}


def names(twin):
    """A name class of 200,000 names within 240 pairs of parentheses, with a name beside each pair."""
    many = "|".join(f"e{i}" for i in range(200000))
    around = "".join(f"|a{i}" + ("" if twin else ")") for i in range(240))
    return {"a": "start = element " + ("(" if twin else "(" * 241) + many + around + ") {text}"}


def includes(twin):
    """A body of 1.4 MB that 510 includes bring in; of the twin's includes one does, and the others an empty body."""
    body = "x |= element a {" + ",".join(f"element e{i}{{text}}" for i in range(60000)) + "}"
    modules = {"a": body, "b": "x |= empty"}
    included = ["a"] + ["b" if twin else "a"] * 509 + ["b"]
    modules["driver"] = "start = x\n" + "\n".join(f'include "{name}"' for name in included)
    return modules


def uri(twin):
    """60,000 names, in no order, in a namespace whose URI has 1.2 MB; in the twin a literal has that length."""
    long = "u" * 1200000
    head = f'default namespace = "{"u" if twin else long}"\nstart = element r {{ "{long if twin else "u"}" }}'
    names = random.Random(1).sample(range(60000), 60000)
    return {"a": head + "".join(f"|element e{i}{{text}}" for i in names)}


def libraries(twin):
    """60,000 values of a datatype library whose URI has 1.2 MB, which two includes bring in; in the twin a literal has that length."""
    long = "u" * 1200000
    head = f'datatypes x = "{"u" if twin else long}"\na |= "{long if twin else "u"}"\n'
    return {"a": head + "\n".join(f'a |= x:t "n{i}"' for i in range(60000)), "driver": 'start = a\ninclude "a"\ninclude "a"'}


def components(twin):
    """200,000 definitions of one name, which 511 includes bring in: 102 million members."""
    modules = {"a": "\n".join("x |= text" for _ in range(200000)), "driver": "start = x\n" + "\n".join('include "a"' for _ in range(1 if twin else 511))}
    return modules


def instances(twin):
    """80,000 definitions, each of a name of its own, which 500 includes bring in: 40 million members, and 500 of each name."""
    definitions = "\n".join(f"n{i:05d} |= text" for i in range(80000))
    return {"a": definitions, "driver": "start = text\n" + "\n".join('include "a"' for _ in range(1 if twin else 500))}


def interleaves(twin):
    """20,000 definitions of one name, interleaved, which 511 includes bring in."""
    modules = {"a": "\n".join("x &= text" for _ in range(20000)), "driver": "start = x\n" + "\n".join('include "a"' for _ in range(1 if twin else 511))}
    return modules


def contexts(twin):
    """2,000 elements, which 500 includes bring in under 500 namespaces; under one in the twin. Of each 500 are joined to one name."""
    declared = [f'namespace p{i} = "u{i}"' for i in range(500)]
    included = [f'include "a" inherit = p{0 if twin else i}' for i in range(500)]
    return {"a": "\n".join(f"n{i:04d} |= element e{{empty}}" for i in range(2000)), "driver": "\n".join([*declared, "start = n0000", *included])}


TWINNED = (definitions, prefixes, namespaces, literals, parentheses, interleaved, names, includes, uri, libraries)
SHAPES = {shape.__name__: shape for shape in (*TWINNED, components, instances, contexts, interleaves)}
MEMORY = 8 << 30


def measured(found, room, count):
    """The size of each shape's bundle, and how the new program did on it and on its twin, and the old one, once, on it."""
    for shape in SHAPES.values():
        paths = {kind: f"{room}/{kind}" for kind in ("hostile", "twin")}
        size = made(paths["hostile"], lambda: bundle(shape(False)))
        made(paths["twin"], lambda: bundle(shape(True)))
        got = measuring.rounds({("new", kind): ([found["new"]], path, MEMORY) for kind, path in paths.items()}, count)
        if "old" in found:
            got |= measuring.rounds({("old", "hostile"): ([found["old"]], paths["hostile"], MEMORY)}, 1)
        yield shape, size, got


def show(found, count):
    table("shape:", "MB", "old, s", "new, s", "twin, s", "new / twin", "peak, MB", "peak / input", "twin's peak / input", "status:")
    with tempfile.TemporaryDirectory() as room:
        for shape, size, got in measured(found, room, count):
            new, twin, old = got["new", "hostile"], got["new", "twin"], got.get(("old", "hostile"))
            has_twin = shape in TWINNED
            row(shape.__name__, f"{size / 1e6:.1f}", seconds(old) + ended(old) if old else "", seconds(new), seconds(twin) if has_twin else "",
                f"{new.times(twin):.2f}" if has_twin else "", megabytes(new), f"{new.peak / size:.1f}",
                f"{twin.peak / size:.1f}" if has_twin else "", ended(new))


def main():
    if "--run" not in sys.argv:
        return write(sys.argv[1:])
    parser = argparse.ArgumentParser()
    parser.add_argument("--run", required=True)
    parser.add_argument("--old")
    parser.add_argument("--rounds", type=int, default=measuring.ROUNDS)
    words = parser.parse_args()
    found = {"new": os.path.abspath(words.run)} | ({"old": os.path.abspath(words.old)} if words.old else {})
    show(found, words.rounds)


def write(words):
    if not words or words[0] not in SHAPES or words[1:] not in ([], ["twin"]):
        sys.exit("usage: hostile.py " + "|".join(SHAPES) + " [twin], or hostile.py --run PROGRAM [--old PROGRAM] [--rounds N]")
    sys.stdout.buffer.write(bundle(SHAPES[words[0]](len(words) == 2)))


if __name__ == "__main__":
    main()
