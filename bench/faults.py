#!/usr/bin/env python3
"""Files with faults, beside good twins of their size: what rnc-flat takes to say what is wrong.

bench/faults.py SHAPE N FOLDER [twin]: writes files of a shape to FOLDER, of which `main.rnc` is the one to read. SHAPE is one of the functions below,
each of which says what is at fault; N is how many definitions, names or faults there are. A twin has the same kind and size and no fault.
bench/faults.py --run PROGRAM [--old PROGRAM] [--rounds N]: a table of all shapes at n, 2 n and 4 n beside their twins, with medians of the rounds (5).
The old program runs once. Each run may have 8 GB.
"""
import argparse
import os
import sys
import tempfile

import measuring
from measuring import ended, megabytes, row, seconds, table

MEMORY = 8 << 30


def loop(n, twin):
    """n definitions in one loop; those of the twin are a chain."""
    last = "text" if twin else "d0"
    return {"main": ["start = d0", *(f"d{i} = d{i + 1}" for i in range(n - 1)), f"d{n - 1} = {last}"]}


def loops(n, twin):
    """n definitions, each of which refers to three, in loops; in the twin to three after it, and the last to none."""
    steps = [(i + 1, i + 7, i + 13) if twin else ((i + 1) % n, 7 * i % n, 13 * i % n) for i in range(n)]
    lines = (f"d{i} = " + " | ".join(f"d{min(it, n)}" for it in steps[i]) for i in range(n))
    return {"main": ["start = d0", *lines, f"d{n} = text"]}


def undefined(n, twin):
    """n names that nothing defines; in the twin each is defined."""
    name = "d" if twin else "u"
    lines = (f"d{i} = element e {{ {name}{(i + 1) % n} }}" for i in range(n))
    return {"main": ["start = d0", *lines]}


def plain(n, twin):
    """One name, defined n times by `=`; in the twin by `|=`."""
    method = "|=" if twin else " ="
    return {"main": ["start = x", *(f"x {method} text" for _ in range(n))]}


def twice(n, twin):
    """n names, each defined twice by `=`; in the twin by `|=`."""
    method = "|=" if twin else " ="
    return {"main": ["start = d0", *(f"d{i} {method} text" for _ in range(2) for i in range(n))]}


def methods(n, twin):
    """n names, each combined by `|=` and by `&=`; in the twin by `|=` alone."""
    second = "|=" if twin else "&="
    return {"main": ["start = d0", *(f"d{i} {method} text" for method in ("|=", second) for i in range(n))]}


def one(n, twin):
    """A good schema of n elements, but for one name that nothing defines."""
    last = "d0" if twin else "zz"
    lines = (f"d{i} = element e{i} {{ attribute a {{ text }}?, (d{(i + 1) % n} | d{7 * i % n})* }}" for i in range(n))
    return {"main": [f"start = d0 | {last}", *lines]}


def files(n, twin):
    """The same in four files."""
    lines = [f"d{i} = element e{i} {{ attribute a {{ text }}?, (d{(i + 1) % n} | d{7 * i % n})* }}" for i in range(n)]
    parts = {f"m{j}": lines[j::4] for j in range(4)}
    return parts | {"main": ["start = " + ("d0" if twin else "zz"), *(f'include "{name}.rnc"' for name in parts)]}


def links(n, twin):
    """n includes of a file that isn't there, behind 36 symbolic links through 180 folders each; in the twin of one that is beside it."""
    way = "d/../" * 180
    chain = {f"l{i}": f"{way}l{i + 1}.rnc" for i in range(36)} | {"d/in": ["x |= text"]}
    main = ["start = x", *('include "there.rnc"' if twin else 'include "l0.rnc"' for _ in range(n))]
    return chain | {"there": ["x |= text"], "main": main}


# How many definitions, names or faults there are in the first of three sizes.
SHAPES = {loop: 25000, loops: 25000, undefined: 25000, plain: 100000, twice: 25000, methods: 25000, one: 10000, files: 25000, links: 125}


def write(shape, n, twin, folder):
    """Writes the files of a shape, and links where a text is in the place of lines, and answers how many bytes the files have."""
    size = 0
    for name, lines in shape(n, twin).items():
        path = f"{folder}/{name}.rnc"
        os.makedirs(os.path.dirname(path), exist_ok=True)
        if isinstance(lines, str):
            os.symlink(lines, path)
            continue
        with open(path, "w", encoding="utf-8") as out:
            size += out.write("\n".join(lines) + "\n")
    return size


def measured(found, shape, count):
    """For n, 2 n and 4 n: the number, the size of the files, and how the programs did on them and on their twins."""
    with tempfile.TemporaryDirectory() as room:
        sizes, commands = {}, {}
        for n in (SHAPES[shape] * times for times in (1, 2, 4)):
            for kind in ("fault", "twin"):
                size = write(shape, n, kind == "twin", f"{room}/{n}-{kind}")
                sizes.setdefault(n, size)
                commands["new", n, kind] = ([found["new"], f"{room}/{n}-{kind}/main.rnc"], None, MEMORY)
        got = measuring.rounds(commands, count)
        if "old" in found:
            old = {("old", n): ([found["old"], f"{room}/{n}-fault/main.rnc"], None, MEMORY) for n in sizes}
            got |= measuring.rounds(old, 1)
    for n, size in sizes.items():
        yield n, size, got["new", n, "fault"], got["new", n, "twin"], got.get(("old", n))


def show(found, count):
    table("shape:", "n", "MB", "old, s", "new, s", "growth", "twin, s", "new / twin", "peak, MB", "twin's, MB", "twin:")
    for shape in SHAPES:
        before = None
        for n, size, new, twin, old in measured(found, shape, count):
            growth = f"{new.times(before):.2f}" if before else ""
            row(shape.__name__, f"{n:,}", f"{size / 1e6:.1f}", seconds(old) if old else "", seconds(new), growth, seconds(twin),
                f"{new.times(twin):.2f}", megabytes(new), megabytes(twin), ended(twin))
            if new.status not in (1, 3):
                sys.exit(f"{shape.__name__} is not refused: {new.status} {new.said}")
            before = new


def main():
    if "--run" not in sys.argv:
        return write_one(sys.argv[1:])
    parser = argparse.ArgumentParser()
    parser.add_argument("--run", required=True)
    parser.add_argument("--old")
    parser.add_argument("--rounds", type=int, default=measuring.ROUNDS)
    words = parser.parse_args()
    found = {"new": os.path.abspath(words.run)} | ({"old": os.path.abspath(words.old)} if words.old else {})
    show(found, words.rounds)


def write_one(words):
    by_name = {shape.__name__: shape for shape in SHAPES}
    if len(words) not in (3, 4) or words[0] not in by_name or not words[1].isdecimal() or words[3:] not in ([], ["twin"]):
        sys.exit("usage: faults.py " + "|".join(by_name) + " N FOLDER [twin], or faults.py --run PROGRAM [--old PROGRAM] [--rounds N]")
    write(by_name[words[0]], int(words[1]), len(words) == 4, words[2])


if __name__ == "__main__":
    main()
