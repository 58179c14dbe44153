#!/usr/bin/env python3
"""Times rnc-merge on module sets of growing size, beside an older program and sha256sum.

bench/run.py PROGRAM [--old PROGRAM] [--largest N] [--rounds N]: three tables. Growth: for each shape and n = 8,000, 16,000, .. up to N (128,000), a
bundle of that size, and `print` of both programs and `sha256sum` of the bundle, all sizes of a shape in the same rounds. The largest: the same figures
of the last row of each shape as ratios. Reading: module texts of n = 32,000, with `check` of both programs and `print` of a bundle of the text. Seconds
are those of the clock, medians of the rounds (5), and hold start-up, which is shown first. A ratio is the median of the rounds' ratios.
"""
import argparse
import os
import tempfile

import measuring
import shapes
from measuring import ended, megabytes, row, seconds, table

SMALLEST = 8000
READING = 32000


def programs(words):
    """The programs by their names."""
    found = {"new": os.path.abspath(words.program)}
    return found | ({"old": os.path.abspath(words.old)} if words.old else {})


def show_start_up(found, room, count):
    path = f"{room}/bundle"
    shapes.made(path, lambda: shapes.bundle({"a": "start = text"}))
    commands = {name: ([program], path) for name, program in found.items()} | {"sha256sum": (["sha256sum"], path)}
    for name, it in measuring.rounds(commands, count).items():
        print(f"start-up of {name}: {it.seconds * 1000:.1f} ms, {it.peak / 1e6:.1f} MB")


def doubled(largest):
    """The sizes from the smallest to the largest, each twice the one before."""
    n = SMALLEST
    while n <= largest:
        yield n
        n *= 2


def measured(found, room, shape, words):
    """For each size of a shape, the bytes of its bundle, and the runs of each command on it by the command's name. All sizes are in the same rounds."""
    bytes_of, commands = {}, {}
    for n in doubled(words.largest):
        path = f"{room}/bundle.{n}"
        bytes_of[n] = shapes.made(path, lambda: shapes.bundle(shape(n)))
        commands |= {(name, n): ([program], path) for name, program in found.items()} | {("sha256sum", n): (["sha256sum"], path)}
    got = measuring.rounds(commands, words.rounds)
    return {n: (size, {name: runs for (name, it), runs in got.items() if it == n}) for n, size in bytes_of.items()}


def show_growth(found, room, words):
    """The table of growth. Answers the size and the figures of the largest of each shape."""
    table("shape:", "n", "bundle, KB", "old, s", "new, s", "old / new", "growth", "peak, MB", "peak / bundle", "times sha256sum", "status:")
    largest = {}
    for shape in shapes.SHAPES:
        before = None
        for n, (size, got) in measured(found, room, shape, words).items():
            new, old = got["new"], got.get("old")
            row(shape.__name__, f"{n:,}", size // 1024, seconds(old) if old else "", seconds(new), f"{old.times(new):.1f}" if old else "",
                f"{new.times(before):.2f}" if before else "", megabytes(new), f"{new.peak / size:.1f}", f"{new.times(got['sha256sum']):.1f}", ended(new))
            largest[shape.__name__], before = (size, got), new
    return largest


def show_largest(largest):
    """Time as times that of sha256sum, and memory as times the input."""
    table("shape, at the largest:", "old, times sha256sum", "new, times sha256sum", "old, times the input", "new, times the input")
    for name, (size, got) in largest.items():
        cells = []
        for figure in (lambda it: it.times(got["sha256sum"]), lambda it: it.peak / size):
            cells += [f"{figure(got[it]):.1f}" if it in got else "" for it in ("old", "new")]
        row(name, *cells)


def show_reading(found, room, count):
    """What `check` takes on module texts, and `print` on the same."""
    table("text:", "KB", "old check, s", "new check, s", "old / new", "new print, s", "print / check", "status:")
    text, path = f"{room}/text", f"{room}/bundle"
    for shape in [it for it in shapes.SHAPES if it is not shapes.overrides] + [shapes.annotations]:
        size = shapes.made(text, lambda: shapes.module(shape(READING)).encode())
        shapes.made(path, lambda: shapes.bundle({"a": shapes.module(shape(READING))}))
        commands = {name: ([program, "check", text],) for name, program in found.items()} | {"print": ([found["new"]], path)}
        got = measuring.rounds(commands, count)
        new, old, printed = got["new"], got.get("old"), got["print"]
        row(shape.__name__, size // 1024, seconds(old) if old else "", seconds(new), f"{old.times(new):.1f}" if old else "",
            seconds(printed), f"{printed.times(new):.2f}", ended(new) + ended(printed))


def main():
    parser = argparse.ArgumentParser()
    parser.add_argument("program")
    parser.add_argument("--old")
    parser.add_argument("--largest", type=int, default=128000)
    parser.add_argument("--rounds", type=int, default=measuring.ROUNDS)
    words = parser.parse_args()
    found = programs(words)
    with tempfile.TemporaryDirectory() as room:
        show_start_up(found, room, words.rounds)
        largest = show_growth(found, room, words)
        show_largest(largest)
        show_reading(found, room, words.rounds)


if __name__ == "__main__":
    main()
