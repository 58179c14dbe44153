#!/usr/bin/env python3
"""Tries wrong bodies, which the prover must refuse, function by function.

tests/wrong-bodies/run.py [CRATE..]: tries those of these crates, or of all. A crate is checked with wrong bodies of many functions at once, since the
prover tells of each function by itself whether it is proved. Each must be refused at a goal of its own, and nothing else may be refused. All other
functions have no body there and are taken by their contracts. The next body of a function is tried in a further check, over what is kept of the earlier
ones. The crates stand on the libraries in crates/*/out, as `rt ci` leaves them in a clean checkout.
tests/wrong-bodies/run.py --stand: only looks whether each text that they change stands once in its file, and the function too.
tests/wrong-bodies/run.py --beside LOG [CRATE..]: the same as with no word, while `rt ci` still runs and writes LOG: a crate is tried once LOG says that the
libraries which it uses are proved.

A wrong body is a file with a line `file:` and a line `function:`, where it is and which function must not be proved, and one or more pairs of
lines `old:` and `new:`, each of which changes what the earlier ones made; `⏎` in them is a line end. It is refused by the function's contract, not
for its safety alone: what the function ensures, or an invariant from which that follows, must be open.
"""
import collections
import concurrent.futures
import os
import re
import sys
import tempfile
import threading
import time

sys.dont_write_bytecode = True
from told import judged, said_of, strange_in
from trial import HERE, TOP, checked, command, libraries, others_in_cycles

WrongBody = collections.namedtuple("WrongBody", "crate name file function changes")


def read_body(crate, name):
    """The wrong body of a file, or None where that has other lines."""
    with open(f"{HERE}/{crate}/{name}", encoding="utf-8") as file:
        lines = [line.rstrip("\n").partition(":") for line in file]
    keys, texts = [key for key, _, _ in lines], [text[1:] for _, _, text in lines]
    texts = [text.replace("⏎", "\n") for text in texts]
    pairs = tuple(zip(texts[2::2], texts[3::2]))
    good = pairs and keys == ["file", "function", *["old", "new"] * len(pairs)]
    return WrongBody(crate, os.path.splitext(name)[0], *texts[:2], pairs) if good else None


def text_of(body):
    """The text of the file that a wrong body changes."""
    with open(f"{TOP}/crates/{body.crate}/{body.file}", encoding="utf-8") as file:
        return file.read()


def changed(text, body):
    """The text with the wrong body in it, or None where an old text doesn't stand in it once or stays."""
    for old, new in body.changes:
        if text.count(old) != 1 or old == new:
            return None
        text = text.replace(old, new)
    return text


def bodies_of(crate):
    """The wrong bodies of a crate that can be tried, and how many can't, which are told."""
    names = sorted(os.listdir(f"{HERE}/{crate}"))
    found = [read_body(crate, name) for name in names]
    good = [body for body in found if body and is_there(body, text_of(body)) and changed(text_of(body), body)]
    for name in {*names} - {f"{body.name}.edit" for body in good}:
        print(f"{crate}/{name}: it changes no function, one that its file does not have, or a text that does not stand once there, or in another function")
    return good, len(names) - len(good)


def is_there(body, text):
    """Whether the text of its file has the function of a wrong body, and what is changed first is in no other one. A closure, or what the toolchain
    makes of a call in it, has no text of its own."""
    if "::fn::" in body.function:
        return True
    names = {name for begin, end, name in functions_in(text) if begin <= text.find(body.changes[0][0]) <= end}
    name = body.function.rpartition("::")[2]
    return re.search(rf"\bfn {re.escape(name)}\b", text) is not None and (not names or name in names)


def functions_in(text):
    """Where the functions of a text begin and end, as `rt fmt` leaves them, and their names."""
    for head in re.finditer(r"(?m)^( *)(?:pub(?:\(\w+\))? )?(?:const )?fn (\w+)", text):
        end = text.find(f"\n{head[1]}}}\n", head.start())
        yield head.start(), end if end >= 0 else len(text), head[2]


def edited(bodies):
    """The texts of files with wrong bodies in them, and those bodies: one whose old text doesn't stand once beside the others is left out."""
    texts, tried = {}, []
    for body in bodies:
        text = changed(texts.get(body.file) or text_of(body), body)
        if text:
            texts[body.file] = text
            tried.append(body)
    return texts, tried


def one_each(bodies):
    """The first wrong body of each function."""
    return [*{body.function: body for body in reversed(bodies)}.values()]


def try_some(bodies, kept, words):
    """Tries wrong bodies in one check, and returns what is known of them then: nothing, where that speaks of other functions or of none."""
    crate, (texts, tried) = bodies[0].crate, edited(bodies)
    lines = checked(crate, texts, [body.function for body in tried], kept, words)
    said = said_of(lines, others_in_cycles(crate))
    found, strange = judged(tried, said), strange_in(tried, said, lines)
    if not said or strange or not found:
        print("\n".join([f"{crate}: the check tells nothing of the wrong bodies:", *[it[:160] for it in sorted(strange)], *lines[:6]]), flush=True)
        return {}
    for body, (is_refused, why) in found.items():
        print(f"{crate}/{body.name}: {'refused' if is_refused else 'NOT REFUSED'}: {why[:160]}", flush=True)
    return found


def try_all(bodies, jobs):
    """Tries the wrong bodies of a crate, and returns how many were refused and how many were not."""
    words, refused, left = [*command(bodies[0].crate), "--jobs", str(jobs)], 0, bodies
    with tempfile.TemporaryDirectory() as kept:
        while left:
            found = try_some(one_each(left), kept, words)
            if not found:
                break
            refused += sum(is_refused for is_refused, _ in found.values())
            left = [body for body in left if body not in found]
    return refused, len(bodies) - refused


def proved_by(log):
    """The crates that a log of `rt ci` says are proved."""
    with open(log, encoding="utf-8", errors="replace") as file:
        return {*re.findall(r"^rt: (\w+) (?:proved|is kept)", file.read(), re.M)}


class Waiting:
    """The wrong bodies of crates that wait to be tried, in order."""

    def __init__(self, bodies, log):
        self.bodies, self.log, self.lock = bodies, log, threading.Lock()

    def take(self):
        """The wrong bodies of the first crate whose libraries are proved, and how many still wait; or none, where the first of all must wait."""
        used = libraries()
        with self.lock:
            proved = proved_by(self.log) if self.log else used
            ready = [crate for crate in self.bodies if {*used[crate]} & {*used} <= {*proved}]
            return (self.bodies.pop(ready[0]) if ready else [], len(self.bodies))


def try_in_turn(waiting, lanes):
    """Tries those of one crate after another until none waits, and returns how many were refused and how many were not. The last has all lanes."""
    refused, failed, left = 0, 0, 1
    while left:
        bodies, left = waiting.take()
        if bodies:
            more = try_all(bodies, 1 if left else lanes)
            refused, failed = refused + more[0], failed + more[1]
        elif left:
            time.sleep(1)
    return refused, failed


def main(words):
    """Looks at the wrong bodies, tries them, and returns the status."""
    only_look, log = words[:1] == ["--stand"], words[1] if words[:1] == ["--beside"] else None
    names = words[2 if log else 1 if only_look else 0 :]
    # (in the order of crates.txt, so that what others stand on comes first)
    crates = names or [name for name in libraries() if os.path.isdir(f"{HERE}/{name}")]
    found = {crate: bodies_of(crate) for crate in crates}
    good, bad = sum(len(bodies) for bodies, _ in found.values()), sum(lost for _, lost in found.values())
    print(f"wrong bodies: {good} can be tried, {bad} cannot")
    if bad or only_look:
        return 1 if bad else 0
    lanes, waiting = len(os.sched_getaffinity(0)), Waiting({crate: bodies for crate, (bodies, _) in found.items()}, log)
    with concurrent.futures.ThreadPoolExecutor(lanes) as pool:
        results = [*pool.map(lambda _: try_in_turn(waiting, lanes), range(lanes))]
    failed = sum(it for _, it in results)
    print(f"{sum(it for it, _ in results)} passed, {failed} failed")
    return 1 if failed else 0


if __name__ == "__main__":
    sys.exit(main(sys.argv[1:]))
