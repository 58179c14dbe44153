#!/usr/bin/env python3
"""Refuses each request for memory in turn: the program's, and those of each call by itself.

tests/out-of-memory/run.py [PROGRAM [TESTS..]]: runs each job of a table with its first request for memory refused, then its second, and so on
until a run asks no further, each once alone and once with all requests after it. A run in which a request was refused ends with status 3, the
line `Memory` on standard error and nothing on standard output, also where there is another fault. A request is spared where the run goes on
without it and has the job's own answer. SPARED says how many of each job may be, and why; of any other job none may be, and a job that spares
fewer fails too. TESTS are the tests' programs: in each of their tests whose module's name begins with `memory_of_` the requests between the marks
are refused in the same way, none may be spared, and the test tells whether a call answered so. Without words it takes what `rt ci` built.
Needs Python 3 and a system that loads a library before a program (LD_PRELOAD); the compiler is the toolchain's.
"""
import collections
import itertools
import os
import subprocess
import sys
import tempfile

sys.dont_write_bytecode = True
HERE = os.path.dirname(os.path.abspath(__file__))
sys.path.insert(0, os.path.dirname(HERE))
from toolchain import EMPTY_SET, TOP, compiler

BUILT = ["rnc_merge/out/rnc_merge", "core_tests/out/core_tests_tests", "pipeline_tests/out/pipeline_tests_tests"]
FIRST_LINE = 'default namespace = ""\n'
WANT = (3, b"", b"Memory\n")
# The marks of the tests, in bytes.
MARKS = {"REFUSE_BEGIN": "7654321", "REFUSE_END": "7654322"}

# What was seen of a job: whether each run was as it must be, how many requests it makes, and how many of them it can spare.
Told = collections.namedtuple("Told", "is_well requests spared")


def schema(*lines):
    """The answer of a run that prints these lines behind the first one."""
    return 0, (FIRST_LINE + "".join(line + "\n" for line in lines)).encode(), b""


def refused(line, status=1):
    """The answer of a run with a fault."""
    return status, b"", (line + "\n").encode()


def halves(last):
    """Modules m0 to the last one, each of which includes the next twice."""
    modules = {f"m{i}": f'include "m{i + 1}" include "m{i + 1}"' for i in range(last)}
    modules["m0"] += " start = element r { y }"
    return {**modules, f"m{last}": "y |= text"}


# Sets by their modules' texts, and what is printed of each.
SETS = [
    (
        {"a": "start = doc doc |= element b { text }", "b": "doc |= element a { empty }"},
        schema("start = doc", "doc = element a { empty } | element b { text }"),
    ),
    (
        {"a": "start = element r { x } x &= element a { empty }", "b": "x &= element a { empty }"},
        schema("start = element r { x }", "x = element a { empty } & element a { empty }"),
    ),
    ({"a": "x = text", "b": "x = text start = x"}, refused("PlainTwice x")),
    ({"a": "x = text", "b": "x |= empty", "c": "x &= text"}, refused("MixedMethods x")),
    ({}, refused("NoStart")),
    (
        {"main": 'include "lib" include "lib" start = element r { y }', "lib": "y |= text"},
        schema("start = element r { y }", "y = text"),
    ),
    ({"a": "x = empty start = element r { x, (x | text)* }"}, schema("start = element r { (text?)* }")),
    ({"a": "start = a a = a | element x { empty }"}, refused("Recursive a")),
    ({"main": 'include "lib" { z = text } start = text', "lib": "y = empty"}, refused("Override main z")),
    ({"main": 'include "gone" start = text'}, refused('Missing main "gone"')),
    ({"a": 'include "a" start = text'}, refused("Cycle a")),
    (
        {"main": 'default namespace = "u" include "lib" start = p', "lib": "p = element p { empty }"},
        schema('namespace n1 = "u"', "start = p", "p = element n1:p { empty }"),
    ),
    ({"a": "start = text a = b"}, refused("Undefined b")),
    (
        {
            "a": "start = element r { attribute id { xsd:ID }?, (b & a)+ } a = element a { empty } "
            'b = element b { string - string "no" }'
        },
        schema(
            "start = element r { attribute id { xsd:ID }?, (a & b)+ }",
            "a = element a { empty }",
            'b = element b { string - string "no" }',
        ),
    ),
    ({"a": 'start = element r { """a"b\nc""" }'}, schema("start = element r { \"a\" ~ '\"' ~ \"b\\x{A}c\" }")),
    (
        {"a": 'datatypes d = "http://e/lib" start = element a { d:t { k = "v" } }'},
        schema('datatypes d1 = "http://e/lib"', 'start = element a { d1:t { k = "v" } }'),
    ),
    ({"a": "start = element a { attribute xmlns { text } }"}, refused("NameClass start")),
    (halves(8), schema("start = element r { y }", "y = text")),
    (halves(9), refused("Instances")),
]

# Texts of modules, and the answer of a check.
TEXTS = [
    (b"abc", refused("Syntax 3")),
    (b"start = element a { , }", refused("Syntax 20")),
    (b"", (0, b"", b"")),
    (b"start = " + 257 * b"(", refused("Deep 264")),
    (b"start = text\xff", refused("Encoding 12")),
    (b'start = "\\x{22}"', refused("Lexical 8")),
    (b"start = element p:a { text }", refused("Prefix 16")),
    (b'a = string - ("x"*)', refused("Except 11")),
]

DIGEST = "ba7816bf8f01cfea414140de5dae2223b00361a396177a9cb410ff61f20015ad"
ONE = f"rncset 1\nmodule t 7 3 {DIGEST}\nabc\nend 1\n".encode()
GONE = b"rncset 2\nwithdrawn t 6\nend 1\n"
BOTH = f"rncset 2\nwithdrawn t 6\nmodule t 7 3 {DIGEST}\nabc\nend 2\n".encode()

# Words with the bytes of the files named in them, and the answer.
JOBS = [
    (["pack", "t", "7", "text"], {"text": b"abc"}, (0, ONE, b"")),
    (["pack", "a b", "7", "text"], {"text": b"abc"}, refused("BadName")),
    (["withdraw", "t", "6"], {}, (0, GONE, b"")),
    (["join", "one", "gone"], {"one": ONE, "gone": GONE}, (0, BOTH, b"")),
    (["join", "one", "cut"], {"one": ONE, "cut": ONE[:-1]}, refused("bundle 1 Truncated")),
    (["list", "both"], {"both": BOTH}, (0, f"t 6 withdrawn\nt 7 3 {DIGEST}\n".encode(), b"")),
    (["print", "one", "none"], {"one": ONE}, refused("read 1", 3)),
    (["print", "-", "-"], {}, refused("usage: -", 2)),
    (["pack", "t", "07", "text"], {}, refused("usage: REV", 2)),
    (["zap"], {}, refused("usage", 2)),
    (["help"], {}, refused("usage", 2)),
    (["--help"], {}, refused("usage", 2)),
    (["print"], {}, refused("usage", 2)),
    (["print", "-x"], {}, refused("usage", 2)),
    (["print", "--help"], {}, refused("usage", 2)),
    (["pack", "t", "7"], {}, refused("usage", 2)),
    (["check", "one", "one"], {"one": ONE}, refused("usage", 2)),
]

# A file of 3 bytes is read into room for 8, and the rest is given back: where the system refuses to do that, the room stays.
OF_ROOM = "room of a short file that isn't given back"
# How many requests each job goes on without, and why.
SPARED = {"check text0": (1, OF_ROOM), "pack t 7 text": (1, OF_ROOM), "pack a b 7 text": (1, OF_ROOM)}


def run(words, room, shim, number, goes_on, marks):
    """The status, the output and the standard error of a run in a folder with a request refused, and what `refuse.c` tells of it."""
    reading, writing = os.pipe()
    environment = {**os.environ, **marks, "LD_PRELOAD": shim, "REFUSE": str(number), "REFUSE_TO": str(writing)}
    if goes_on:
        environment["REFUSE_ON"] = "1"
    ended = subprocess.run(words, cwd=room, env=environment, pass_fds=[writing], stdin=subprocess.DEVNULL, capture_output=True)
    os.close(writing)
    with os.fdopen(reading, "rb") as told:
        return (ended.returncode, ended.stdout, ended.stderr), told.read()


def tried(words, room, shim, is_own, is_want, goes_on, marks):
    """How many requests a job makes, how many of them it can spare, and what is wrong with the first run that isn't as it must be."""
    spared = 0
    for number in itertools.count(1):
        found, told = run(words, room, shim, number, goes_on, marks)
        if marks and told.replace(b"r", b"").replace(b"be", b""):
            return number, spared, f"the marks are not in pairs: {told}"
        if b"r" not in told:
            is_whole = is_own(found) and bool(told) == bool(marks)
            return number - 1, spared, None if is_whole else f"answered {found}, with the marks {told}"
        if is_own(found) and not goes_on:
            spared += 1
        elif not is_want(found):
            return number, spared, f"request {number}{' and all behind it' if goes_on else ''} refused: answered {found}"


def told(name, words, room, shim, is_own, is_want, marks, may_spare=0):
    """Tries a job in both ways and prints a line of it: how many requests it makes and spares, which are as many as it may, and whether each run was as
    it must be."""
    requests, spared, wrong = tried(words, room, shim, is_own, is_want, False, marks)
    wrong = wrong or tried(words, room, shim, is_own, is_want, True, marks)[2]
    if spared != may_spare:
        wrong = wrong or f"{spared} of {requests} requests are spared, not {may_spare}"
    print(f"{'FAILED ' if wrong else ''}{name}: {wrong or f'{requests} requests, {spared} of them spared'}", flush=True)
    return Told(not wrong, requests, spared)


def told_of_test(program, test, room, shim):
    """Tries a test of calls: it passes, and tells that a call was refused if a request was."""
    is_own = lambda found: found[0] == 0 and found[1].startswith(b"answered\n")
    is_want = lambda found: found[0] == 0 and found[1].startswith(b"refused\n")
    return told(test, [program, test], room, shim, is_own, is_want, MARKS)


def tests_of(program):
    """The names of the tests of calls whose requests for memory are refused."""
    listed = subprocess.run([program, "--list"], check=True, capture_output=True, text=True).stdout
    return [line.rsplit(": ", 1)[0] for line in listed.splitlines() if "::memory_of_" in f"::{line}"]


def bundle(program, room, name, modules):
    """Writes the bundle of modules into a file of this name, as the program makes it."""
    made = []
    for module, text in modules.items():
        with open(f"{room}/text", "w", encoding="utf-8", newline="") as out:
            out.write(text)
        made.append(f"{room}/{module}.set")
        with open(made[-1], "wb") as out:
            subprocess.run([program, "pack", module, "1", f"{room}/text"], stdout=out, check=True)
    if not made:
        with open(f"{room}/none.set", "wb") as out:
            out.write(EMPTY_SET.encode())
        made = [f"{room}/none.set"]
    with open(f"{room}/{name}", "wb") as out:
        subprocess.run([program, "join", *made], stdout=out, check=True)


def jobs(program, room):
    """The words and the answer of each job; what it reads is written into the folder before."""
    for number, (modules, wanted) in enumerate(SETS):
        bundle(program, room, f"set{number}", modules)
        yield ["print", f"set{number}"], wanted
    for number, (text, wanted) in enumerate(TEXTS):
        with open(f"{room}/text{number}", "wb") as out:
            out.write(text)
        yield ["check", f"text{number}"], wanted
    for words, files, wanted in JOBS:
        for name, content in files.items():
            with open(f"{room}/{name}", "wb") as out:
                out.write(content)
        yield words, wanted


def summed(of, found):
    """Prints how many requests there were of a kind."""
    print(f"{of}: {sum(it.requests for it in found)} requests, each refused in turn, {sum(it.spared for it in found)} of them spared")


def main():
    program, *tests = map(os.path.abspath, sys.argv[1:] or (f"{TOP}/crates/{built}" for built in BUILT))
    with tempfile.TemporaryDirectory() as room:
        shim = f"{room}/refuse.so"
        subprocess.run([compiler(), "-O1", "-shared", "-fPIC", "-nostdlib", "-fuse-ld=lld", "-o", shim, f"{HERE}/refuse.c"], check=True)
        of_jobs, of_tests = [], []
        for words, wanted in jobs(program, room):
            name = f"{' '.join(words)} {(wanted[1] or wanted[2]).decode().splitlines()[-1:]}"
            may_spare, _ = SPARED.get(" ".join(words), (0, None))
            of_jobs.append(told(name, [program, *words], room, shim, wanted.__eq__, WANT.__eq__, {}, may_spare))
        for of in tests:
            of_tests += [told_of_test(of, test, room, shim) for test in tests_of(of)]
    summed("the program", of_jobs)
    summed("calls by themselves", of_tests)
    well = [it.is_well for it in of_jobs + of_tests]
    print(f"{sum(well)} passed, {len(well) - sum(well)} failed")
    sys.exit(not all(well))


main()
