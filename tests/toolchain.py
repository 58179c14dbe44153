"""What the scripts ask of the toolchain and of crates.txt, and programs that are taken while the toolchain runs them, compiled with checks and not proved."""
import contextlib
import glob
import os
import shutil
import signal
import subprocess
import time

TOP = os.path.dirname(os.path.dirname(os.path.abspath(__file__)))
EMPTY_SET = "rncset 1\nend 0\n"
# A program is run on so many cases that it is there for long enough to be taken.
CASES = 40


def kit():
    """The toolchain's folder, where its first page is."""
    return os.path.dirname(subprocess.run(["rt", "doc"], check=True, capture_output=True, text=True).stdout.strip())


def compiler():
    """The C compiler of the toolchain."""
    return f"{kit()}/toolchain/bin/clang"


def libraries(top=TOP):
    """The libraries that each crate of a checkout uses, in the order of crates.txt."""
    with open(f"{top}/crates.txt", encoding="utf-8") as file:
        lines = [line.partition(":") for line in file]
    return {name: used.split() for name, _, used in lines}


def copy_crates(top, room):
    """Copies the crates of a checkout into a folder, without what proves them."""
    shutil.copy(f"{top}/crates.txt", room)
    shutil.copytree(f"{top}/crates", f"{room}/crates", ignore=shutil.ignore_patterns("out", "proofs"))


def start(words, **how):
    """Starts a command that is given nothing."""
    return subprocess.Popen(words, stdin=subprocess.DEVNULL, **how)


def write_cases(folder):
    """Writes the cases on which a program is run."""
    os.mkdir(folder)
    for number in range(CASES):
        with open(f"{folder}/{number:02}", "w") as it:
            it.write(EMPTY_SET)


def end_advice(trying):
    """Ends the check that `rt try` runs beside the compiler for a word of advice, since that takes a processor and as much memory as the compiler."""
    with contextlib.suppress(OSError), open(f"/proc/{trying.pid}/task/{trying.pid}/children") as children:
        for it in children.read().split():
            with contextlib.suppress(OSError), open(f"/proc/{it}/cmdline", "rb") as words:
                if b"\0check\0" in words.read():
                    os.kill(int(it), signal.SIGKILL)


def taken(room, crate, pattern, take, start=start):
    """Has the toolchain compile and run a program of the copied crates, and meanwhile calls `take` on the files of a pattern, until one is taken. Answers
    its path, or None, and what was said."""
    own, cases, to = (f"{room}/{crate}.{it}" for it in ("tmp", "cases", "taken"))
    os.mkdir(own)
    write_cases(cases)
    with open(f"{room}/{crate}.said", "wb") as said:
        how = {"cwd": f"{room}/crates/{crate}", "env": {**os.environ, "TMPDIR": own}}
        running = start(["rt", "try", "--cases", cases], stdout=said, stderr=said, **how)
        while running.poll() is None and not os.path.exists(to):
            end_advice(running)
            for found in glob.glob(f"{own}/{pattern}", recursive=True):
                take(found, to)
            time.sleep(0.02)
        running.terminate()
        running.wait()
    with open(f"{room}/{crate}.said", errors="replace") as it:
        return to if os.path.exists(to) else None, it.read()
