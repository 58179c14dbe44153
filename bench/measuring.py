"""Commands measured in rounds: seconds by the clock, and the peak of memory.

With BENCH_CLOCK=processor in the environment, seconds are those of the processor, for a machine that is busy.
In each round every command runs once, one after the other, so that a machine that is busier for a while is so for all of them. What counts is the
median of the rounds: of a figure, or of the ratios of two figures of one round. Peaks are those of the commands alone where GNU time is there (/usr/bin/time), and else hold what this process has itself.
"""
import dataclasses
import os
import resource
import statistics
import subprocess
import tempfile
import time

GNU_TIME = "/usr/bin/time"
ON_PROCESSOR = os.environ.get("BENCH_CLOCK") == "processor"
ROUNDS = 5
# Of a run that takes longer than this, one is enough.
LONG = 20


@dataclasses.dataclass(frozen=True)
class Run:
    seconds: float
    peak: int  # bytes
    status: int  # negative: ended by that signal
    said: str  # the first line on standard error


def limited(memory):
    """What sets the limit of memory of a command, in bytes, before it begins."""
    return lambda: resource.setrlimit(resource.RLIMIT_AS, (memory, memory))


def run(words, given=None, memory=None):
    """Runs a command once, with a file as its standard input, and with as much memory at most."""
    with tempfile.NamedTemporaryFile("r") as peak, open(given or os.devnull, "rb") as stdin, open(os.devnull, "wb") as nowhere:
        is_timed = os.path.exists(GNU_TIME)
        front = [GNU_TIME, "-q", "-f", "%M", "-o", peak.name] if is_timed else []
        how = {"preexec_fn": limited(memory)} if memory else {}
        begin = time.perf_counter()
        child = subprocess.Popen([*front, *words], stdin=stdin, stdout=nowhere, stderr=subprocess.PIPE, **how)
        said = child.stderr.read().decode("utf-8", "replace")
        _, status, usage = os.wait4(child.pid, 0)
        seconds = time.perf_counter() - begin
        child.returncode = os.waitstatus_to_exitcode(status)
        kilobytes = int((peak.read().split() or ["0"])[-1]) if is_timed else usage.ru_maxrss
    processor = usage.ru_utime + usage.ru_stime
    return Run(processor if ON_PROCESSOR else seconds, kilobytes * 1024, child.returncode, said.split("\n")[0])


@dataclasses.dataclass(frozen=True)
class Runs:
    """The runs of a command, one for each round, or one alone where it takes long."""
    each: tuple

    @property
    def seconds(self):
        return statistics.median(it.seconds for it in self.each)

    @property
    def peak(self):
        return statistics.median(it.peak for it in self.each)

    @property
    def status(self):
        return self.each[0].status

    @property
    def said(self):
        return self.each[0].said

    def times(self, other):
        """How many times the seconds of another command's runs these take: the median of the rounds' ratios."""
        return statistics.median(it.seconds / that.seconds for it, that in zip(self.each, other.each))


def rounds(commands, count=ROUNDS):
    """The runs of commands, each of them a list of words, a file for its standard input or None, and a limit of memory or None, by their names."""
    runs = {name: [] for name in commands}
    for _ in range(count):
        for name, words in commands.items():
            if not runs[name] or runs[name][0].seconds < LONG:
                runs[name].append(run(*words))
    return {name: Runs(tuple(found)) for name, found in runs.items()}


def seconds(it):
    return f"{it.seconds:.3f}" if it.seconds < 10 else f"{it.seconds:.1f}"


def megabytes(it):
    return f"{it.peak / 1e6:.0f}"


def ended(it):
    """How a run ended where it isn't by status 0."""
    return "" if it.status == 0 else f" {it.said or it.status}"


def row(*cells):
    print("| " + " | ".join(str(cell) for cell in cells) + " |", flush=True)


def table(*heads):
    """The head of a table; a head that ends in `:` is of a column of texts."""
    print()
    row(*(head.rstrip(":") for head in heads))
    print("|" + "|".join("---" if head.endswith(":") else "---:" for head in heads) + "|", flush=True)
