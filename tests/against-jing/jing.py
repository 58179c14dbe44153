"""Asks programs of Java's about schemas: jing, which reads the compact syntax, and others beside it."""
import concurrent.futures
import pathlib
import subprocess

HERE = pathlib.Path(__file__).resolve().parent
JARS = ":".join(f"/usr/share/java/{name}.jar" for name in ("jing", "trang", "xercesImpl", "xml-apis", "xml-resolver"))
PARSER = "-Dorg.apache.xerces.xni.parser.XMLParserConfiguration=org.apache.xerces.parsers.XIncludeParserConfiguration"
# How many programs run side by side.
JOBS = 2
# What stands for the answer to a line at which the program ended.
ENDED = "bad\t0:0 the program ended"


def run_on(words, lines):
    """A program's answers to lines, one for each. Where it ends at one, it is run again with those behind."""
    found = []
    while len(found) < len(lines):
        text = "".join(f"{line}\n" for line in lines[len(found):])
        ran = subprocess.run(words, input=text, stdout=subprocess.PIPE, stderr=subprocess.DEVNULL, text=True)
        found += ran.stdout.split("\n")[:-1]
        if len(found) < len(lines):
            found.append(ENDED)
    return found


def java(room, source, lines):
    """What a program of Java's answers to lines, a line for each. It is compiled in a folder."""
    if not lines:
        return []
    subprocess.run(["javac", "-cp", JARS, "-d", room, source], check=True)
    words = ["java", "-Xss256m", "-XX:+UseSerialGC", PARSER, "-cp", f"{room}:{JARS}", source.stem]
    found = [ENDED] * len(lines)
    with concurrent.futures.ThreadPoolExecutor(JOBS) as pool:
        parts = pool.map(lambda at: run_on(words, lines[at::JOBS]), range(JOBS))
        for at, part in enumerate(parts):
            found[at::JOBS] = part
    return found


def answers(room, paths):
    """What jing says of each schema: whether it takes it, and then its documents, or its errors. A path may have a tab and a folder behind it, as
    Jing.java says."""
    answered = [line.split("\t", 1) for line in java(room, HERE / "Jing.java", paths)]
    return {path: (word == "good", rest) for path, (word, rest) in zip(paths, answered, strict=True)}
