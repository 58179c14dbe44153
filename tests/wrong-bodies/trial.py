"""One check of a copy of a crate with wrong bodies in it. Only their functions are proved, and each other one is taken by its contract."""
import collections
import os
import re
import shutil
import subprocess
import sys
import tempfile

HERE = os.path.dirname(os.path.abspath(__file__))
sys.path.insert(0, os.path.dirname(HERE))
from stubs import take_bodies_out
from toolchain import TOP, kit, libraries

PARTS = ("src", "specs", "proofs")
# A function in a cycle of calls, which has one proof.
IN_CYCLE = re.compile(r"#\[cycle\((\w+)\)\](?:\s*#\[[^\]]*\])*\s*(?:pub(?:\(\w+\))? )?fn (\w+)")


def command(crate):
    """The words of a check of the crate, in its folder."""
    folder, used = kit(), libraries()
    built = [f"{TOP}/crates/{library}/out/rlib" for library in used]
    root = "src/main.rt" if os.path.isfile(f"{TOP}/crates/{crate}/src/main.rt") else "src/lib.rt"
    words = [f"{folder}/bin/rattle", "check", "--crate-name", crate, root, "--extern", f"std={folder}/rlibs/std.rlib"]
    for library in used[crate]:
        place = f"{TOP}/crates/{library}/out/rlib" if library in used else f"{folder}/rlibs"
        words += ["--extern", f"{library}={place}/{library}.rlib"]
    for place in [f"{folder}/rlibs", *built]:
        words += ["-L", f"dependency={place}"] if os.path.isdir(place) else []
    return [*words, "--antt-project", f"{folder}/rattle/logic/antt-project.json", "--logic-built", f"{folder}/logic_built", "--links", f"{crate}="]


def cycles(crate):
    """The cycles of calls that functions of a name are in, by their module and that name."""
    found = collections.defaultdict(set)
    for at, _, names in os.walk(f"{TOP}/crates/{crate}/src"):
        for name in names:
            with open(f"{at}/{name}", encoding="utf-8") as file:
                for cycle, one in IN_CYCLE.findall(file.read()):
                    found[os.path.splitext(name)[0], one].add(cycle)
    return dict(found)


def others_in_cycles(crate):
    """The names of the other functions in the cycles of calls that functions of a name are in, by that name."""
    its, others = cycles(crate), collections.defaultdict(set)
    for (_, one), around in its.items():
        others[one].update({other for (_, other), of in its.items() if of & around} - {one})
    return others


def cycles_of(path, its):
    """The cycles of calls that the function of a path may be in. A method's path is that of its type, which may be in another module: it goes by its
    name there."""
    if (path[0], path[-1]) in its:
        return its[path[0], path[-1]]
    return set().union(*(around for (_, one), around in its.items() if one == path[-1])) if len(path) > 2 else set()


def kept_for(crate, functions):
    """Says of a path whether it is that of one of these functions, or of a cycle of calls that one is in, or of a function in such a cycle."""
    paths, its = [function.split("::")[1:] for function in functions], cycles(crate)
    around = set().union(*(cycles_of(path, its) for path in paths))
    names = {f"+{cycle}" for cycle in around}
    return lambda path: path in paths or path[-1] in names or bool(cycles_of(path, its) & around)


def checked(crate, texts, functions, kept, words):
    """The lines of a check of these functions, in a copy of the crate with these texts in it, over what earlier checks kept."""
    only = [word for function in functions for word in ("--only", function.partition("::")[2])]
    with tempfile.TemporaryDirectory() as room:
        for part in PARTS:
            if os.path.isdir(f"{TOP}/crates/{crate}/{part}"):
                shutil.copytree(f"{TOP}/crates/{crate}/{part}", f"{room}/{part}")
        for path, text in texts.items():
            with open(f"{room}/{path}", "w", encoding="utf-8") as file:
                file.write(text)
        take_bodies_out(crate, room, kept_for(crate, functions))
        how = {"cwd": room, "stdin": subprocess.DEVNULL, "stdout": subprocess.PIPE, "stderr": subprocess.STDOUT, "text": True}
        return subprocess.run([*words, "--allow-holes", *only, "--incremental", kept], **how).stdout.split("\n")
