"""Functions whose bodies a trial needs no more: each has a loop for its body and a hole for its proof, so that it is taken by its contract."""
import collections
import os
import re

PROOF_FILES = {"Answers.antt", "Invariants.antt", "Proof.antt"}
# The first line of a function, as `rt fmt` leaves it: its indent, whether constants may need its body, and its name.
FUNCTION = re.compile(r"( *)(?:pub(?:\(\w+\))? )?(const )?fn (\w+)")
# The first line of a block that isn't of a trait, and its type; and that of a type.
OF_TYPE = re.compile(r"impl(?:<[^>]*>)? (\w+)(?:<[^>]*>)? \{")
TYPE = re.compile(r"^(?:pub(?:\(\w+\))? )?(?:struct|enum) (\w+)", re.M)


def body_of(lines, at):
    """The lines of the brackets around the body of the function that begins at a line; none where the body is on one line."""
    indent = FUNCTION.match(lines[at])[1]
    ends_head = lambda line, number: line.endswith(" {") and (number == at or line.startswith(f"{indent})"))
    opens = (number for number in range(at, len(lines)) if lines[number] == indent + "{" or ends_head(lines[number], number))
    begin = next(opens, len(lines))
    end = next((number for number in range(begin, len(lines)) if lines[number] == indent + "}"), None)
    heads = [line for line in lines[at + 1 : begin] if FUNCTION.match(line)]
    return None if heads or end is None else (begin, end)


def places_of(lines, module, homes):
    """The path of what each line is in: a module, a type with methods of its own, or None in another block. The homes of a type's name are the
    modules where there is one."""
    places, place = [], module
    for line in lines:
        if re.match(r"(?:pub )?(?:impl|trait|mod)\b.*\{$", line):
            of_type = OF_TYPE.match(line)
            its = homes[of_type[1]] if of_type else []
            place = [*its[0], of_type[1]] if len(its) == 1 else None
        places.append(place)
        place = module if line == "}" else place
    return places


def without_bodies(text, module, homes, is_kept):
    """The text of a module with a loop for the body of each function that isn't kept, and the paths of those. A function of a trait's block keeps
    its body, and so does one whose body is on one line. The attributes of the others, which are for their proofs, go too."""
    lines, paths = text.split("\n"), []
    places = places_of(lines, module, homes)
    found = [(at, FUNCTION.match(line)) for at, line in enumerate(lines) if FUNCTION.match(line)]
    for at, (indent, is_constant, name) in ((at, function.groups()) for at, function in reversed(found)):
        body = body_of(lines, at)
        if is_constant or not body or places[at] is None or is_kept([*places[at], name]):
            continue
        lines[body[0] + 1 : body[1]] = [f"{indent}    loop {{}}"]
        paths.append([*places[at], name])
        while re.match(r" *#\[", lines[at - 1]):
            at -= 1
            del lines[at]
    return "\n".join(lines), paths


def leave_hole(crate, room, path):
    """Leaves a proof with a hole for the function of a path, in place of its proof files."""
    folder, place = "/".join([room, "proofs", *path]), ".".join(["Rattle", crate, "proofs", *path, "Statement"])
    os.makedirs(folder, exist_ok=True)
    clear(folder)
    with open(f"{folder}/Proof.antt", "w", encoding="utf-8") as file:
        file.write(f"use {place}.{{statement}}\n\npub {path[-1]}_spec : {{M : Type 1}} → statement M\n{path[-1]}_spec = ?\n")


def clear(folder):
    """Removes the proof files of a folder."""
    for name in PROOF_FILES & {*os.listdir(folder)}:
        os.remove(f"{folder}/{name}")


def sources(room):
    """The files below `src` of a crate, each with the path of its module and its text."""
    for at, _, names in os.walk(f"{room}/src"):
        for name in names:
            module = os.path.relpath(f"{at}/{name}", f"{room}/src").removesuffix(".rt").split("/")
            with open(f"{at}/{name}", encoding="utf-8") as file:
                yield f"{at}/{name}", [] if module in (["lib"], ["main"]) else module, file.read()


def homes_in(files):
    """The modules where there is a type of a name, by that name."""
    homes = collections.defaultdict(list)
    for _, module, text in files:
        for name in TYPE.findall(text):
            homes[name].append(module)
    return homes


def take_bodies_out(crate, room, is_kept):
    """Takes the bodies out of the functions of a crate that aren't kept, and leaves a hole for the proof of each. Another one that has proof files
    and isn't kept has a hole too, and a cycle of calls of which no function is kept has no proof any more."""
    for at, _, names in os.walk(f"{room}/proofs"):
        path = os.path.relpath(at, f"{room}/proofs").split("/")
        if PROOF_FILES & {*names} and not is_kept(path):
            clear(at) if path[-1].startswith("+") else leave_hole(crate, room, path)
    files = [*sources(room)]
    homes = homes_in(files)
    for place, module, text in files:
        text, paths = without_bodies(text, module, homes, is_kept)
        with open(place, "w", encoding="utf-8") as file:
            file.write(text)
        for path in paths:
            leave_hole(crate, room, path)
