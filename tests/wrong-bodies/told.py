"""What a check with holes tells of wrong bodies: for each whether it was refused, and what shows that a check says nothing of them.

A function whose proof is a hole is taken by its contract, so the open goals of one that calls it speak of that one's own body. Where a function that
is called was refused in the same check, goals of its caller may go untold: then the caller is tried once more.
"""
import collections
import re

# What is said at a proof file that names what the wrong body took away, or that is for another form of body: that speaks of no contract.
NAME_LOST = re.compile(r"has no field|is not in scope|has no `|was not admitted|rattle does not read")
# The name of a goal of the contract: of what the function ensures, or of an invariant of a loop or of a type.
OF_CONTRACT = re.compile(r"`(?:[\w:+]*-)?(?:returns|loop-|invariant_of-)|`[\w:+-]*-(?:preserved|init)\b")
# What is said of a function that has no open goal: it is proved, or what it calls stands on a hole. (A closure is proved where its callers give
# what it asks, and is told so.)
PROVED = re.compile(r"proved|no holes|depends on a hole in ")
# What is said of a function whose goals have answers, but for some that the search must find.
UNFOUND = re.compile(r"`search` did not prove ((?:`[\w:+-]+`(?:, | and )?)+)")
# What is said of a function that calls some which aren't proved.
CALLS = re.compile(r"it calls (`.*?`), which (?:is|are) not proved|a call of (`[^`]*`), which has no proof")

# What a check says of a function: whether it is proved but for holes, which functions it calls that aren't, and its own goals that stay open.
Said = collections.namedtuple("Said", "is_proved calls goals")


def called_in(answer):
    """The functions that an answer says are called and aren't proved."""
    return {name for found in CALLS.findall(answer) for text in found for name in re.findall(r"`([^`]*)`", text)}


def place_of(error):
    """The function, without its crate, at whose proof files an error is, or "" where it is at another file. In the proof of a cycle each goal has
    the name of its function before it, with its path where that isn't the place of the proof."""
    at = re.match(r"\./proofs/(\S*?)(\+[^/]+/)?(?:Answers|Invariants|Proof)\.antt\S* error: `?([^`-]*)", error)
    if not at:
        return ""
    folder, in_cycle, goal = at.groups()
    if not in_cycle:
        return folder.rstrip("/").replace("/", "::")
    return goal if "::" in goal else folder.replace("/", "::") + goal


def errors_of(lines):
    """The errors of a check, each with the lines right below that go on with it."""
    found, goes_on = [], False
    for line in lines:
        if re.match(r"(?:\./)?(?:proofs|specs|src)/\S+ error: |error", line):
            found.append(line)
            goes_on = True
        elif goes_on and line.startswith("  "):
            found[-1] += line
        else:
            goes_on = False
    return found


def own_goals(function, notes, errors, others):
    """The open goals of a function: those in the notes above its line, where a cycle of calls has the goals of all, and the errors at its proof files."""
    names = "|".join(others[function.rpartition("::")[2]])
    beside = re.compile(rf"\(`(?:[\w:]*::)?(?:{names or '(?!)'})-")
    at_proofs = [error for error in errors if place_of(error) == function.partition("::")[2] and not NAME_LOST.search(error)]
    return [*(note for note in notes if not beside.search(note)), *at_proofs]


def unfound_goals(function, answer, others):
    """The goals of the contract that the search must find beside answers, and didn't. In a cycle of calls an answer speaks of all its functions."""
    if others[function.rpartition("::")[2]]:
        return []
    return [goals for goals in UNFOUND.findall(answer) if OF_CONTRACT.search(goals)]


def told_of(lines, others):
    """What the lines of a check tell of each function."""
    errors, said, notes = errors_of(lines), {}, []
    for line in lines:
        told = re.match(r"fn (\S+): (.*)", line)
        if told:
            function, answer = told.groups()
            goals = [*own_goals(function, notes, errors, others), *unfound_goals(function, answer, others)]
            said[function] = Said(bool(PROVED.match(answer)) and not goals, called_in(answer), goals)
        is_open = re.match(r"note: src/\S+ it is not proved", line)
        notes = [*notes, line] if is_open else [] if told else notes
    return said


def said_of(lines, others):
    """What a check says of each function. One that has no open goal in a cycle where another has one stands on that one, as one that calls it."""
    said = told_of(lines, others)
    with_goals = collections.defaultdict(set)
    for function, it in said.items():
        if it.goals:
            with_goals[function.rpartition("::")[2]].add(function)
    for function, it in said.items():
        if not it.is_proved and not it.goals:
            beside = {name for other in others[function.rpartition("::")[2]] for name in with_goals[other]}
            said[function] = it._replace(calls=it.calls | beside)
    return said


def stands_on(function, said):
    """The functions that this one calls and that aren't proved, and those that they call."""
    seen, left = set(), [function]
    while left:
        at = said.get(left.pop())
        new = at.calls - seen if at else set()
        seen |= new
        left += new
    return seen - {function}


def judged(tried, said):
    """What is known of the wrong bodies that were tried: whether each was refused, with what tells it. One that has no open goal and stands on
    another that was tried is left out: it must be tried without it."""
    found, functions = {}, {body.function for body in tried}
    for body in tried:
        it = said.get(body.function)
        if it is None:
            found[body] = False, "the check does not tell of the function"
        elif it.goals:
            of_contract = [goal for goal in it.goals if OF_CONTRACT.search(goal)]
            found[body] = bool(of_contract), (of_contract or it.goals)[0]
        elif it.is_proved or not stands_on(body.function, said) & functions:
            found[body] = False, "it is still proved" if it.is_proved else "no goal of the function is open"
    return found


def strange_in(tried, said, lines):
    """What the lines of a check tell that wrong bodies cannot make so: another function with an open goal or with no proof, and an error at a file
    that isn't of the proof of a function with one."""
    functions = {body.function for body in tried}
    others = [name for name, it in said.items() if name not in functions and (it.goals or not (it.is_proved or it.calls))]
    places = {name.partition("::")[2] for name in functions}
    return [*others, *(error for error in errors_of(lines) if place_of(error) not in places)]
