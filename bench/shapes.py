"""Module sets of growing size, and how they are put into files."""
import hashlib
import os
import sys


def bundle(modules):
    """The bundle of module texts by name."""
    out = [b"rncset 1\n"]
    for name in sorted(modules):
        text = modules[name].encode()
        digest = hashlib.sha256(text).hexdigest()
        out.append(b"module %s 1 %d %s\n%s\n" % (name.encode(), len(text), digest.encode(), text))
    out.append(b"end %d\n" % len(modules))
    return b"".join(out)


def references(n):
    """n elements, each of which refers to two others, in four modules."""
    lines = [f"d{i} = element e{i} {{ attribute a {{ text }}?, (d{(i + 1) % n} | d{(7 * i) % n})* }}" for i in range(n)]
    modules = {f"m{j}": "\n".join(lines[j::4]) for j in range(4)}
    modules["driver"] = "start = d0"
    return modules


def choice(n):
    """One name, combined from n definitions."""
    return {"a": "start = x\n" + "\n".join(f"x |= element e{i} {{ empty }}" for i in range(n))}


def chain(n):
    """n definitions, each a reference to the next."""
    lines = [f"d{i:06} = d{i + 1:06}" for i in range(n - 1)]
    return {"a": "start = d000000\n" + "\n".join(lines) + f"\nd{n - 1:06} = text"}


def groups(n):
    """A group of n members."""
    body = ", ".join(f"d{i}" for i in range(n))
    return {"a": f"start = element r {{ {body} }}\n" + "\n".join(f"d{i} = text" for i in range(n))}


def interleaves(n):
    """An interleave of n members."""
    body = " & ".join(f"d{i}" for i in range(n))
    return {"a": f"start = element r {{ {body} }}\n" + "\n".join(f"d{i} = text" for i in range(n))}


def overrides(n):
    """200 modules of n / 200 definitions, all but one included by a driver that overrides one definition of each."""
    count = max(n // 200, 1)
    modules = {}
    driver = ["start = element r { " + ", ".join(f"m{j}.d0" for j in range(200)) + " }"]
    for j in range(200):
        lines = [f"m{j}.d{i} = element e{i} {{ m{j}.d{(i + 1) % count}? }}" for i in range(count)]
        modules[f"m{j}"] = "\n".join(lines)
        driver.append(f'include "m{j}" {{ m{j}.d0 = element o{j} {{ m{j}.d{count - 1}? }} }}')
    modules["driver"] = "\n".join(driver)
    return modules


def literals(n):
    """One element of ten literals whose texts have 4 n bytes together."""
    body = " | ".join('"' + (chr(97 + i) * (4 * n // 10)) + '"' for i in range(10))
    return {"a": f"start = element r {{ {body} }}"}


def annotations(n):
    """n definitions of elements, each with annotations."""
    line = '## it\nd{0} = [ x:y = "z" ] element e{0} {{ attribute a {{ text }}?, text }}'
    return {"a": 'namespace x = "urn:x"\nstart = d0\n' + "\n".join(line.format(i) for i in range(n))}


SHAPES = [references, choice, chain, groups, interleaves, overrides, literals]


def module(modules):
    """The texts of a set in one text, which means the same where none includes another."""
    return "\n".join(modules[name] for name in sorted(modules, reverse=True))


def made(path, content):
    """Writes what a call answers to a file in a process of its own, so that this one stays small, and answers its length."""
    child = os.fork()
    if child == 0:
        status = 1
        try:
            with open(path, "wb") as out:
                out.write(content())
            status = 0
        finally:
            os._exit(status)
    if os.waitstatus_to_exitcode(os.waitpid(child, 0)[1]) != 0:
        sys.exit(f"{path} could not be made")
    return os.path.getsize(path)
