"""Trees of files drawn at random: grammars, patterns and what grammars include, in folders, referring to one another."""
import collections
import dataclasses
import os
import random
import urllib.parse

import meaning
import writing
import writing_xml
from drawing import BAD_PATTERNS, Drawer, declared, kinds_of, weighted, without_start
from schema import Chain, Data, Define, Div, External, Include, Nested, Parent, Ref, Type, Word

FOLDERS = ["", "", "in", "in/deep", "in/deep/er", "of a team", "é"]
STARTS = [(6, "particle"), (2, "data"), (2, "attributes")]


class Tree:
    """Files by path, the main one first. A file refers to later ones only, unless something is damaged."""

    def __init__(self, rng):
        self.rng = rng
        self.kinds = kinds_of(rng)
        may_mix = {key for key, kind in self.kinds.items() if kind != "data"}
        self.methods = {key: rng.choice(["|=", "&="]) if key in may_mix else "|=" for key in ["start", *self.kinds, "o"]}
        self.files, self.roles = {}, {}
        self.paths = [os.path.join(rng.choice(FOLDERS), f"f{at}.rnc") for at in range(rng.randint(2, 6))]
        for at in reversed(range(len(self.paths))):
            self.draw(at)

    def draw(self, at):
        path, rng = self.paths[at], self.rng
        role = "grammar" if at == 0 else weighted(rng, [(4, "module"), (3, "grammar"), (4, "pattern")])
        kind = "particle" if at == 0 or role == "module" else weighted(rng, STARTS)
        file = declared(rng, path)
        drawer = FileDrawer(self, at, file.prefixes(), role != "module" or rng.random() < 0.4)
        drawer.may_be_inner = drawer.may_be_inner and at > 0
        rank = None
        if role == "pattern":
            rank = rng.choice(["start", *self.kinds])
            drawer.behind = rank
            file.pattern = drawer.of_kind(kind)
        else:
            file.items = drawer.grammar(kind, role == "grammar")
        self.files[path], self.roles[path] = file, (role, kind, rank)

    def later(self, at, role):
        return [path for path in self.paths[at + 1 :] if self.roles[path][0] == role]

    def needs_outer(self, path):
        """Whether the file has a `parent` that means a name of the grammar around the one that the file belongs to."""
        file = self.files[path]
        return self.has_parent([file.pattern] if file.pattern else file.items)

    def has_parent(self, parts):
        return any(self.is_parent(part) for part in parts)

    def is_parent(self, part):
        match part:
            case Parent():
                return True
            case External(file):
                return self.roles[file][0] == "pattern" and self.needs_outer(file)
            case Nested():
                return False
            case Include(module, _, items):
                return self.needs_outer(module) or self.has_parent(items)
        return self.has_parent(parts_of(part))

    def brought(self, path):
        """The keys that an included file brings, each with how often it is plain."""
        return self.brought_by(self.files[path].items)

    def brought_by(self, items):
        found = collections.Counter()
        for item in items:
            match item:
                case Define(key, method):
                    found[key] += method == "="
                case Div(inner):
                    found += self.brought_by(inner)
                    found.update(dict.fromkeys(self.brought_by(inner), 0))
                case Include(module, _, inner):
                    own = self.brought_by(inner)
                    for key, plain in self.brought(module).items():
                        if key not in own:
                            found[key] += plain
                    for key, plain in own.items():
                        found[key] += plain
        return found


def parts_of(part):
    """The patterns and items within a pattern or an item."""
    for field in dataclasses.fields(part):
        value = getattr(part, field.name)
        for inner in value if isinstance(value, tuple) else (value,):
            if dataclasses.is_dataclass(inner):
                yield inner


class FileDrawer(Drawer):
    """Patterns and items of one file, or of a grammar within it."""

    def __init__(self, tree, at, prefixes, may_be_inner, outer=None):
        super().__init__(tree.rng, tree.kinds, prefixes)
        self.tree, self.at, self.may_be_inner, self.outer = tree, at, may_be_inner, outer
        self.level = outer.level + 1 if outer else 0
        self.within = 0  # elements around

    def element(self, depth):
        self.within += 1
        drawn = super().element(depth)
        self.within -= 1
        return drawn

    def of_kind(self, kind):
        if kind == "data":
            return self.data()
        if kind == "attributes":
            return Chain(",", (*self.attributes(), Word("empty")))
        return self.element(3) if self.rng.random() < 0.5 else self.particle(3)

    def particle(self, depth):
        return self.placed("particle", 0.15) or super().particle(min(depth, 2 if self.level == 0 else 1))

    def data(self, depth=2):
        return self.placed("data", 0.12) or super().data(depth)

    def attributes(self):
        placed = self.placed("attributes", 0.06)
        return [placed] if placed else super().attributes()

    def data_excepted(self):
        names = self.names_of("data") if self.within or self.behind else []
        if names and self.rng.random() < 0.4:
            return Ref(self.rng.choice(names))
        return self.placed("data", 0.3) or super().data_excepted()

    def placed(self, kind, often):
        """A reference out of this grammar, or a grammar within the pattern, or nothing."""
        rng = self.rng
        if rng.random() > often:
            return None
        outer, externals = self.outer_names(kind), self.externals(kind)
        way = weighted(rng, [(3 * bool(outer), "parent"), (6 * bool(externals), "external"), ((2, 0.7, 0)[self.level], "nested"), (0.1, "")])
        if way == "parent":
            return Parent(rng.choice(outer))
        if way == "external":
            return External(rng.choice(externals), self.inherit())
        return self.nested(kind) if way == "nested" else None

    def inherit(self):
        return self.rng.choice(self.prefixes) if self.prefixes and self.rng.random() < 0.3 else None

    def outer_names(self, kind):
        """What `parent` may name here without a loop."""
        if self.outer and not self.within:
            return self.outer.names_of(kind)
        is_any = self.outer or self.may_be_inner and (self.within or self.rng.random() < 0.05)
        return [name for name in self.kinds if is_any and self.kinds[name] == kind]

    def externals(self, kind):
        keys, found = ["start", *self.kinds], []
        for path in self.tree.later(self.at, "grammar") + self.tree.later(self.at, "pattern"):
            role, other, rank = self.tree.roles[path]
            if other != kind or role == "pattern" and self.tree.needs_outer(path) and not (self.outer or self.may_be_inner):
                continue
            if role == "grammar" or self.behind is None or keys.index(self.behind) <= keys.index(rank):
                found.append(path)
        return found

    def nested(self, kind):
        return Nested(tuple(FileDrawer(self.tree, self.at, self.prefixes, True, self).grammar(kind, True)))

    def includes(self, kind, found):
        """Includes of later files, with overrides; what they bring is added to what was found."""
        paths = [path for path in self.tree.later(self.at, "module") if kind == "particle" or "start" not in self.tree.brought(path)]
        paths = [path for path in paths if self.outer or self.may_be_inner or not self.tree.needs_outer(path)]
        for path in self.rng.sample(paths, min(len(paths), weighted(self.rng, [(4, 0), (5, 1), (2, 2)]))):
            brought, own = self.tree.brought(path), []
            for key, plain in brought.items():
                if plain and found[key] or self.rng.random() < 0.2:
                    method = self.tree.methods[key] if found[key] else "="
                    own.append(Define(key, method, self.body(key)))
                    plain = method == "="
                found[key] += plain
            if own and self.rng.random() < 0.2:
                own = [Div(tuple(own))]
            yield Include(path, self.inherit(), tuple(own))

    def grammar(self, kind, is_whole):
        """Items: of a whole grammar, in which each name is defined, or of a part of one."""
        rng, found = self.rng, collections.Counter()
        items = list(self.includes(kind, found))
        for key in ["start", *self.kinds] if is_whole else self.kinds:
            method = self.tree.methods[key]
            if key in found:
                methods = [method] if rng.random() < 0.2 else []
            else:
                methods = [method] * weighted(rng, [(6, 1), (2, 2)]) if is_whole or rng.random() < 0.5 else []
                if methods and rng.random() < 0.8:
                    methods[0] = "="
            items += [Define(key, method, self.definition(key, kind)) for method in methods]
        items = items or [Define("o", "|=", Word("notAllowed"))]
        rng.shuffle(items)
        if len(items) > 1 and rng.random() < 0.2:
            cut = rng.randrange(1, len(items))
            items[cut:] = [Div(tuple(items[cut:]))]
        return items

    def body(self, key):
        if self.kinds.get(key) != "data":
            return super().body(key)
        self.behind = key
        return self.data()

    def definition(self, key, kind):
        held, self.behind = self.behind, key
        is_main = key == "start" and self.at == 0 and self.level == 0
        body = self.element(3) if is_main else self.of_kind(kind) if key == "start" else self.body(key)
        self.behind = held
        return body


class TreeWriter(writing.Writer):
    """Writes a file whose links are relative to its folder."""

    def __init__(self, rng, path):
        super().__init__(rng)
        self.folder = os.path.dirname(path)

    def link(self, target):
        path = os.path.relpath(target, self.folder or ".")
        front = weighted(self.rng, [(6, ""), (1, "./"), (1, "gone/../"), (0.5, "././")])
        kept = weighted(self.rng, [(3, "/~é"), (3, "/")])
        escaped = urllib.parse.quote(path, safe=kept).replace("%C3%A9", "é" if "é" in kept else "%C3%A9")
        return front + (escaped.replace("f", "%66") if self.rng.random() < 0.05 else escaped)


class Scope:
    """The definitions of a grammar, and the grammar around it."""

    def __init__(self, outer):
        self.outer, self.definitions = outer, {}

    def add(self, found):
        for define, spaces in found:
            self.definitions.setdefault(define.key, []).append((define, spaces))
        return self


class Spaces(dict):
    """The namespaces of prefixes, and the scope that names belong to."""

    def __init__(self, spaces, scope):
        super().__init__(spaces)
        self.scope = scope


class TreeSampler(meaning.Sampler):
    """Documents of a tree of files."""

    def __init__(self, rng, tree):
        super().__init__(rng, [])
        self.tree, self.steps = tree, 0

    def document(self):
        self.steps = 2000
        _, items = self.placed(self.tree.paths[0], "", None, 40)
        elements = [item for item in items if not isinstance(item, str)]
        if len(elements) != 1:
            raise meaning.NoDocument
        return elements[0]

    def brought(self, items, spaces):
        """The definitions of items, each with the namespaces that it is read in."""
        found = []
        for item in items:
            match item:
                case Define():
                    found.append((item, spaces))
                case Div(inner):
                    found += self.brought(inner, spaces)
                case Include(path, inherit, inner):
                    own = self.brought(inner, spaces)
                    keys = {define.key for define, _ in own}
                    file = self.tree.files[path]
                    found += [it for it in self.brought(file.items, spaces_of(file, spaces[inherit], spaces.scope)) if it[0].key not in keys] + own
        return found

    def placed(self, path, inherited, scope, fuel):
        """What a file is that a pattern in a scope refers to."""
        file = self.tree.files[path]
        if file.pattern:
            return self.sample(file.pattern, spaces_of(file, inherited, scope), fuel - 1)
        return self.started(file.items, spaces_of(file, inherited, Scope(scope)), fuel)

    def started(self, items, spaces, fuel):
        spaces.scope.add(self.brought(items, spaces))
        return self.named(spaces.scope, "start", fuel)

    def named(self, scope, key, fuel):
        if scope is None or fuel <= 0:
            raise meaning.NoDocument
        self.definitions = scope.definitions
        return self.key(key, fuel)

    def sample(self, pattern, spaces, fuel):
        self.steps -= 1
        if self.steps < 0:
            raise meaning.NoDocument
        match pattern:
            case Ref(name):
                return self.named(spaces.scope, name, fuel)
            case Parent(name):
                return self.named(spaces.scope and spaces.scope.outer, name, fuel)
            case External(path, inherit):
                return self.placed(path, spaces[inherit], spaces.scope, fuel)
            case Nested(items):
                return self.started(items, Spaces(spaces, Scope(spaces.scope)), fuel)
        return super().sample(pattern, spaces, fuel)


def spaces_of(file, inherited, scope):
    return Spaces(meaning.spaces_of(file, inherited), scope)


def damage(rng, tree):
    """Does one thing to a file that no schema may hold, or that one may hold by chance, and answers what."""
    path = rng.choice(tree.paths)
    file = tree.files[path]
    bad = {
        "Missing": External("gone.rnc", None),
        "Loop": External(rng.choice(tree.paths[: tree.paths.index(path) + 1]), None),
        "Inherit": External(tree.paths[-1], "gone"),
        "Parent": Parent(rng.choice(list(tree.kinds))),
        "ParentUndefined": Nested((Define("start", "=", Parent("gone")),)),
        "ExceptReference": Data(Type(None, "token"), (), rng.choice([Ref("x"), External(rng.choice(tree.paths), None)])),
        "NestedWithoutStart": Nested((Define("x", "=", Word("text")),)),
    }
    kind = rng.choice([*BAD_PATTERNS, *bad, "IncludedPattern", "IncludeLoop", "Override", "NoStart", "PlainTwice"])
    if kind in ("IncludedPattern", "IncludeLoop", "Override", "NoStart", "PlainTwice"):
        return damage_items(rng, tree, file, kind)
    pattern = bad[kind] if kind in bad else rng.choice(BAD_PATTERNS[kind])
    if file.pattern:
        file.pattern = Chain("|", (file.pattern, pattern))
    else:
        file.items.append(Define("bad", "|=", pattern))
    return kind


def damage_items(rng, tree, file, kind):
    if file.pattern:
        return None
    if kind == "IncludedPattern":
        patterns = [path for path in tree.paths if tree.files[path].pattern]
        file.items += [Include(rng.choice(patterns), None)] if patterns else []
    elif kind == "IncludeLoop":
        file.items.append(Include(rng.choice(tree.paths), None))
    elif kind == "Override":
        includes = [at for at, item in enumerate(file.items) if isinstance(item, Include)]
        if includes:
            at = rng.choice(includes)
            file.items[at] = dataclasses.replace(file.items[at], items=(*file.items[at].items, Define("gone", "=", Word("text"))))
    elif kind == "PlainTwice":
        key = rng.choice(["start", *tree.kinds])
        file.items += [Define(key, "=", Word("empty"))] * 2
    else:
        file.items = without_start(file.items) or [Define("o", "|=", Word("notAllowed"))]
    return kind


def drawn(seed):
    """The tree of a seed, and what is damaged in it."""
    rng = random.Random(seed)
    tree = Tree(rng)
    damaged = damage(rng, tree) if rng.random() < 0.2 else None
    return rng, tree, damaged


def written(rng, tree):
    """The texts of a tree's files by their paths."""
    return {path: TreeWriter(rng, path).module(file) for path, file in tree.files.items()}


def mixed(rng, tree):
    """The texts of a tree's files by their paths: some in the XML syntax, the others in the compact one."""
    texts = {}
    for path, file in tree.files.items():
        compact = TreeWriter(rng, path)
        texts[path] = compact.module(file)
        if rng.random() < 0.6:
            try:
                texts[path] = writing_xml.XmlWriter(rng, file, compact.link).file()
            except writing_xml.NotWritable:
                continue
    return texts
