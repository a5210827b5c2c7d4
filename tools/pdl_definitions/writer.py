"""From the clauses of a function to the text of one in Python.

An argument of a call is put off until it is asked, where the function has a clause that doesn't name it.
"""

import keyword

from .library import Made

NUMBER_PATTERNS = {"suc": ("> 0", "{} - 1"), "pos": (">= 0", "{}"), "negsuc": ("< 0", "-{} - 1")}
SIGNS = {"∷": "({}, {})", "++": "joined({}, {})", "+": "({} + {})", "-": "minus({}, {})",
         "+ℤ": "({} + {})", "-ℤ": "({} - {})",
         "*": "({} * {})", "/": "over({}, {})", "%": "modulo({}, {})", "^": "({} ** {})", "==": "({} == {})",
         "&&": "({} and {})", "||": "({} or {})", "<": "({} < {})", "≤": "({} <= {})"}


def plain(name):
    """A name as Python takes it."""
    name = name.replace("'", "_q")
    return name + "_" if keyword.iskeyword(name) else name


def names_in(tree):
    """All names in a tree, with the parts that are asked of them."""
    if isinstance(tree, tuple) and tree and tree[0] == "name":
        yield tree[1]
    elif isinstance(tree, (tuple, list)):
        for part in tree:
            yield from names_in(part)


def heads_in(tree):
    return {name.split(".")[0] for name in names_in(tree)}


def is_variable(pattern):
    return pattern[0] == "name" and "." not in pattern[1] and (pattern[1][0].islower() or pattern[1][0] == "_")


class Writer:
    """Writes one function, whose names `find` tells: ("library", value), ("function", its name in Python) or a value made."""

    def __init__(self, find, facts):
        self.find, self.facts = find, facts
        self.lines, self.fresh, self.depth, self.texts = [], 0, 0, {}

    def new(self, stem="t"):
        self.fresh += 1
        return f"{stem}{self.fresh}"

    def put(self, line):
        self.lines.append("    " * self.depth + line)

    # Functions

    def function(self, name, clauses, late):
        """A function by its read clauses; `late` are the arguments that may be put off."""
        arguments = [f"a{k}" for k in range(len(clauses[0][0]))]
        self.put(f"def {name}({', '.join(arguments)}):")
        self.put(f"    SEEN.add({name!r})")
        for clause in clauses:
            self.clause([f"now({it})" if k in late else it for k, it in enumerate(arguments)], *clause, {})
        self.put(f"    raise TypeError('no clause of {name}')")

    def clause(self, values, patterns, body, inside, own):
        """A clause for these values, with the functions of its `where`."""
        self.depth += 1
        before = self.depth
        for pattern, value in zip(patterns, values):
            self.match(pattern, value, own)
        self.where(inside, own)
        self.put(f"return {self.write(body, own)}")
        self.depth = before - 1

    def where(self, inside, own):
        for name, clauses in inside:
            own[name] = plain(f"w_{name}")
            self.local(own, own[name], clauses)

    def local(self, own, name, clauses):
        """A function of a `where`."""
        arguments = [f"b{k}" for k in range(len(clauses[0][0]))]
        self.put(f"def {name}({', '.join(arguments)}):")
        for patterns, body in clauses:
            self.clause(arguments, patterns, body, [], dict(own))

    # Patterns

    def test(self, condition):
        self.put(f"if {condition}:")
        self.depth += 1

    def match(self, pattern, value, own):
        """Writes the tests of a pattern, and adds the names that it binds."""
        kind = pattern[0]
        if kind == "name" and is_variable(pattern) and pattern[1] not in ("zero", "true", "false", "no_items", "no_members"):
            own[pattern[1]] = value
        elif kind == "name":
            self.test({"zero": f"{value} == 0", "true": f"{value} is True", "false": f"{value} is False"}.get(
                pattern[1], f"{value}.name == '{self.made(pattern[1])}'"))
        elif kind == "number":
            self.test(f"{value} == {pattern[1]}")
        elif kind == "nil":
            self.test(f"not {value}")
        elif kind == "call":
            self.match_made(self.made(pattern[1][1]), pattern[2], value, own)
        else:
            if kind == "sign":
                self.test(value)
            self.match_parts(pattern[-2:], value, own)

    def made(self, name):
        """The constructor that a name of a pattern stands for."""
        return name if name in NUMBER_PATTERNS else self.find(name)[1]

    def match_made(self, name, patterns, value, own):
        if name in NUMBER_PATTERNS:
            holds, inner = NUMBER_PATTERNS[name]
            self.test(f"{value} {holds}")
            self.match(patterns[0], f"({inner.format(value)})", own)
            return
        self.test(f"{value}.name == '{name}'")
        self.match_parts(patterns, f"{value}.parts", own)

    def match_parts(self, patterns, value, own):
        fresh = [self.new() for _ in patterns]
        self.put(f"{', '.join(fresh)}, = {value}")
        for pattern, part in zip(patterns, fresh):
            self.match(pattern, part, own)

    # Expressions

    def write(self, tree, own):
        return getattr(self, f"write_{tree[0]}")(*tree[1:], own)

    def write_number(self, number, own):
        return str(number)

    def write_nil(self, own):
        return "()"

    def write_text(self, text, own):
        return text

    def write_pair(self, first, second, own):
        return f"({self.write(first, own)}, {self.write(second, own)})"

    def write_if(self, condition, first, second, own):
        return f"({self.write(first, own)} if {self.write(condition, own)} else {self.write(second, own)})"

    def write_let(self, name, value, body, own):
        local = plain(f"v_{name}")
        return f"(lambda {local}: {self.write(body, {**own, name: local})})({self.write(value, own)})"

    def write_function(self, names, body, own):
        locals_ = {name: self.new("u") for name in names}
        return f"(lambda {', '.join(locals_.values())}: {self.write(body, {**own, **locals_})})"

    def write_sign(self, sign, first, second, own):
        return SIGNS[sign].format(self.write(first, own), self.write(second, own))

    def write_part(self, value, part, own):
        return self.write(value, own) + (f"[{part}]" if part.isdigit() else f".{plain(part)}")

    def write_record(self, old, parts, own):
        written = ", ".join(f"{plain(name)}={self.write(value, own)}" for name, value in parts)
        return f"{self.write(old, own)}.changed({written})" if old else f"Record({written})"

    def write_name(self, name, own):
        head, *parts = name.split(".")
        if head in own:
            return ".".join([own[head], *map(plain, parts)])
        kind, value, left = self.find(name)
        return ".".join([self.reference(kind, value), *map(plain, left)])

    def reference(self, kind, value):
        if kind == "made":
            return f"Made({value!r})"
        if kind == "function" and self.facts(value)[0] == 0:
            return f"{value}()"
        return f"NAMES[{value!r}]" if kind == "library" else value

    def write_call(self, called, arguments, own):
        if called[0] == "name" and called[1].split(".")[0] not in own:
            kind, value, left = self.find(called[1])
            if not left:
                return self.write_known_call(kind, value, arguments, own)
        return f"apply({self.write(called, own)}, {self.listed(arguments, own)})"

    def listed(self, arguments, own):
        return ", ".join(self.write(it, own) for it in arguments)

    def write_known_call(self, kind, value, arguments, own):
        """A call of a name that isn't the function's own."""
        if kind == "made":
            return f"Made({value!r}, ({self.listed(arguments, own)},))"
        if value == "cond" and kind == "library":
            return self.write_if(*arguments, own)
        if value == "codes" and kind == "library" and arguments[0][0] == "text":
            self.texts[arguments[0][1]] = name = f"TEXTS[{arguments[0][1]}]"
            return name
        if kind == "library":
            return f"apply(NAMES[{value!r}], {self.listed(arguments, own)})"
        takes, late = self.facts(value)
        given = [self.argument(it, k in late, own) for k, it in enumerate(arguments)]
        if takes == 0:
            return f"apply({value}(), {', '.join(given)})"
        if len(given) < takes:
            return f"Partly({value}, ({', '.join(given)},), {takes - len(given)})"
        call = f"{value}({', '.join(given[:takes])})"
        return f"apply({call}, {', '.join(given[takes:])})" if len(given) > takes else call

    def argument(self, tree, is_late, own):
        written = self.write(tree, own)
        calls = is_late and any(self.is_function(name) for name in names_in(tree) if name.split(".")[0] not in own)
        return f"Later(lambda: {written})" if calls else written

    def is_function(self, name):
        try:
            return self.find(name)[0] == "function"
        except (KeyError, ValueError):
            return False


def late_arguments(clauses):
    """The arguments that may be put off: variables in all clauses, of which one doesn't name it."""
    count = len(clauses[0][0])
    return {k for k in range(count)
            if all(is_variable(patterns[k]) for patterns, *_ in clauses)
            and any(patterns[k][1] not in heads_in([body, inside]) for patterns, body, inside in clauses)}
