"""What the standard library gives to definitions. A list is a pair of its first element and the rest, or nothing."""

import tomllib


class Made:
    """A value of a constructor; called, one with more arguments."""
    __slots__ = "name", "parts"

    def __init__(self, name, parts=()):
        self.name, self.parts = name, parts

    def __call__(self, *more):
        return Made(self.name, self.parts + more)

    def __eq__(self, other):
        return self is other or isinstance(other, Made) and self.name == other.name and self.parts == other.parts

    def __hash__(self):
        return hash(self.name)

    def __repr__(self):
        return f"{self.name}({', '.join(map(repr, self.parts))})"


class Later:
    """A value that is found when it is first asked."""
    __slots__ = "make", "value"

    def __init__(self, make):
        self.make, self.value = make, None

    def now(self):
        if self.make is not None:
            self.value = self.make()
            self.make = None
        return self.value


def now(value):
    """A value, found now where it was put off."""
    return value.now() if value.__class__ is Later else value


class Record:
    """A value with named parts."""

    def __init__(self, **parts):
        self.__dict__.update(parts)

    def __eq__(self, other):
        return isinstance(other, Record) and self.__dict__ == other.__dict__

    def __repr__(self):
        return f"{{{', '.join(f'{name} = {value!r}' for name, value in self.__dict__.items())}}}"

    def changed(self, **parts):
        return Record(**{**self.__dict__, **parts})


def apply(function, *given):
    """What a function gives for arguments, which may be fewer or more than it takes at once."""
    if function.__class__ is Made:
        return function(*given)
    takes = count_of(function)
    if len(given) < takes:
        return Partly(function, given, takes - len(given))
    value = function(*given[:takes])
    return apply(value, *given[takes:]) if len(given) > takes else value


def count_of(function):
    return function.takes if hasattr(function, "takes") else function.__code__.co_argcount


class Partly:
    """A function with its first arguments."""
    __slots__ = "function", "given", "takes"

    def __init__(self, function, given, takes):
        self.function, self.given, self.takes = function, given, takes

    def __call__(self, *more):
        return self.function(*self.given, *more)


NOTHING = Made("None")


def some(value):
    return Made("Some", (value,))


def linked(values):
    """A list of the values."""
    found = ()
    for value in reversed(values):
        found = value, found
    return found


def items(values):
    """The values of a list."""
    while values:
        first, values = values
        yield first


def joined(first, second):
    found = second
    for value in reversed(list(items(first))):
        found = value, found
    return found


# Of 65,536 addresses those that a text can come to, where this is told: the definitions say nothing at any other.
SOME_ADDRESSES = None


def numbers_from(first, count):
    if SOME_ADDRESSES is not None and count == 65536:
        return linked(sorted(it for it in SOME_ADDRESSES if first <= it < first + count))
    return linked(list(range(first, first + count)))


def minus(a, b):
    return max(a - b, 0)


def over(a, b):
    return a // b if b else 0


def modulo(a, b):
    return a % b if b else a


def drop(n, xs):
    while n and xs:
        xs, n = xs[1], n - 1
    return xs


def at_or(xs, n, other):
    rest = drop(n, xs)
    return rest[0] if rest else other


def position(test, xs):
    return position_from(test, 0, xs)


def position_from(test, n, xs):
    return next((some(k) for k, x in enumerate(items(xs), n) if apply(test, x)), NOTHING)


def find(test, xs):
    return next((some(x) for x in items(xs) if apply(test, x)), NOTHING)


def set_at(xs, n, value):
    found = list(items(xs))
    if n < len(found):
        found[n] = value
    return linked(found)


def split(test, xs):
    parts = [[]]
    for x in items(xs):
        if apply(test, x):
            parts.append([])
        else:
            parts[-1].append(x)
    return linked([linked(part) for part in parts])


def prefix_len(test, xs):
    return next((k for k, x in enumerate(items(xs)) if not apply(test, x)), len(list(items(xs))))


def digit(c):
    return int(chr(c), 36) if chr(c).isascii() and chr(c).isalnum() else 36


def digits_value(base, digits):
    value = 0
    for c in items(digits):
        value = value * base + digit(c)
    return value


def same(test, xs, ys):
    left, right = list(items(xs)), list(items(ys))
    return len(left) == len(right) and all(apply(test, x, y) for x, y in zip(left, right))


def starts_with(test, xs, prefix):
    left, right = list(items(take(length(prefix), xs))), list(items(prefix))
    return len(left) == len(right) and all(apply(test, x, y) for x, y in zip(left, right))


def length(xs):
    return sum(1 for _ in items(xs))


def take(n, xs):
    found = []
    while n and xs:
        found.append(xs[0])
        xs, n = xs[1], n - 1
    return linked(found)


def take_while(test, xs):
    return take(prefix_len(test, xs), xs)


def option(make, value):
    return apply(make, *value.parts) if value.name == "Some" else value


def filter_map(make, xs):
    return linked([found.parts[0] for found in (apply(make, x) for x in items(xs)) if found.name == "Some"])


def fold(step, value, xs):
    for x in items(xs):
        value = apply(step, value, x)
    return value


def flat_map(make, xs):
    return linked([y for x in items(xs) for y in items(apply(make, x))])


def onto_first(c, xs):
    return ((c, xs[0]), xs[1]) if xs else ((c, ()), ())


def codes(text):
    return linked(list(text.encode("latin-1")))


def is_utf8(text):
    try:
        bytes(items(text)).decode()
        return True
    except UnicodeDecodeError:
        return False


# Tables in TOML

def parse_document(text):
    try:
        return some(members(tomllib.loads(bytes(items(text)).decode())))
    except (tomllib.TOMLDecodeError, RecursionError):
        return NOTHING


def kind_of(kind, make=lambda value: value):
    return lambda value: some(make(value)) if type(value) is kind else NOTHING


def members(table):
    found = Made("no_members")
    for name, value in reversed(table.items()):
        found = Made("member", (linked(list(name.encode())), value, found))
    return found


def item_list(values):
    found = Made("no_items")
    for value in reversed(values):
        found = Made("item", (value, found))
    return found


def get_member(key, table):
    while table.name == "member":
        name, value, table = table.parts
        if list(items(name)) == list(items(key)):
            return some(value)
    return NOTHING


def lookup(test, entries):
    return next((some(entry[1]) for entry in items(entries) if apply(test, entry[0])), NOTHING)


NAMES = {
    "nat_eq": lambda a, b: a == b, "nat_le": lambda a, b: a <= b, "nat_lt": lambda a, b: a < b,
    "max": lambda a, b: max(a, b), "min": lambda a, b: min(a, b), "suc": lambda a: a + 1, "zero": 0, "not": lambda a: not a,
    "pos": lambda a: a, "negsuc": lambda a: -a - 1, "neg_ℤ": lambda a: -a,
    "bit_and": lambda a, b: a & b, "bit_or": lambda a, b: a | b, "bit_xor": lambda a, b: a ^ b,
    "is_power_of_two": lambda a: a > 0 and a & a - 1 == 0,
    "true": True, "false": False, "Some": Made("Some"), "None": NOTHING, "Ok": Made("Ok"), "Err": Made("Err"),
    "length": length, "take": take, "drop": drop, "take_while": take_while, "prefix_len": prefix_len,
    "starts_with": starts_with, "pointwise": same, "bytes_eq": lambda a, b: list(items(a)) == list(items(b)),
    "map": lambda make, xs: linked([apply(make, x) for x in items(xs)]),
    "filter": lambda test, xs: linked([x for x in items(xs) if apply(test, x)]),
    "filter_map": filter_map, "flat_map": flat_map, "fold": fold,
    "count_by": lambda test, xs: sum(1 for x in items(xs) if apply(test, x)),
    "list_any": lambda test, xs: any(apply(test, x) for x in items(xs)),
    "list_all": lambda test, xs: all(apply(test, x) for x in items(xs)),
    "find": find, "position": position, "position_from": position_from,
    "slice_index": lambda xs, n: at_or(xs, n, 0), "slice_index_or": at_or, "slice_set": set_at, "slice_split": split,
    "slice_get": lambda xs, n: some(at_or(xs, n, None)) if n < length(xs) else NOTHING,
    "range_with_len": numbers_from,
    "replicate": lambda count, value: linked([value] * count), "onto_first": onto_first,
    "is_some": lambda a: a.name == "Some", "is_none": lambda a: a.name == "None",
    "unwrap_or": lambda a, other: a.parts[0] if a.name == "Some" else other,
    "option_map": lambda make, a: some(apply(make, *a.parts)) if a.name == "Some" else a, "option_and_then": option,
    "decimal": lambda n: codes(str(n)), "digit_value": digit, "digits_value": digits_value, "codes": codes,
    "is_utf8": is_utf8, "parse_document": parse_document, "get_member": get_member, "lookup": lookup,
    "as_str": kind_of(str, lambda text: linked(list(text.encode()))), "as_integer": kind_of(int),
    "as_array": kind_of(list, item_list), "as_table": kind_of(dict, members),
    **{name: Made(name) for name in ("item", "no_items", "member", "no_members")},
}
