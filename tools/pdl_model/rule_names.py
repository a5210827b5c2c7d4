"""The rules on names (N) and on widths (W)."""

from . import tree, words
from .layout import variable_widths


def expressions_of(statement):
    """The expressions of a statement."""
    match statement:
        case tree.Bind(value=value) | tree.Write(value=value):
            return (value,)
        case tree.If(condition=condition):
            return (condition,)
    return statement.arguments if isinstance(statement, WITH_ARGUMENTS) else ()


WITH_ARGUMENTS = (tree.Call, tree.SpecCall, tree.Verify, tree.Update)
OF_A_GUESS = (tree.Verify, tree.Update)
AT_MEMORY = (tree.Read, tree.Ask, tree.Write, tree.Reserve, tree.Block, tree.Release)
DEFINING = (tree.Bind, tree.Read, tree.Ask, tree.SpecCall)


def variables_of(statement):
    """The variables that a statement uses."""
    used = tree.names_in(*expressions_of(statement))
    return used | {statement.address} if isinstance(statement, AT_MEMORY) else used


def defined_places(layout):
    """The places at which names are defined, in text order: the pipe's name before all."""
    pipe = layout.pipe
    found = [(pipe.name, (-1, 0))]
    found += [(it.name, (0, k)) for k, it in enumerate(pipe.parameters)]
    found += [(it.name, (1, k)) for k, it in enumerate(pipe.memories)]
    found += [(it.statement.name, (2, it.place)) for it in layout.statements if isinstance(it.statement, DEFINING)]
    return found


def names(layout):
    """The breaks of N1 to N3."""
    pipe = layout.pipe
    statements = [it.statement for it in layout.statements]
    memories = {memory.name for memory in pipe.memories}
    guesses = {it.name for it in statements if isinstance(it, tree.SpecCall)}
    variables = {it.name for it in pipe.parameters}
    variables |= {it.name for it in statements if isinstance(it, DEFINING) and not isinstance(it, tree.SpecCall)}
    for placed in layout.statements:
        statement = placed.statement
        known = (
            variables_of(statement) <= variables
            and (not isinstance(statement, AT_MEMORY) or statement.memory in memories)
            and (not isinstance(statement, OF_A_GUESS) or statement.guess in guesses))
        if not known:
            yield "N1", (2, placed.place)
    if pipe.start_name != pipe.name:
        yield "N1", (4, 0)
    defined = defined_places(layout)
    for k, (name, place) in enumerate(defined):
        if name in {earlier for earlier, _ in defined[:k]}:
            yield "N2", place
    yield from (("N3", (2, place)) for place in used_too_early(layout))


def used_too_early(layout):
    """The places that use a name which isn't defined before them in the text, or on a path that has them."""
    parameters = {it.name for it in layout.pipe.parameters}
    yield from undefined(layout.statements, parameters, False)
    for path in layout.paths():
        yield from undefined(layout.on_path(path), parameters, True)


def undefined(statements, parameters, on_path):
    """The places of a list that use a name before it is there. On a path an answer is there after the next `---`."""
    there, to_come = set(parameters), set()
    for placed in statements:
        statement = placed.statement
        used = variables_of(statement) | ({statement.guess} if isinstance(statement, OF_A_GUESS) else set())
        if not used <= there:
            yield placed.place
        if isinstance(statement, tree.Separator):
            there |= to_come
        elif isinstance(statement, tree.Ask) and on_path:
            to_come.add(statement.name)
        elif isinstance(statement, DEFINING):
            there.add(statement.name)


# Widths


def widths(layout):
    """The breaks of W1 to W6."""
    pipe = layout.pipe
    known = variable_widths(pipe)
    for placed in layout.statements:
        found = {rule for it in tree.nodes(expressions_of(placed.statement)) for rule in node_rules(it, known)}
        yield from ((rule, (2, placed.place)) for rule in found)
        yield from ((rule, (2, placed.place)) for rule in statement_rules(pipe, placed.statement, known))
    yield from ((rule, (4, 0)) for it in pipe.start for rule in node_rules(it, known))
    if arguments_differ(pipe, pipe.start, known):
        yield "W5", (4, 0)


def node_rules(node, known):
    """The rules that an operator, slice, extension or literal breaks by its own operands."""
    match node:
        case tree.Binary(operator="cat", left=left, right=right):
            if left.width(known) + right.width(known) > words.WIDEST:
                yield "W2"
        case tree.Binary(left=left, right=right) | tree.Choice(first=left, second=right):
            if left.width(known) != right.width(known):
                yield "W1"
            if isinstance(node, tree.Choice) and node.condition.width(known) != 1:
                yield "W3"
        case tree.Slice(name, high, low):
            if not low <= high < known[name]:
                yield "W2"
        case tree.Extension(operand, bits, _):
            if not operand.width(known) <= bits <= words.WIDEST:
                yield "W2"
        case tree.Literal(number, bits):
            if number >> bits:
                yield "W2"


def statement_rules(pipe, statement, known):
    """The rules W3 to W6 that a statement breaks."""
    match statement:
        case tree.If(condition=condition):
            if condition.width(known) != 1:
                yield "W3"
        case tree.Call() | tree.SpecCall() | tree.Verify() | tree.Update():
            if arguments_differ(pipe, statement.arguments, known):
                yield "W5"
    if isinstance(statement, AT_MEMORY):
        memory = pipe.memory(statement.memory)
        if known[statement.address] != memory.address_bits():
            yield "W4"
        if isinstance(statement, tree.Write) and statement.value.width(known) != memory.width:
            yield "W6"


def arguments_differ(pipe, arguments, known):
    """Whether the number or a width of arguments isn't that of the parameters."""
    return [it.width(known) for it in arguments] != [it.width for it in pipe.parameters]
