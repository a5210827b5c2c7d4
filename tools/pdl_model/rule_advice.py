"""The rule on advice (P): a thread's guesses may hang on it, and nothing else that is seen of a thread."""

from . import rule_names, tree


def advice(layout):
    """The breaks of P1."""
    for placed in layout.statements:
        if uses_that_count(layout.pipe, placed.statement) & layout.advised:
            yield "P1", (2, placed.place)


def uses_that_count(pipe, statement):
    """The variables that stand in a statement where no advice may stand."""
    match statement:
        case tree.Bind() | tree.SpecCall() | tree.Update():
            return set()
        case tree.Read(memory=memory) | tree.Write(memory=memory) if pipe.memory(memory).advisory:
            return set()
    return rule_names.variables_of(statement)
