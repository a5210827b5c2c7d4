#!/usr/bin/env python3
"""What of a source breaks the rule by which `pdl` refused it, in words of that source: the token, the name with the line of
its definition, the widths of both sides, or the path with what it did at the location before.

    why.py SOURCE RULE LINE

RULE and LINE are those of the refusal, as L2 and 15 of `refused L2 line 15`. It asks the rules of tools/pdl_model again, so
it says nothing where these find another place than `pdl` named, and what it says is no part of what is proved.
`tools/explain.py` prints it below a refusal.
"""

import difflib
import pathlib

import usage
from pdl_model import rule_advice, rule_guesses, rule_locks, rule_names, rules, syntax, tree, words
from pdl_model.forms import TAKEN, Forms
from pdl_model.layout import Layout, variable_widths
from why_tokens import out_of_place

# The most that a path names of its guards.
MOST_GUARDS = 4


# Texts of expressions and statements


def shown(it):
    """An expression as it may be written."""
    match it:
        case tree.Literal(number, bits):
            return f"{bits}'d{number}"
        case tree.Variable(name):
            return name
        case tree.Slice(name, high, low):
            return f"{name}[{high}:{low}]"
        case tree.Inverse(operand):
            return f"~{shown(operand)}"
        case tree.Binary(("cat" | "lts") as word, left, right):
            return f"{word}({shown(left)}, {shown(right)})"
        case tree.Binary(operator, left, right):
            return f"({shown(left)} {operator} {shown(right)})"
        case tree.Extension(operand, bits, keeps_sign):
            return f"{'sext' if keeps_sign else 'zext'}({shown(operand)}, {bits})"
        case tree.Choice(condition, first, second):
            return f"({shown(condition)} ? {shown(first)} : {shown(second)})"
    return "?"


def short(it):
    text = shown(it).removeprefix("(").removesuffix(")") if isinstance(it, (tree.Binary, tree.Choice)) else shown(it)
    return f"`{text if len(text) <= 50 else text[:47] + '...'}`"


def bits(count):
    return f"{count} bit" if count == 1 else f"{count} bits"


# Paths


def path_said(layout, breaks):
    """A path for which `breaks` holds, by the guards that it hangs on, and its truth values; None where there is none."""
    found = next((path for path in layout.paths() if breaks(path)), None)
    if found is None:
        return None, ""
    needed = []
    for guard, condition in enumerate(layout.conditions):
        other = (*found[:guard], not found[guard], *found[guard + 1:])
        if not breaks(other):
            needed.append(f"{short(condition)} is {int(found[guard])}")
    return found, f" where {' and '.join(needed[:MOST_GUARDS])}" if needed else ""


def at_line(layout, place):
    return f"line {rules.line_of(layout, place)}"


def history(layout, path, place, memory, address):
    """What a path does at a location up to a place: the last statements there with their lines."""
    done = []
    for it in layout.on_path(path):
        statement = it.statement
        if place[0] == 2 and it.place >= place[1]:
            break
        if getattr(statement, "memory", None) == memory and getattr(statement, "address", None) == address:
            kind = f" for {statement.kind}" if isinstance(statement, tree.Reserve) else ""
            done.append(f"{NAMED[type(statement)]}{kind} in {at_line(layout, (2, it.place))}")
    return done


NAMED = {tree.Reserve: "reserved", tree.Block: "blocked", tree.Read: "read", tree.Ask: "read", tree.Write: "written",
         tree.Release: "released"}
NEEDED = {tree.Block: "a `block` needs it reserved", tree.Read: "a read needs it blocked for R", tree.Ask:
          "a read needs it blocked for R", tree.Write: "a write needs it blocked for W", tree.Release:
          "a `release` needs it blocked"}


# The rules


def names(layout, rule, place):
    """N1 to N3."""
    pipe = layout.pipe
    if place[0] != 2:
        return ["`start` has to name the pipe"] if rule == "N1" else twice(layout, place)
    statement = layout.statements[place[1]].statement
    if rule == "N2":
        return twice(layout, place)
    used = rule_names.variables_of(statement)
    defined = dict(rule_names.defined_places(layout))
    if rule == "N1":
        guesses = [it.statement.name for it in layout.statements if isinstance(it.statement, tree.SpecCall)]
        memories = [it.name for it in pipe.memories]
        variables = [it for it in defined if it not in guesses + memories + [pipe.name]]
        unknown = [(it, variables) for it in sorted(used) if it not in variables]
        if isinstance(statement, rule_names.AT_MEMORY) and statement.memory not in memories:
            unknown.append((statement.memory, memories))
        if isinstance(statement, rule_names.OF_A_GUESS) and statement.guess not in guesses:
            unknown.append((statement.guess, guesses))
        return [f"`{it}` is no name of that kind" + near(it, known) for it, known in unknown]
    used |= {statement.guess} if isinstance(statement, rule_names.OF_A_GUESS) else set()
    for name in sorted(used):
        where = defined.get(name)
        if where is None or where[0] != 2:
            continue
        if where[1] >= place[1]:
            return [f"`{name}` is defined in {at_line(layout, where)}, not before"]
        by = layout.statements[where[1]].statement
        path, said = path_said(layout, lambda p: lacks(layout, p, place, name))
        if path is not None:
            late = isinstance(by, tree.Ask) and layout.statements[where[1]].is_on(path)
            return [f"`{name}` is {'answered' if late else 'defined'} in {at_line(layout, where)}, "
                    f"{'so it is there from the next stage on' if late else 'but not on each path: not' + said}"]
    return []


def lacks(layout, path, place, name):
    parameters = {it.name for it in layout.pipe.parameters}
    statements = [it for it in layout.on_path(path) if it.place <= place[1]]
    if not statements or statements[-1].place != place[1]:
        return False
    there, to_come = set(parameters), set()
    for it in statements[:-1]:
        if isinstance(it.statement, tree.Separator):
            there |= to_come
        elif isinstance(it.statement, tree.Ask):
            to_come.add(it.statement.name)
        elif isinstance(it.statement, rule_names.DEFINING):
            there.add(it.statement.name)
    return name not in there


def twice(layout, place):
    defined = rule_names.defined_places(layout)
    name = next((it for it, where in defined if where == place), None)
    first = next((where for it, where in defined if it == name), None)
    if name is None or first == place:
        return []
    if first[0] < 0:
        return [f"`{name}` is the name of the pipe"]
    said = [f"`{name}` was defined in {at_line(layout, first)}"]
    if place[0] == first[0] == 2 and layout.statements[first[1]].branches:
        said.append("what differs by the branch is chosen by `?:`, or bound to a name for each branch")
    return said


def near(name, known):
    found = difflib.get_close_matches(name, known, 1)
    return f"; `{found[0]}` is one" if found else ""


def widths(layout, rule, place):
    """W1 to W6."""
    pipe = layout.pipe
    known = variable_widths(pipe)
    statement = layout.statements[place[1]].statement if place[0] == 2 else None
    expressions = rule_names.expressions_of(statement) if statement else pipe.start
    for it in tree.nodes(expressions):
        if rule in ("W1", "W2", "W3") and rule in set(rule_names.node_rules(it, known)):
            return [node_said(it, rule, known)]
    match statement:
        case tree.If(condition=condition) if rule == "W3":
            return [f"{short(condition)} has {bits(condition.width(known))}"]
        case tree.Write(value=value, memory=memory) if rule == "W6":
            return [f"{short(value)} has {bits(value.width(known))}, a word of `{memory}` {bits(pipe.memory(memory).width)}"]
    if rule == "W4":
        memory = pipe.memory(statement.memory)
        return [f"`{statement.address}` has {bits(known[statement.address])}, an address of `{memory.name}`, "
                f"which has {memory.depth} words, {bits(memory.address_bits())}"]
    if rule == "W5":
        given = statement.arguments if statement else pipe.start
        if len(given) != len(pipe.parameters):
            return [f"{len(given)} arguments for {len(pipe.parameters)} parameters"]
        return [f"{short(it)} has {bits(it.width(known))}, the parameter `{to.name}` {bits(to.width)}"
                for it, to in zip(given, pipe.parameters) if it.width(known) != to.width][:1]
    return []


def node_said(it, rule, known):
    """Which widths of an expression don't fit."""
    match it:
        case tree.Choice(condition=condition) if rule == "W3":
            return f"{short(condition)} has {bits(condition.width(known))}"
        case tree.Choice(_, left, right) | tree.Binary("lts", left, right):
            return f"{short(left)} has {bits(left.width(known))}, {short(right)} {bits(right.width(known))}"
        case tree.Binary("cat", left, right):
            return f"{short(it)} has {bits(left.width(known) + right.width(known))}"
        case tree.Binary(operator, left, right):
            amount = "; the amount of a shift has the width of what is shifted" if operator in ("<<", ">>") else ""
            return f"{short(left)} has {bits(left.width(known))}, {short(right)} {bits(right.width(known))}{amount}"
        case tree.Slice(name, _, _):
            return f"`{name}` has {bits(known[name])}"
        case tree.Extension(operand, _, _):
            return f"{short(operand)} has {bits(operand.width(known))}"
    return f"{short(it)} doesn't fit its width"


def limits(layout, rule, place):
    """Z7."""
    if rule != "Z7":
        return []
    if place[0] == 0:
        return [f"{bits(layout.pipe.parameters[place[1]].width)}: a width is 1 to {words.WIDEST}"]
    if place[0] != 1:
        expressions = rule_names.expressions_of(layout.statements[place[1]].statement) if place[0] == 2 else layout.pipe.start
        return [f"a literal of {bits(it.bits)}: a width is 1 to {words.WIDEST}" for it in tree.nodes(expressions)
                if isinstance(it, tree.Literal) and not 1 <= it.bits <= words.WIDEST][:1]
    it = layout.pipe.memories[place[1]]
    most = 6 if it.lock == "rename" else 16
    said = [(not 1 <= it.width <= words.WIDEST, f"a word of {bits(it.width)}"),
            (it.depth not in {1 << k for k in range(1, most + 1)}, f"{it.depth} words: a power of two from 2 to {1 << most}"),
            (it.lock and it.size not in (1, 2, 4, 8, 16), f"a lock of size {it.size}: 1, 2, 4, 8 or 16"),
            (it.delayed and it.lock not in (None, "queue"), f"a delayed memory takes `queue`, not `{it.lock}`"),
            (it.lock == "rename" and it.size > it.depth, f"`rename({it.size})` of {it.depth} words: not more than these")]
    return [text for is_broken, text in said if is_broken][:1]


def stages(layout, rule, place):
    """F1 to F5."""
    it = layout.statements[place[1]]
    statement = it.statement
    if rule == "F3" and it.stage != layout.count - 1:
        first = next(x for x in layout.statements if isinstance(x.statement, tree.Ask) and x.statement.memory == statement.memory)
        return [f"`{statement.memory}` is read in {at_line(layout, (2, first.place))}"]
    if rule == "F3":
        return ["no stage comes after this one"]
    if rule == "F1":
        branch = next(x for x in layout.statements if isinstance(x.statement, tree.Separator)
                      and x.branches and set(x.branches) & set(it.branches))
        return [f"its branch has a `---` in line {branch.statement.line}"]
    if rule == "F2":
        return [fork_said(layout, it)]
    if rule in ("F4", "F5"):
        memory = layout.pipe.memory(statement.memory)
        kind = "delayed" if memory.delayed else "advisory" if memory.advisory else "comb"
        return [f"`{memory.name}` is {kind}" if rule == "F4" else f"`{memory.name}` has no lock"]
    return []


def fork_said(layout, it):
    """Why a fork may not stand where it does."""
    if it.branches and Forms.NESTED_FORKS not in layout.forms:
        return "it stands in a branch"
    fork = layout.forks[[other.place for other in layout.statements if other.is_fork].index(it.place)]
    if len(fork.inside) == rules.MOST_LEVELS:
        return f"it stands in branches of {rules.MOST_LEVELS} forks"
    if fork.inside and fork.stage == fork.inside[-1][0].stage:
        return "no `---` of its branch stands before it"
    return "no `---` stands right behind its `}`"


def advice(layout, _, place):
    """P1."""
    statement = layout.statements[place[1]].statement
    defined = dict(rule_names.defined_places(layout))
    named = sorted(rule_advice.uses_that_count(layout.pipe, statement) & layout.advised)
    return [f"`{it}`, bound in {at_line(layout, defined[it])}, holds advice, which only guesses may hang on" for it in named]


def on_path(layout, rule, place):
    """L1 to L8 and S1 to S7: a path on which the rule is broken at the place, and what it did before."""
    verifies = layout.verify_stage()

    def breaks(path):
        statements = layout.on_path(path)
        found = {
            "L1": lambda: [p for r, p in rule_locks.states(layout.pipe, statements) if r == "L1"],
            "L7": lambda: [p for r, p in rule_locks.states(layout.pipe, statements) if r == "L7"],
            "L3": lambda: [(2, p) for p in rule_locks.reads_after_writes(layout.pipe, statements)],
            "L4": lambda: [p for r, p in rule_locks.reservations(layout, statements) if r == "L4"],
            "L5": lambda: [p for r, p in rule_locks.reservations(layout, statements) if r == "L5"],
            "L6": lambda: [(2, p) for p in (*rule_locks.unwritten_releases(statements),
                                            *rule_locks.second_writes_first(layout.pipe, statements))],
            "L8": lambda: [(2, p) for p in rule_locks.late_reads(layout, statements, path)],
            "S1": lambda: [p for _, p in rule_guesses.successors(statements)],
            "S2": lambda: [(2, p) for p in rule_guesses.unverified(statements)],
            "S4": lambda: [(2, p) for p in rule_guesses.uncertain_releases(statements, verifies)],
            "S5": lambda: [(2, p) for p in rule_guesses.unchecked(statements, verifies)],
            "S6": lambda: [(2, p) for p in rule_guesses.misplaced_updates(statements, verifies)],
        }[rule]()
        return place in found

    if rule == "L2":
        it = layout.statements[place[1]]
        kind, memory = type(it.statement), it.statement.memory
        first = next(x for x in layout.statements if isinstance(x.statement, kind) and x.statement.memory == memory)
        return [f"this is stage {it.stage}; the first of `{memory}` is in stage {first.stage}, "
                f"{at_line(layout, (2, first.place))}"]
    if rule in ("S3", "S7"):
        kind = tree.Verify if rule == "S3" else tree.Update
        first = next(x for x in layout.statements if isinstance(x.statement, kind))
        return [f"this is stage {layout.statements[place[1]].stage}; the first is in stage {first.stage}, "
                f"{at_line(layout, (2, first.place))}"]
    path, said = path_said(layout, breaks)
    if path is None:
        return []
    where = f"on the path{said}: " if said else ""
    return [where + it for it in happened(layout, rule, place, path)] or ([f"on the path{said}"] if said else [])


def happened(layout, rule, place, path):
    """What a path did before it broke a rule at a place."""
    statements = layout.on_path(path)
    if rule == "L7":
        taken = [it.statement for it in statements if isinstance(it.statement, tree.Reserve)]
        released = {(it.statement.memory, it.statement.address) for it in statements if isinstance(it.statement, tree.Release)}
        return [f"`{it.memory}[{it.address}]`, reserved in line {it.line}, is not released"
                for it in taken if (it.memory, it.address) not in released][:1]
    if rule[0] == "S":
        return [guess_said(layout, rule, place, statements)]
    statement = layout.statements[place[1]].statement
    if rule == "L8":
        stage = layout.statements[place[1]].stage
        last = next(it for it in layout.statements if isinstance(it.statement, tree.Release)
                    and it.statement.memory == statement.memory)
        bound = layout.next_stage(stage, path) if isinstance(statement, tree.Ask) else stage
        return [f"it is bound in stage {bound}, and `{statement.memory}` is released in stage {last.stage}, "
                f"line {last.statement.line}"]
    if rule in ("L3", "L4"):
        others = [it for it in statements if it.place < place[1] and isinstance(it.statement, (tree.Reserve, tree.Write))
                  and it.statement.memory == statement.memory
                  and (isinstance(it.statement, tree.Write) == isinstance(statement, (tree.Read, tree.Ask)))
                  and getattr(it.statement, "kind", "W") == ("W" if rule == "L3" else statement.kind)]
        return [f"`{statement.memory}` was {NAMED[type(it.statement)]} in line {it.statement.line}" for it in others[-1:]]
    if rule == "L6" and isinstance(statement, tree.Write):
        first = next(it.statement for it in statements if isinstance(it.statement, tree.Reserve)
                     and (it.statement.memory, it.statement.kind) == (statement.memory, "W"))
        return [f"`{first.memory}[{first.address}]`, reserved first for W in line {first.line}, has to be written before it"]
    done = history(layout, path, place, statement.memory, statement.address)
    name = f"`{statement.memory}[{statement.address}]`"
    found = [f"{name} was {', '.join(done)}" if done else f"{name} was not reserved"]
    if rule == "L1":
        found = [f"{found[0]}; {NEEDED[type(statement)]}"]
        kinds = {it.split(" in ")[0] for it in done if it.startswith("reserved")}
        if len(kinds) == 2:
            found.append("one variable is one location: reserve for R and for W by two variables, as `b = a;`")
        elif not done and said_with(layout, statement):
            found.append(f"line {said_with(layout, statement)} reserves it on other paths: a path chooses for each condition by "
                         "itself, so both have to stand under one")
    return found


def guess_said(layout, rule, place, statements):
    """What a path did with its guess or call before it broke S1, S2, or one of S4 to S6."""
    if rule == "S1":
        calls = [it for it in statements if isinstance(it.statement, (tree.Call, tree.SpecCall))]
        return f"one was made in line {calls[0].statement.line}" if calls else "no `call` and no `spec_call`"
    it = layout.statements[place[1]]
    if rule == "S2":
        name = it.statement.name
        again = [other for other in statements if isinstance(other.statement, tree.Verify) and other.statement.guess == name]
        return (f"it is verified in {' and '.join(f'line {other.statement.line}' for other in again)}" if again else
                f"no `verify` of `{name}`")
    if rule == "S6":
        return update_said(layout, statements, it)
    first = next(other for other in layout.statements if isinstance(other.statement, tree.Verify))
    wants = "`spec_barrier` before it" if rule == "S4" else f"`spec_check` before it in stage {it.stage}"
    return f"this is stage {it.stage}, the `verify` of line {first.statement.line} is in stage {first.stage}, and there is no {wants}"


def update_said(layout, statements, it):
    """Why an update may not stand where it does."""
    verifies = layout.verify_stage()
    before = [other for other in statements if other.place < it.place]
    guess = next(other for other in before if isinstance(other.statement, tree.SpecCall) and other.statement.name == it.statement.guess)
    if it.stage <= guess.stage:
        return f"this is stage {it.stage}, that of the `spec_call` in line {guess.statement.line}"
    if verifies is not None and it.stage >= verifies:
        return f"this is stage {it.stage}, which is not before stage {verifies}, that of the `verify`"
    return next(f"a guess was updated in line {other.statement.line}" for other in before if isinstance(other.statement, tree.Update))


def said_with(layout, statement):
    """The line in which another path reserves this location; None where none does."""
    return next((it.statement.line for it in layout.statements if isinstance(it.statement, tree.Reserve)
                 and (it.statement.memory, it.statement.address) == (statement.memory, statement.address)), None)


def details(text, rule, line, forms=TAKEN):
    """What of a source text breaks the rule at the line; nothing where the model finds nothing there."""
    if rule == "G1":
        return out_of_place(text, forms)
    layout = Layout(syntax.parse(text, forms), forms)
    asked = {"Z": rules.limits, "N": rule_names.names, "W": rule_names.widths, "F": rules.forks, "L": rule_locks.locks,
             "S": rule_guesses.guesses, "P": rule_advice.advice}.get(rule[0])
    said = {"Z": limits, "N": names, "W": widths, "F": stages, "L": on_path, "S": on_path, "P": advice}.get(rule[0])
    found = sorted(place for broken, place in asked(layout) if broken == rule) if asked else []
    if not found or rules.line_of(layout, found[0]) != line:
        return []
    return said(layout, rule, found[0])


def main():
    source, rule, line = usage.words(__doc__, 3, 3)
    text = pathlib.Path(source).read_bytes().decode("latin-1")
    try:
        found = details(text, rule, usage.number(line, 1))
    except syntax.Refused:
        usage.ends(f"{source} is no pipe: {rule} isn't asked of it")
    for it in found:
        print(it)


if __name__ == "__main__":
    usage.runs(main)
