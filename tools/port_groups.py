"""The ports of a netlist in groups: those of each stage, those of each memory, and those of the run."""

import re

from stage_names import stage_names

STAGE = re.compile(r"[vg]_(\d+)")
MEMORY = re.compile(r"(?:c|ca|cd|q|qa|p|pd|c2|ca2|cd2)_(\w+)")
RUN = ("ended", "squash")


def group_of(port):
    """What a port belongs to: the number of a stage, the name of a memory, `run`, or nothing, as a pair of a kind and that."""
    for kind, form in (("stage", STAGE), ("memory", MEMORY)):
        found = form.fullmatch(port)
        if found:
            return kind, found[1]
    return ("run", "") if port in RUN else None


def grouped(ports):
    """The groups of a list of ports, each with its ports: the stages in their order, the memories, and then the run."""
    found = {}
    for port in ports:
        group = group_of(port)
        if group:
            found.setdefault(group, []).append(port)
    order = {"stage": 0, "memory": 1, "run": 2}
    return dict(sorted(found.items(), key=lambda it: (order[it[0][0]], int(it[0][1]) if it[0][0] == "stage" else 0)))


def lines_of(layout, stage):
    """The lines of a source in which the statements of a stage stand."""
    lines = [it.statement.line for it in layout.by_stage[stage]]
    if not lines:
        return "no line"
    return f"line {lines[0]}" if min(lines) == max(lines) else f"lines {min(lines)} to {max(lines)}"


def stage_titles(text, layout):
    """Of each stage its number, its name where the source has one, and its lines."""
    names = stage_names(text, layout)
    return [f"stage {stage}{f', {name}' if name else ''}: {lines_of(layout, stage)}" for stage, name in enumerate(names)]


def title(group, text=None, layout=None):
    """What a group is called; with a source also where it stands there."""
    kind, name = group
    if kind == "run":
        return "threads that end, and wrong guesses"
    if layout is None:
        return f"{kind} {name}"
    if kind == "stage":
        return stage_titles(text, layout)[int(name)]
    memory = layout.pipe.memory(name)
    more = [word for word, holds in (("delayed", memory.delayed), (f"lock {memory.lock}({memory.size})", memory.lock)) if holds]
    return f"memory {name}{''.join(f', {it}' for it in more)}"
