"""Images and delay files, and the lines that are printed of a run."""

import re

from .machine import Machine
from .sequential import Sequential


# A line that gives a word, or a range of words.
GIVES = re.compile(
    r"(?P<name>[a-z][a-z0-9_]{0,31}) (?P<first>[0-9]{1,10})(\.\.(?P<last>[0-9]{1,10}))? (?P<value>[0-9a-f]{1,32})")


class WrongFile(Exception):
    """An image or a delay file is refused: by which rule, and at which line."""


def read_image(pipe, text):
    """The words of each memory: a word that isn't given is 0."""
    image = {memory.name: [0] * memory.depth for memory in pipe.memories}
    lines = text.removesuffix("\n").split("\n")
    if lines[0] not in ("image 1", "image 2"):
        raise WrongFile("refused I1 line 1")
    given = set()
    for number, line in enumerate(lines[1:], 2):
        if line and not line.startswith("//"):
            found = GIVES.fullmatch(line)
            if found is None or found["last"] and lines[0] == "image 1":
                raise WrongFile(f"refused I2 line {number}")
            memory, value = pipe.memory(found["name"]), int(found["value"], 16)
            first, last = int(found["first"]), int(found["last"] or found["first"])
            rule = image_rule(memory, first, last, value, given)
            if rule:
                raise WrongFile(f"refused {rule} line {number}")
            for address in range(first, last + 1):
                given.add((memory.name, address))
                image[memory.name][address] = value
    return image


def image_rule(memory, first, last, value, given):
    """The rule that a line of an image with the right form breaks, or None."""
    if memory is None:
        return "I3"
    if max(first, last) >= memory.depth:
        return "I4"
    if value >> memory.width:
        return "I5"
    if last < first:
        return "I7"
    return "I6" if any((memory.name, address) in given for address in range(first, last + 1)) else None


def read_delays(pipe, text):
    """The rows of a delay file: for each cycle the memories whose reply bit is 1."""
    names = [memory.name for memory in pipe.delayed()]
    rows = text.removesuffix("\n").split("\n") if text else []
    return [{name for name, bit in zip(names, row) if bit == "1"} for row in rows]


def replies_of(pipe, rows, cycle):
    """The replies of a cycle, counted from 1: after the last row all bits are 1."""
    return rows[cycle - 1] if cycle <= len(rows) else {memory.name for memory in pipe.delayed()}


def digits(value, width):
    """A value in hexadecimal, with as many digits as its width needs."""
    return f"{value:0{(width + 3) // 4}x}"


def turns(layout, image, cycles, rows=()):
    """The ports of each cycle of a run."""
    machine = Machine(layout, image)
    for cycle in range(1, cycles + 1):
        yield machine.cycle(replies_of(layout.pipe, rows, cycle))


def run_lines(layout, image, cycles, rows=()):
    """The lines of `run`: a line for each commit, and the end line."""
    seen = list(turns(layout, image, cycles, rows))
    lines = [
        f"{cycle} {memory.name} {commit[0]} {digits(commit[1], memory.width)}"
        for cycle, ports in enumerate(seen, 1)
        for memory in layout.pipe.locked()
        for commit in ports.commits[memory.name]]
    ended, waits, squashes = (sum(getattr(it, name) for it in seen) for name in ("ended", "waits", "squash"))
    return [*lines, f"end cycles {cycles} ended {ended} waits {waits} squashes {squashes}"]


def view_lines(layout, image, cycles, rows=()):
    """The lines of `view`: of each stage `.` where it is empty, `M` where its thread moves, `S` where it doesn't."""
    return [
        f"{cycle} " + "".join("M" if moves else "S" if valid else "." for valid, moves in zip(it.valid, it.moves))
        for cycle, it in enumerate(turns(layout, image, cycles, rows), 1)]


def seq_lines(layout, image, threads):
    """The lines of `seq`: a line for each write, and the end line."""
    sequential = Sequential(layout, image)
    lines = [
        f"{number} {memory} {address} {digits(value, layout.pipe.memory(memory).width)}"
        for number in range(1, threads + 1)
        for memory, address, value in sequential.turn(number).writes]
    return [*lines, f"end threads {threads}"]


def port_line(layout, ports):
    """All ports of a cycle as the netlist names them, in its order, in hexadecimal, `name=value`."""
    pairs = [pair for stage, (valid, moves) in enumerate(zip(ports.valid, ports.moves))
             for pair in ((f"v_{stage}", valid), (f"g_{stage}", moves))]
    for memory in layout.pipe.locked():
        for place in range(2 if memory.name in layout.written_twice else 1):
            commits = ports.commits[memory.name][place:]
            address, value = commits[0] if commits else (0, 0)
            names = [f"{letters}{'2' * place}_{memory.name}" for letters in ("c", "ca", "cd")]
            pairs += zip(names, (bool(commits), address, value))
    for memory in layout.pipe.delayed():
        address = ports.requests[memory.name]
        pairs += [(f"q_{memory.name}", address is not None), (f"qa_{memory.name}", address or 0)]
    pairs += [("ended", ports.ended), ("squash", ports.squash)]
    return " ".join(f"{name}={int(value):x}" for name, value in pairs)
