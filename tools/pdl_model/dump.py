"""What a value change dump says (docs/waves.md).

It goes another way than a program that writes one: it takes the text apart, and looks backwards from each cycle. A text
of another form says nothing.
"""

import bisect
import re

NUMBER = "(0|[1-9][0-9]*)"


class NoDump(Exception):
    """The text is of another form."""


def want(holds, what):
    if not holds:
        raise NoDump(what)


def matched(form, line):
    """The parts of a line of this form."""
    found = re.fullmatch(form, line)
    want(found, f"not of the form {form}: {line}")
    return found.groups()


def code(port):
    """The code of a port, by its number from 0."""
    if port < 94:
        return chr(33 + port)
    return chr(33 + port // 94 - 1) + chr(33 + port % 94)


class Wave:
    """The name of a pipe, its ports with their widths, how many cycles its run had, and when each port changed."""

    def __init__(self, text):
        self.lines = text.split("\n")
        want(self.lines.pop() == "", "the last line has no end")
        self.lines.reverse()
        self.take_header()
        self.times = [[] for _ in self.ports]
        self.values = [[] for _ in self.ports]
        moments = self.take_moments()
        self.cycles = self.checked(moments) - 1

    def next_line(self):
        want(self.lines, "the text ends too early")
        return self.lines.pop()

    def take_header(self):
        want(self.next_line() == "$timescale 1 ns $end", "no time scale")
        self.name, = matched(r"\$scope module pdl_([^ ]*) \$end", self.next_line())
        self.ports = []
        while (line := self.next_line()) != "$upscope $end":
            width, letters, name = matched(rf"\$var wire {NUMBER} ([^ ]*) ([^ ]*) \$end", line)
            want(1 <= int(width) <= 128, f"a width of {width}")
            want(letters == code(len(self.ports)), f"the code {letters} of the port {len(self.ports)}")
            self.ports.append((name, int(width)))
        want(self.next_line() == "$enddefinitions $end", "no end of the header")
        want(len(self.ports) < 8930, "too many ports")

    def take_moments(self):
        """The times, each with the changes after it: ports by their numbers, and values."""
        numbers = {code(port): port for port in range(len(self.ports))}
        moments = []
        while self.lines:
            line = self.lines.pop()
            if line.startswith("#"):
                moments.append((int(matched(f"#{NUMBER}", line)[0]), []))
                continue
            digits, letters = matched("b([01]*) ([^ ]*)", line)
            want(moments, "a change before the first time")
            want(letters in numbers, f"no port has the code {letters}")
            port = numbers[letters]
            want(len(digits) == self.ports[port][1], f"{len(digits)} digits for the port {port}")
            moments[-1][1].append((port, int(digits, 2)))
        return moments

    def checked(self, moments):
        """The last time, of moments that tell each change once, and nothing else."""
        want(moments and moments[0][0] == 1, "the first time is not 1")
        *others, (last, changes) = moments
        want(not changes, "changes at the last time")
        for place, (time, changes) in enumerate(others):
            ports = [port for port, _ in changes]
            want(time < moments[place + 1][0], f"the time {time} is not before the next one")
            want(ports == sorted(set(ports)), f"ports in another order at time {time}")
            want(ports if place else len(ports) == len(self.ports), f"changes are missing at time {time}")
            for port, value in changes:
                want(self.value(port, time - 1) != value, f"the port {port} keeps its value at time {time}")
                self.times[port].append(time)
                self.values[port].append(value)
        return last

    def value(self, port, cycle):
        """The value of a port in a cycle, that of its last change at a time not above the cycle; none before the first."""
        place = bisect.bisect_right(self.times[port], cycle)
        return self.values[port][place - 1] if place else None

    def rows(self):
        """The values of all ports in each cycle."""
        return [[self.value(port, cycle) for port in range(len(self.ports))] for cycle in range(1, self.cycles + 1)]
