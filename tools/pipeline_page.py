"""The drawing of a run as a page for a browser, and as a picture: what tools/pipeline.py writes with --html and --svg."""

import colorsys
import html
import json
import pathlib

from pdl_model import files
from pipeline_model import REASONS
from stage_names import stage_names

# The page without its run. It needs no other file, and nothing of the network.
PAGE = pathlib.Path(__file__).resolve().parent / "pipeline_page.html"

# Sizes of a picture: a letter, a cell, and the row of the cycles.
LETTER, CELL, ROW, HEAD = 7.3, 32, 20, 24
# The colours of a picture by day and by night: behind all, texts, numbers, lines, waits, squashed cells, reasons, crossings,
# commits; and the lightness and saturation of a stage whose thread moves, and of one whose thread doesn't.
DAY = ("#ffffff", "#1f2328", "#667079", "#e1e5ea", "#f3e7cd", "#c9ced4", "#b42318", "#c8232c", "#0f6b2f"), (82, 62), (93, 62)
NIGHT = ("#10141a", "#e6e8eb", "#9aa4af", "#262d35", "#3b3120", "#3f4750", "#ffab9f", "#ff7b72", "#63db7e"), (32, 42), (18, 34)
STYLE = (
    ".back{{fill:{}}}text{{fill:{};text-anchor:middle}}.name{{text-anchor:start}}.head{{fill:{}}}.line{{stroke:{}}}"
    ".wait{{fill:{}}}.gone{{fill:{}}}.why{{fill:{};font-weight:bold}}.cross{{stroke:{};stroke-width:1.5}}.commit{{fill:{}}}")


def stage_colour(stage, lightness, saturation):
    """The colour of a stage; those of neighbours differ."""
    hue = round((205 + 137.508 * stage) % 360)
    parts = colorsys.hls_to_rgb(hue / 360, lightness / 100, saturation / 100)
    return "#" + "".join(f"{round(255 * it):02x}" for it in parts)


def style(stages, colours, moving, still):
    """The style of a picture by day or by night."""
    return STYLE.format(*colours) + "".join(
        f".s{it}{{fill:{stage_colour(it, *moving)}}}.t{it}{{fill:{stage_colour(it, *still)};stroke:{stage_colour(it, *moving)}}}"
        for it in stages)


class Run:
    """A run as it is drawn: its threads, with what is told of them, the cycles that are waits, and the lines of `pdl run`."""

    def __init__(self, title, layout, source, threads, waits, lines):
        self.title, self.layout, self.threads, self.waits = title, layout, threads, waits
        self.names = stage_names(source, layout)
        self.end = lines[-1]
        self.cycles = int(self.end.split()[2])
        if sorted(lines[:-1]) != sorted(f"{cycle} {it}" for thread in threads for cycle, rows in self.commits(thread).items() for it in rows):
            raise SystemExit("pipeline.py: the model commits otherwise than `pdl run` says")

    def commits(self, thread):
        """Of each cycle what memories receive of a thread, as `pdl run` prints it: memory, address and value."""
        pipe = self.layout.pipe
        return {cycle: [f"{memory} {address} {files.digits(value, pipe.memory(memory).width)}" for memory, address, value in commits]
                for cycle, commits in thread.told.commits.items()}

    # The page

    def row(self, thread):
        """What the page has of a thread."""
        row = {"begun": thread.begun, "label": thread.label, "cells": " ".join(thread.cells(True))}
        row |= {"squashed": True} if thread.is_squashed else {}
        row |= {"causes": thread.told.causes} if thread.told.causes else {}
        return row | ({"commits": self.commits(thread)} if thread.told.commits else {})

    def data(self):
        """What the page has of the run, as a text that stands in it."""
        head = {"title": self.title, "cycles": self.cycles, "end": self.end, "stages": self.names, "reasons": REASONS, "waits": self.waits}
        rows = ",\n".join(json.dumps(self.row(it), separators=(",", ":")) for it in self.threads)
        return f'{json.dumps(head)[:-1]}, "threads": [\n{rows}\n]}}'.replace("<", "\\u003c")

    def page(self):
        """The page."""
        return PAGE.read_text().replace("@TITLE@", html.escape(self.title)).replace("@RUN@", self.data())

    # The picture

    def picture(self):
        """The drawing as a picture, with the letters of the reasons."""
        names = [f"{it.number} {it.label}".rstrip() for it in self.threads]
        left = round(16 + LETTER * max([len("thread"), *map(len, names)]))
        wide, high = left + CELL * self.cycles + 8, HEAD + ROW * len(names) + 8
        stages = sorted({stage for it in self.threads for stage in it.stages})
        return "\n".join([
            f'<svg xmlns="http://www.w3.org/2000/svg" width="{wide}" height="{high}" viewBox="0 0 {wide} {high}" '
            'font-family="monospace" font-size="12">',
            f"<title>{html.escape(self.title)}</title>",
            f"<style>{style(stages, *DAY)}@media(prefers-color-scheme:dark){{{style(stages, *NIGHT)}}}</style>",
            f'<rect class="back" width="{wide}" height="{high}"/>',
            *[f'<rect class="wait" x="{left + CELL * (it - 1)}" width="{CELL}" height="{high}"/>' for it in self.waits],
            f'<path class="line" d="{"".join(f"M{left + CELL * it} {HEAD}V{high - 8}" for it in range(self.cycles + 1))}"/>',
            f'<text class="name head" x="8" y="16">thread</text>',
            *[f'<text class="head" x="{left + CELL * it + CELL // 2}" y="16">{it + 1}</text>' for it in range(self.cycles)],
            *[line for at, it in enumerate(self.threads) for line in self.picture_row(it, names[at], left, HEAD + ROW * at)],
            "</svg>", ""])

    def picture_row(self, thread, name, left, top):
        """The row of a thread in a picture: its name, its cells, its commits, and the line through a squashed one."""
        yield f'<text class="name" x="8" y="{top + 14}">{html.escape(name)}</text>'
        first = left + CELL * (thread.begun - 1)
        for at, (cell, stage, moves) in enumerate(zip(thread.cells(True), thread.stages, thread.moves)):
            x, letter = first + CELL * at, cell.lstrip("0123456789")
            kind = "gone" if letter == "x" else f"{'s' if moves else 't'}{stage}"
            yield f'<rect class="{kind}" x="{x + 1.5}" y="{top + 1.5}" width="{CELL - 3}" height="{ROW - 3}"/>'
            why = f'<tspan class="why">{letter}</tspan>' if letter else ""
            yield f'<text x="{x + CELL // 2}" y="{top + 14}">{stage}{why}</text>'
            if thread.begun + at in thread.told.commits:
                yield f'<path class="commit" d="M{x + CELL - 1.5} {top + ROW - 8.5}v7h-7z"/>'
        if thread.is_squashed:
            yield f'<path class="cross" d="M{first + 2} {top + ROW // 2}H{first + CELL * len(thread.stages) - 2}"/>'
