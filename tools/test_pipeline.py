#!/usr/bin/env python3
"""Random pipes by the model of tools/pdl_model: pipeline.py has to find each thread in the stages in which it stands.

    test_pipeline.py [PIPES [SEED]]

It gives pipeline.py the lines of `view` and the squashes, and compares the rows with the threads of the model. What is told of
the threads has to name a reason and a cause for each cycle in which one doesn't move, and the commits and waits of the run.
"""

import random

import pipeline
import pipeline_model
import random_whole
import usage
from pdl_model import files, rules
from pdl_model.machine import Machine
from pdl_model.syntax import Refused

CYCLES = 60


def watched(layout, image, rows):
    """Of each thread, by its number from 1 in the order in which threads begin, its stage in each cycle; and the squashes."""
    machine, squashes, found, numbers = Machine(layout, image), [], {}, {}
    for cycle in range(1, CYCLES + 1):
        for stage, thread in enumerate(machine.state.stages):
            if thread is not None:
                number = numbers.setdefault(thread.number, len(numbers) + 1)
                found.setdefault(number, {})[cycle] = stage
        squashes.append(machine.cycle(files.replies_of(layout.pipe, rows, cycle)).squash)
    return found, squashes


def is_followed(chance):
    """Whether the threads of a random pipe are found, or None where it is no pipe."""
    made = random_whole.RandomPipe(chance, random_whole.random_features(chance))
    try:
        layout = rules.checked(made.source())
    except Refused:
        return None
    image, delays = made.image(), made.delay_rows(CYCLES)
    rows = files.read_delays(layout.pipe, delays)
    due, squashes = watched(layout, files.read_image(layout.pipe, image), rows)
    lines = [line.split(" ")[1] for line in files.view_lines(layout, files.read_image(layout.pipe, image), CYCLES, rows)]
    came = pipeline.followed(layout, lines, squashes)
    is_found = due == {it.number: dict(enumerate(it.stages, it.begun)) for it in came}
    words = files.read_image(layout.pipe, image)
    modelled = pipeline_model.modelled(layout, words, lines, rows)
    return is_found and is_told(layout, came, modelled, files.run_lines(layout, words, CYCLES, rows))


def is_told(layout, threads, modelled, lines):
    """Whether what is told of the threads has the cycles in which they don't move, and the commits and waits of the run."""
    told, waits = modelled
    stalls = [{it.begun + k for k, moves in enumerate(it.moves) if not moves} for it in threads]
    commits = [f"{cycle} {memory} {address} {files.digits(value, layout.pipe.memory(memory).width)}"
               for it in told for cycle, found in it.commits.items() for memory, address, value in found]
    causes = [{cycle for cycle, cause in it.causes.items() if cause} for it in told]
    return (stalls == [set(it.reasons) for it in told] == causes
            and sorted(commits) == sorted(lines[:-1]) and f" waits {len(waits)} " in lines[-1])


def main():
    given = usage.words(__doc__, 0, 2)
    count, seed = map(usage.number, given + ["300", "1"][len(given):])
    answers = [is_followed(random.Random(f"{seed} {number}")) for number in range(count)]
    print(f"pipes {answers.count(True)} wrong {answers.count(False)}")
    return 1 if False in answers else 0


if __name__ == "__main__":
    usage.runs(main)
