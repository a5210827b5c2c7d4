"""Names of the stages of a pipe, by the comments of its source.

A stage has the name that a comment behind its `---` gives it, in the same line, or in the next line where that has nothing
else; stage 0 has that of the line above its first statement. A name has up to 32 characters. `// read`, `// read ------` and
`// stage 1: read` all say `read`.
"""

import re

from pdl_model import tree

LONGEST = 32


def name_in(line, mark):
    """The name that the comment of a line gives, where `mark` is all that stands before it; else an empty one."""
    before, begun, text = line.partition("//")
    name = re.sub(r"^stage \d+[^:]*:|[\s-]*--\s*$", "", text.strip()).strip()
    return name if begun and before.strip() == mark and len(name) <= LONGEST else ""


def stage_names(text, layout):
    """Of each stage its name, an empty one where the source has none."""
    lines = ["", *text.split("\n"), ""]
    names = [name_in(lines[layout.statements[0].statement.line - 1], "")] + [""] * (layout.count - 1)
    for it in layout.statements:
        if isinstance(it.statement, tree.Separator):
            line = it.statement.line
            names[it.stage] = name_in(lines[line], "---") or name_in(lines[line + 1], "")
    return names
