#!/usr/bin/env python3
"""Writes what `make install` installs beside the program: its manual page, and its completions for bash and zsh.

    installed_files.py [--write]

They stand in install/, and are made of README.md, docs/images.md and the commands that the program takes. Without --write it
says which of them are not as they would be written, and where README.md lists other commands than the program takes.
"""

import command_table
import completions
import manual
import usage

FOLDER = command_table.TOP / "install"


def texts():
    """The text of each file."""
    return {"pdl.1": manual.manual(), "pdl.bash": completions.bash(), "_pdl": completions.zsh()}


def main():
    words = usage.words(__doc__, 0, 1)
    if words not in ([], ["--write"]):
        usage.ends(f"`{words[0]}` is no option of it")
    wrong = list(command_table.complaints())
    wrong += [f"tools/completions.py does not say which files {word} names" for word in completions.unknown()]
    for name, text in () if wrong else texts().items():
        file = FOLDER / name
        if words:
            FOLDER.mkdir(exist_ok=True)
            file.write_text(text)
        elif not file.exists() or file.read_text() != text:
            wrong.append(f"install/{name} is not what tools/installed_files.py --write writes")
    print("".join(f"{it}\n" for it in wrong), end="")
    return 1 if wrong else 0


if __name__ == "__main__":
    usage.runs(main)
