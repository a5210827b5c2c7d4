"""The forms of the language that a program may take or not, each one by itself."""

import enum


class Forms(enum.Flag):
    """Some of the forms.

    TWO_WRITES    a path may reserve one memory twice for writing, by two variables
    NESTED_FORKS  an `if` that holds a `---` may stand in a branch of another
    UPDATE        `update` replaces a guess before it is verified
    ADVISORY      memories of advice, which are read and written without a reservation
    """

    TWO_WRITES = enum.auto()
    NESTED_FORKS = enum.auto()
    UPDATE = enum.auto()
    ADVISORY = enum.auto()


ALL = Forms.TWO_WRITES | Forms.NESTED_FORKS | Forms.UPDATE | Forms.ADVISORY
# Those that the program takes today. Any others are refused as words that there aren't.
TAKEN = ALL


def word_of(form):
    """How one form is named in a call of a tool."""
    return form.name.lower().replace("_", "-")


def named(text):
    """The forms that a text names, as `two-writes,update`, `all` or `none`; None where it names another."""
    words = {word_of(form): form for form in Forms} | {"all": ALL, "none": Forms(0)}
    found = Forms(0)
    for word in text.split(","):
        if word not in words:
            return None
        found |= words[word]
    return found


def out_of(words):
    """The words of a call without `--forms FORMS`, and these forms; those that the program takes where none are told.

    None in the place of the forms where FORMS names others.
    """
    if "--forms" not in words[:-1]:
        return words, TAKEN
    at = words.index("--forms")
    return words[:at] + words[at + 2 :], named(words[at + 1])
