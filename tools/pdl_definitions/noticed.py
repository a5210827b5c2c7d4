"""Which rows of tests/ notice that a definition is another one."""

import resource
import signal
from typing import NamedTuple

from . import answers, grammar
from .lexer import Unreadable

# So many CPU seconds a row may take, and all rows of one change; so many bytes the texts of a row may have.
MOST, MOST_TOGETHER, MOST_BYTES = 8, 90, 50000


# What a value of another type leads to.
ILL = TypeError, AttributeError, KeyError, ValueError, ZeroDivisionError, StopIteration


# The crates whose definitions say nothing but what form a text has.
OF_FORMS = "pdl_syntax_tokens", "pdl_syntax_cursor", "pdl_syntax_grammar", "pdl_vread_text"


class TooLong(Exception):
    """A row takes too long."""


class Known(NamedTuple):
    """A row with its answer, the functions that it calls, and how long it takes; the form of its text, a tree or a file,
    with that text; and the constructors that a tree uses."""
    row: object
    said: tuple
    calls: frozenset
    seconds: float
    form: tuple
    used: frozenset


def spent():
    return resource.getrusage(resource.RUSAGE_SELF).ru_utime


def stops(*_):
    raise TooLong


def is_right(row, said):
    status, text = said
    return status == row.status and (text == row.text or row.line and row.text in text.splitlines(True))


class Noticed:
    """The rows that the definitions answer, the fast ones first."""

    def __init__(self, asked, rows):
        signal.signal(signal.SIGVTALRM, stops)
        self.asked, self.known, self.wrong, self.slow, self.outcomes, self.uses = asked, [], [], [], {}, {}
        for row in rows:
            self.learn(row)
        self.known.sort(key=lambda it: it.seconds)

    def learn(self, row):
        self.forget()
        if sum(len(text) for _, text in row.words) > MOST_BYTES:
            self.slow.append(row)
            return
        begun = spent()
        try:
            said = self.said(row)
        except answers.Silent:
            return
        except TooLong:
            self.slow.append(row)
            return
        if is_right(row, said):
            self.known.append(Known(row, said, frozenset(self.asked.all.seen), spent() - begun, *self.form(row)))
        else:
            self.wrong.append((row, said))

    def form(self, row):
        """The form of a row's text, with the constructors that it uses, or nothing where it has none."""
        kind = "tree" if "grammar" in self.asked.all.seen else "file" if row.words[0][1] == "sim" else None
        if kind is None:
            return None, frozenset()
        form = kind, row.words[1][1]
        if form not in self.outcomes:
            self.outcomes[form] = self.outcome(form)
            self.uses[form] = self.asked.parser.used() if kind == "tree" else frozenset()
        return form, self.uses[form]

    def forget(self):
        self.asked.all.seen.clear()
        self.asked.all.forget()

    @staticmethod
    def in_time(ask, given):
        """What is answered, unless that takes too long."""
        signal.setitimer(signal.ITIMER_VIRTUAL, MOST)
        try:
            return ask(given)
        finally:
            signal.setitimer(signal.ITIMER_VIRTUAL, 0)

    def said(self, row):
        return self.in_time(self.asked.answer, row.words)

    def by_row(self, rows):
        """The place of the first row that is answered otherwise, `ill-formed` where a value has another type, or nothing."""
        begun, ill = spent(), None
        for it in rows:
            try:
                if self.said(it.row) != it.said:
                    return it.row.place
            except TooLong:
                return it.row.place
            except (answers.Silent, IndexError):
                return it.row.place
            except ILL as why:
                ill = ill or f"ill-formed: {type(why).__name__} {why}"
                break
            if spent() - begun > MOST_TOGETHER:
                return "no row in time"
        return ill

    def function(self, key, it):
        """What notices another function in the place of one."""
        name = self.asked.all.name(key)
        try:
            self.asked.all.changed(key, it)
        except (Unreadable, SyntaxError, KeyError) as why:
            return f"ill-formed: {why}"
        try:
            if key[:2] == grammar.PLACE:
                return self.relations(self.asked.grammar_text)
            rows = [known for known in self.known if name in known.calls]
            self.asked.changed = name
            by = self.by_form if key[0] in OF_FORMS else self.by_row
            return by(rows) if rows else "no row calls it"
        finally:
            self.asked.changed = None
            self.asked.all.restored()

    def relations(self, text):
        """What notices other relations of the grammar."""
        kept, self.asked.changed = (self.asked.grammar, self.asked.parser), "grammar"
        try:
            self.asked.grammar = grammar.Grammar(self.asked.all, text)
            self.asked.parser = grammar.Parser(self.asked.grammar)
            changed = self.asked.grammar.others(kept[0])
            rows = [it for it in self.known if "grammar" in it.calls]
            return self.by_form(sorted(rows, key=lambda it: not changed & it.used))
        except (Unreadable, StopIteration) as why:
            return f"ill-formed: {why}"
        finally:
            (self.asked.grammar, self.asked.parser), self.asked.changed = kept, None

    def by_form(self, rows):
        """What notices other forms: the rows are asked whose text has another form, or is refused otherwise."""
        begun, twice = spent(), None
        for it in rows:
            try:
                if self.outcome(it.form) == self.outcomes[it.form]:
                    continue
            except grammar.Ambiguous:
                twice = twice or f"two trees: {it.row.place}"
                continue
            except (TooLong, IndexError):
                return it.row.place
            except ILL as why:
                return f"ill-formed: {type(why).__name__} {why}"
            found = self.by_row([it])
            if found or spent() - begun > MOST_TOGETHER:
                return found or "no row in time"
        return twice

    def outcome(self, form):
        """The form of a text, or why it has none."""
        try:
            return self.in_time(self.asked.tree if form[0] == "tree" else self.asked.file, form[1])
        except answers.Refused as refusal:
            return str(refusal)
