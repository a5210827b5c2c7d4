"""What the definitions answer to the words of a row: a status and a text, or nothing where they say nothing of such words."""

import re

from . import grammar, library
from .library import Record, codes, items, linked

CRATES = ("pdl_word pdl_kit pdl_semantics pdl_syntax_tokens pdl_syntax_cursor pdl_syntax_grammar pdl_rules pdl_image pdl_net "
          "pdl_vread_text pdl_vread_nets pdl_vread_rules pdl_vread_pipe pdl_vread pdl_asm_table pdl_asm pdl_law_parts "
          "pdl_netrun_lines").split()


class Refused(Exception):
    """A text breaks a rule at a line."""


class Silent(Exception):
    """The definitions aren't asked of such words."""


def numbers_in(text):
    """The numbers that a text writes, and those of the first addresses and the last."""
    return {0, 65535, 65534, *(int(it, 0) for it in re.findall(r"0x[0-9a-f]+|[1-9][0-9]*", text))}


def string(text):
    return bytes(items(text)).decode("latin-1")


class Answers:
    """The definitions of all crates, asked what the program is."""

    def __init__(self, all_definitions, grammar_text):
        self.all = all_definitions
        self.grammar, self.grammar_text = grammar.Grammar(all_definitions, grammar_text), grammar_text
        self.parser = grammar.Parser(self.grammar)
        # What was found before, with the functions that it took; and the name of the function that is another now.
        self.found, self.given_before, self.changed = {}, {}, None

    def remembered(self, key, make, *given):
        """What is made, or was made before without a function that is another now; so of a refusal."""
        if key not in self.found or self.changed in self.found[key][1]:
            before = set(self.all.seen)
            self.all.seen.clear()
            try:
                made = make(*given), None
            except Refused as refusal:
                made = None, refusal
            known = made, frozenset(self.all.seen)
            self.all.seen.update(before)
            if self.changed is not None:
                return self.given(made)
            self.found[key] = known
        made, calls = self.found[key]
        self.all.seen.update(calls)
        return self.given(made)

    @staticmethod
    def given(made):
        if made[1]:
            raise made[1]
        return made[0]

    def call(self, place, *given):
        return self.all[tuple(place.split("."))](*given)

    def answer(self, words):
        """The status and the text that a row's words are answered with."""
        command, *rest = words
        asked = {"check": self.check, "run": self.run, "view": self.run, "seq": self.run, "sim": self.sim, "asm": self.asm}
        if command[1] not in asked:
            raise Silent
        try:
            return 0, asked[command[1]](command[1], rest)
        except Refused as refusal:
            return 2, f"refused {refusal}\n"

    def taken(self, words, files, numbers):
        """The files and numbers among words, and the text of delays."""
        delays = None
        if ("word", "--delays") in words:
            at = words.index(("word", "--delays"))
            delays = words[at + 1 : at + 2]
            words = words[:at] + words[at + 2 :]
        kinds = [kind for kind, _ in words] + [kind for kind, _ in delays or []]
        if kinds != ["file"] * files + ["word"] * numbers + ["file"] * (delays is not None):
            raise Silent
        if not all(text.isdigit() and int(text) <= 1000000 for _, text in words[files:]):
            raise Silent
        return [text for _, text in words[:files]], [int(text) for _, text in words[files:]], delays[0][1] if delays else None

    def found_from(self, kind, text, given, make):
        """What is made of something given that a text has, or what was made of it before, where it's the same now."""
        known = self.given_before.setdefault((kind, text), given)
        if given is known or given == known:
            return self.remembered((kind, text), make, text, known)
        return make(text, given)

    # Sources

    def pipe(self, source):
        """The pipe of a source that breaks no rule."""
        return self.found_from("pipe", source, self.tree(source), self.judged)

    def tree(self, source):
        """The pipe of a text in the grammar."""
        tokens = self.remembered(("tokens", source), self.tokens, source)
        wrong = self.found_from("limits", source, tokens, self.past_limits)
        return self.found_from("tree", source, (tokens, wrong), self.parsed)

    def tokens(self, source):
        return list(items(self.call("pdl_syntax_tokens.Tokens.tokens", codes(source))))

    def parsed(self, source, given):
        """The pipe of tokens in the grammar, of which the one of a number, if there is any, is past a limit."""
        tokens, wrong = given
        self.all.seen.add("grammar")
        try:
            pipe = self.parser.parse(("Text",), tokens[:wrong])
        except grammar.Misplaced as at:
            wrong = at.args[0]
        if wrong is not None:
            last = self.call("pdl_syntax_tokens.Tokens.last_line", codes(source))
            raise Refused(f"G1 line {self.call('pdl_syntax_grammar.Text.line_of', linked(tokens[wrong:]), last)}")
        return pipe

    def judged(self, source, pipe):
        """The pipe where it breaks no rule."""
        text = codes(source)
        refusal = self.call("pdl_rules.Refusal.refusal", text, pipe)
        if refusal.name == "Some":
            raise Refused(f"{refusal.parts[0].rule.name} line {refusal.parts[0].line}")
        return pipe

    def past_limits(self, source, tokens):
        """The number of the first token that is past a limit, if there is one."""
        place = "pdl_syntax_cursor.Limits."
        counts = self.all["pdl_syntax_cursor", "Limits", "at_start"]()
        for number, token in enumerate(tokens):
            counts = self.call(place + "counts_after", counts, token.kind)
            if not self.call(place + "is_within", counts):
                return number
        return None

    def check(self, command, words):
        (source,), _, _ = self.taken(words, 1, 0)
        return string(self.call("pdl_semantics.Lines.accepted_line", self.pipe(source)))

    def mems(self, pipe):
        """The memories of a pipe as images know them."""
        return linked([Record(name=it.name.name, width=it.width.value, depth=it.depth.value, delayed=it.kind.name == "Delayed")
                       for it in items(pipe.mems)])

    def read(self, place, *given, at="line"):
        """What a text of one of the other files is, unless it is refused."""
        result = self.call(place, *given)
        if result.name == "Err":
            rule, line = result.parts[0].parts
            raise Refused(f"{rule.name} {at} {line}")
        return result.parts[0]

    def delay_rows(self, mems, delays):
        """The rows of a delay file, none where there is no such file."""
        count = sum(it.delayed for it in items(mems))
        return self.read("pdl_image.Delays.delays", count, codes(delays)) if delays is not None else ()

    def replies(self, mems, delays, cycles):
        """The reply bits of each cycle, as numbers."""
        rows = self.delay_rows(mems, delays)
        return [self.call("pdl_image.Delays.bits_in", rows, cycle) for cycle in range(1, cycles + 1)]

    def run(self, command, words):
        (source, image), (count,), delays = self.taken(words, 2, 1)
        pipe = self.pipe(source)
        mems = self.mems(pipe)
        given = self.read("pdl_image.Images.image", mems, codes(image))
        if command == "seq":
            return string(self.call("pdl_semantics.Lines.seq_lines", pipe, given, count))
        places = range(sum(it.delayed for it in items(mems)))
        replies = self.replies(mems, delays, count)
        schedule = linked([linked([number >> place & 1 == 1 for place in places]) for number in replies])
        return string(self.call(f"pdl_semantics.Lines.{command}_lines", pipe, given, schedule))

    # Netlists

    def netlist(self, text):
        """The netlist of a text that breaks no rule."""
        return self.found_from("netlist", text, self.file(text), self.wired)

    def file(self, text):
        """What a text in the grammar declares."""
        tokens = self.remembered(("words", text), lambda: list(items(self.call("pdl_vread_text.Tokens.tokens", codes(text)))))
        return self.found_from("file", text, tokens, self.declared)

    def declared(self, text, tokens):
        """What these tokens declare."""
        taken, part, at = [], library.Made("Start"), 0
        while part.name != "Finished" or at < len(tokens):
            rule, end = self.rule_at(text, part, tokens, at)
            taken.append(Record(rule=rule, found=linked(tokens[at:end])))
            part, at = self.call("pdl_vread_text.Grammar.next", rule), end
        return self.call("pdl_vread_text.Drafts.file_of", linked(taken))

    def rule_at(self, text, part, tokens, at):
        """The rule that comes at a part, and the place after its tokens."""
        rule = self.call("pdl_vread_text.Grammar.chosen", part, tokens[at].text) if at < len(tokens) else library.NOTHING
        if rule.name == "None":
            self.misplaced(text, tokens, at)
        for field in items(self.call("pdl_vread_text.Grammar.fields", *rule.parts)):
            if at == len(tokens) or not self.call("pdl_vread_text.Grammar.fits", field, tokens[at].text):
                self.misplaced(text, tokens, at)
            at += 1
        return rule.parts[0], at

    def misplaced(self, text, tokens, at):
        last = self.call("pdl_vread_text.Tokens.last_line", codes(text))
        raise Refused(f"V1 line {self.call('pdl_vread_text.Text.line_of', linked(tokens[at:]), last)}")

    def wired(self, text, file):
        """The netlist of a file."""
        wiring = self.call("pdl_vread_nets.Wired.wiring", file)
        if wiring.name == "Err":
            raise Refused(f"V2 line {wiring.parts[0]}")
        for rule, place in ("V3", "Widths.width_line"), ("V4", "Once.once_line"):
            line = self.call(f"pdl_vread_rules.{place}", file, wiring.parts[0])
            if line.name == "Some":
                raise Refused(f"{rule} line {line.parts[0]}")
        built = self.call("pdl_vread.Built.built", file, wiring.parts[0])
        mems = self.call("pdl_vread_pipe.Tests.judged", built)
        if mems.name == "None":
            raise Refused(f"V5 line {file.line}")
        return self.call("pdl_vread_pipe.ToldParts.with_mems", built, mems.parts[0])

    def sim(self, command, words):
        (text, image), (count,), delays = self.taken(words, 2, 1)
        netlist = self.netlist(text)
        given = self.read("pdl_image.Images.image", netlist.mems, codes(image))
        replies = self.call("pdl_netrun_lines.Printed.schedule", self.delay_rows(netlist.mems, delays), count)
        return string(self.call("pdl_netrun_lines.Printed.run_text", netlist, given, replies))

    # Tables

    def asm(self, command, words):
        (table, text), _, _ = self.taken(words, 2, 0)
        known = self.read("pdl_asm_table.Documents.table", codes(table), at="insn")
        library.SOME_ADDRESSES = {near + more for near in numbers_in(text) for more in range(len(text.split("\n")) + 2)}
        try:
            return string(self.read("pdl_asm.Assembly.image", known, codes(text)))
        finally:
            library.SOME_ADDRESSES = None
