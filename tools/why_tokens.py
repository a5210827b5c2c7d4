"""Of a text that is no pipe, what is wrong with its first token out of place: `tools/why.py` says it of a refusal by G1."""

from pdl_model import syntax
from pdl_model.forms import TAKEN

# The most that a list of what may stand at a token has.
MOST_WORDS = 8


class Reader(syntax.Parser):
    """Reads as the model does, and keeps for each token what would have been taken in its place."""

    def __init__(self, text, forms):
        super().__init__(text, forms)
        self.wanted = {}

    def want(self, what):
        self.wanted.setdefault(self.at, []).append(what)

    def sees(self, text):
        self.want(f"`{text}`")
        return super().sees(text)

    def of_kind(self, kind):
        self.want({"name": "a name", "number": "a number", "literal": "a literal as `1'd0`"}[kind])
        return super().of_kind(kind)

    def item(self):
        self.want("a name")
        return super().item()

    def primary(self):
        self.want("a value")
        return super().primary()


# Tokens that stand for something else in other languages, with what is written here.
FOREIGN = {
    ">": "there is no `>`: write `b < a`",
    "=": "there is no `<=` and no `>=`: write `~(b < a)`",
    "!": "`~` is not, `!=` is unequal",
    "&": "`&` is the one for truth values too",
    "|": "`|` is the one for truth values too",
    "if": "an `if` after `else` stands in braces: `else { if (..) { .. } }`",
    "/": "`//` begins a comment; there is no division",
}
VALUES = {"`cat`", "`lts`", "`zext`", "`sext`", "`(`", "`~`"}
OPERATORS = {f"`{it}`" for level in syntax.LEVELS for it in level} | {"`?`"}


def may_stand(wanted):
    """What would have been taken, in few words."""
    found = dict.fromkeys(wanted)
    if "a value" in found:
        found = [it for it in found if it not in VALUES]
    if OPERATORS & set(found):
        found = [it for it in found if it not in OPERATORS] + ["an operator"]
    return ", ".join(list(found)[:MOST_WORDS])


def hint(tokens, at, wanted):
    """What may have been meant by the token of this number."""
    token = tokens[at]
    before = tokens[at - 1].text if at else ""
    following = tokens[at + 1].text if at + 1 < len(tokens) else ""
    if token.kind == "number" and following == "'" or at and tokens[at - 1].kind == "literal" and token.kind in ("bad", "name"):
        return "a literal is a width, `'`, and `d` with decimal or `h` with lower case hexadecimal digits, as `8'hc8`"
    if token.kind == "number" and "a value" in wanted:
        return f"a number alone has no width: write it with one, as `8'd{token.text}`"
    if token.kind in ("number", "literal") and wanted[-1] == "a name" and before == "[":
        return "an address is a name: bind it before, as `a = 1'd0;`"
    if token.text == "[" and before == ")":
        return "only a name has bits: bind the expression to one first"
    if token.kind == "name" and before == "[" and "a number" in wanted:
        return "bits are told by two numbers, as `x[3:0]`; a memory is read by a statement of its own, as `x = m[a];`"
    if token.text == "]" and "`:`" in wanted:
        return "one bit is a slice of two numbers too, as `x[3:3]`"
    if token.text == "," and before and "`)`" in wanted and "cat" in [it.text for it in tokens[max(0, at - 12):at]]:
        return "`cat` and `lts` take two: `cat(a, cat(b, c))`"
    if token.kind == "keyword" and "a name" in wanted and (wanted[-1] == "a name" or following == "="):
        return f"`{token.text}` is a keyword, and no name"
    if token.text == "[" and "`]`" in wanted:
        return "an address is a name: bind the expression to one first"
    if before == "]" and set(wanted) == {"`;`"}:
        return "a read stands alone: bind it to a name, and use the name in an expression"
    if token.text == ";" and before == "}":
        return "no `;` stands after `}`"
    if token.text == ":" and "`=`" in wanted:
        return "`=` binds a name, and `<-` writes or asks a memory"
    if token.kind == "bad" and token.text.isalpha():
        return "a name begins with a lower case letter, goes on with these, digits and `_`, and has at most 32 characters"
    if "`;`" in wanted and tokens[at].line > tokens[at - 1].line:
        return f"a `;` may be missing in line {tokens[at - 1].line}"
    if before in ("&", "|") and token.text == before:
        return FOREIGN[before]
    return FOREIGN.get(token.text, "") if token.text in (">", "!", "/") or before in ("<", ">", "else") else ""


def out_of_place(text, forms=TAKEN):
    """Of a text that is no pipe: its first token out of place, what may stand there, and what may have been meant."""
    reader = Reader(text, forms)
    try:
        reader.pipe()
        return []
    except syntax.Refused:
        token = reader.tokens[reader.at]
    wanted = reader.wanted.get(reader.at, [])
    here = "the end of the text" if token.kind == "end" else f"`{token.text}`"
    said = [f"{here} is out of place"]
    if token.text in ("(", "[", "{") and reader.open == syntax.MOST_BRACKETS:
        return [f"{here} opens bracket {syntax.MOST_BRACKETS + 1}"]
    if reader.operators > syntax.MOST_OPERATORS:
        return [f"{here} is operator {syntax.MOST_OPERATORS + 1} of its statement"]
    if wanted:
        said[0] += f"; in its place may stand {may_stand(wanted)}"
    meant = hint(reader.tokens, reader.at, wanted)
    return said + ([meant] if meant else [])
