"""Reads the texts of mcs, as docs/LANGUAGE.md has them, for the tools of this folder.

`read` answers the contexts and bridge rules of a text, with or without `version 2.`, or raises the first `Fault` of its
form (F1) or of its names (F2, F3, F4). Limits are the program's matter: a text above one is read all the same.

A formula is a tuple: ("true",), ("false",), ("atom", NAME), ("not", F), or (SIGN, F, G) with a sign of `SIGNS`.
"""
import re
import sys
from collections import namedtuple

RESERVED = set("context bridge classical default program not if true false version keep closed weight".split())
MARKS = ("keep", "closed", "weight")
UNUSED = set("autoepistemic know".split())
SIGNS = {"&": "and", "|": "or", "->": "implies", "<->": "iff"}
TOKEN = re.compile(rb"(?P<space>[ \t\r\n]+|#[^\n]*)|(?P<word>[A-Za-z_][A-Za-z0-9_]*)"
                   rb"|(?P<number>[0-9]+)|(?P<sign><->|->|:-|[{}.,:/|&~()])|(?P<stray>.)", re.DOTALL)

sys.setrecursionlimit(10000)

Token = namedtuple("Token", "kind text offset")
Context = namedtuple("Context", "name kind items")
Default = namedtuple("Default", "before unless_denied then")
Rule = namedtuple("Rule", "heads reads denied")
Read = namedtuple("Read", "context belief")
# A rule that is kept may not be dropped, one that is closed may not be forced; the weight is what a change of it costs.
Bridge = namedtuple("Bridge", "name context head reads denied keep closed weight", defaults=(False, False, 1))
System = namedtuple("System", "contexts bridges")


class Fault(Exception):
    """What is wrong with a text: the number of the fault, the offset of its token, and a sentence."""

    def __init__(self, number, offset, sentence):
        super().__init__(sentence)
        self.number, self.offset, self.sentence = number, offset, sentence


def line_and_column(data, offset):
    """The line and the column of an offset, from 1; columns count characters, and a tab is one.

    The end of a text that has a last line feed is told behind its last line, since no editor has a line after it.
    """
    if offset >= len(data) and data.endswith(b"\n"):
        offset = len(data) - (2 if data.endswith(b"\r\n") else 1)
    start = data.rfind(b"\n", 0, offset) + 1
    return data.count(b"\n", 0, offset) + 1, len(data[start:offset].decode("utf-8", "replace")) + 1


def tokens_of(data):
    """The tokens of a text, the end as the last one."""
    found = []
    for match in TOKEN.finditer(data):
        if match.lastgroup != "space":
            text = match.group().decode("latin-1")
            found.append(Token(match.lastgroup, text, match.start()))
    return found + [Token("end", "", len(data))]


def shown(token):
    """A token as a sentence names it."""
    if token.kind == "end":
        return "the end of the text"
    if token.kind == "stray":
        known = token.text.isascii() and token.text.isprintable()
        return (f"`{token.text}`" if known else f"the byte {ord(token.text)}") + ", with which no token begins,"
    return f"`{token.text}`"


class Reader:
    """A walk over the tokens of a text."""

    def __init__(self, data):
        self.tokens, self.at = tokens_of(data), 0
        self.kinds, self.names = {}, set()
        self.has_version = False

    @property
    def next(self):
        return self.tokens[self.at]

    def take(self):
        self.at += 1
        return self.tokens[self.at - 1]

    def sees(self, *texts):
        return self.next.kind in ("word", "number", "sign") and self.next.text in texts

    def takes(self, text):
        """Takes the next token where it is this one."""
        if self.sees(text):
            self.at += 1
            return True
        return False

    def fault(self, number, sentence):
        raise Fault(number, self.next.offset, sentence)

    def out_of_place(self, wanted):
        sentence = f"{shown(self.next)} can't stand here: {wanted} is wanted"
        if self.next.kind == "word" and self.next.text in UNUSED:
            sentence = f"`{self.next.text}` is reserved: {wanted} is wanted"
        elif self.next.kind == "stray" and self.next.text == "%":
            sentence += "; a comment begins with `#`"
        self.fault(1, sentence)

    def sign(self, text, wanted=None):
        if not self.takes(text):
            self.out_of_place(wanted or f"`{text}`")

    def name(self, wanted="a name"):
        if self.sees(*MARKS):
            self.fault(1, f"`{self.next.text}` is reserved: {wanted} is wanted")
        if self.next.kind != "word" or self.next.text in RESERVED | UNUSED:
            self.out_of_place(wanted)
        return self.take().text

    def version(self):
        self.has_version = self.takes("version")
        if self.has_version:
            self.sign("2")
            self.sign(".")

    def system(self):
        contexts, bridges = [], []
        self.version()
        while self.takes("context"):
            contexts.append(self.context())
        while self.takes("bridge"):
            bridges.append(self.bridge())
        if self.sees("context"):
            self.fault(1, "`context` can't stand here: contexts come before the bridge rules")
        if self.sees("version"):
            self.fault(1, "`version` can't stand here: it comes before everything else")
        if self.next.kind != "end":
            self.out_of_place("`bridge`" if bridges else "`context` or `bridge`")
        return System(contexts, bridges)

    def context(self):
        if self.next.text in self.kinds:
            self.fault(3, "an earlier context has this name")
        name = self.name("the name of a context")
        if not self.sees("classical", "default", "program"):
            self.out_of_place("`classical`, `default` or `program`")
        kind = self.kinds[name] = self.take().text
        self.sign("{")
        items = []
        while not self.takes("}"):
            if kind == "program":
                items.append(self.rule())
            else:
                items.append(self.item(kind))
                self.sign(".", "`.` or a sign that goes on")
        return Context(name, kind, items)

    def item(self, kind):
        first = self.formula("an item or `}`")
        if kind != "default" or not self.takes(":"):
            return first
        unless_denied = [self.formula()]
        while self.takes(","):
            unless_denied.append(self.formula())
        self.sign("/", "`,` or `/`")
        return Default(first, unless_denied, self.formula())

    def rule(self):
        """A rule with its period."""
        heads, reads, denied = [], [], []
        if not self.sees(":-"):
            heads.append(self.name("a rule or `}`"))
            while self.takes("|"):
                heads.append(self.name())
        if self.takes(":-"):
            if self.takes("."):
                return Rule(heads, reads, denied)
            wanted = "a name, `not` or `.`"
            while True:
                if self.takes("not"):
                    denied.append(self.name())
                else:
                    reads.append(self.name(wanted))
                if not self.takes(","):
                    break
                wanted = "a name or `not`"
            self.sign(".", "`,` or `.`")
        else:
            self.sign(".", "`|`, `:-` or `.`")
        return Rule(heads, reads, denied)

    def bridge(self):
        if self.next.text in self.names:
            self.fault(3, "an earlier bridge rule has this name")
        name = self.name("the name of a bridge rule")
        self.names.add(name)
        marks = self.marks()
        target, head = self.place()
        reads, denied = [], []
        if self.takes("if"):
            while True:
                (denied if self.takes("not") else reads).append(Read(*self.place()))
                if not self.takes(","):
                    break
        self.sign(".", "`,` or `.`" if reads or denied else "`if` or `.`")
        return Bridge(name, target, head, reads, denied, *marks)

    def marks(self):
        """What a rule says of itself before the colon: whether it is kept, whether it is closed, and its weight."""
        if not self.has_version:
            if self.sees(*MARKS):
                self.fault(1, f"only a text that begins with `version 2.` says `{self.next.text}` of a rule: `:` is wanted")
            self.sign(":")
            return False, False, 1
        keep, closed = self.takes("keep"), self.takes("closed")
        weight = self.weight() if self.takes("weight") else None
        may_follow = MARKS[3 if weight is not None else 2 if closed else 1 if keep else 0:]
        self.sign(":", ", ".join(f"`{word}`" for word in may_follow) + " or `:`" if may_follow else None)
        return keep, closed, 1 if weight is None else weight

    def weight(self):
        if self.next.kind != "number" or self.next.text.startswith("0"):
            self.out_of_place("a number from 1 on, without a `0` before it,")
        # One of so many digits is above the limit, whatever they are.
        return int(self.take().text[:20])

    def place(self):
        at = self.next
        context = self.name("the name of a context")
        if context not in self.kinds:
            later = zip(self.tokens[self.at:], self.tokens[self.at + 1:])
            comes = any(one.text == "context" and other.text == context for one, other in later)
            raise Fault(2, at.offset, "the context of this name comes too late: contexts come before the bridge rules"
                        if comes else "no context has this name")
        self.sign(":")
        if self.kinds[context] == "program" and (self.next.text in ("true", "false") or self.sees("~", "(")):
            self.fault(4, "a program has names for beliefs, and no formulas")
        return context, self.primary("a belief")

    def formula(self, wanted="a formula"):
        left = self.implication(wanted)
        return ("iff", left, self.formula()) if self.takes("<->") else left

    def implication(self, wanted):
        left = self.row("|", wanted)
        return ("implies", left, self.implication("a formula")) if self.takes("->") else left

    def row(self, sign, wanted):
        """What stands to the left and right of the signs `|`, or of the signs `&` within it."""
        part = (lambda word: self.row("&", word)) if sign == "|" else self.primary
        made = part(wanted)
        while self.takes(sign):
            made = (SIGNS[sign], made, part("a formula"))
        return made

    def primary(self, wanted="a formula"):
        if self.takes("~"):
            return ("not", self.primary())
        if self.takes("("):
            made = self.formula()
            self.sign(")", "`)` or a sign that goes on")
            return made
        if self.sees("true", "false"):
            return (self.take().text,)
        return ("atom", self.name(wanted))


def read(data):
    """The system that a text has, or its first fault of form or names."""
    reader = Reader(data)
    try:
        return reader.system()
    except RecursionError:
        raise Fault(5, reader.next.offset, "a formula lies deeper here than is read") from None


def variables_of(system):
    """The beliefs that rules read, each as a read, in the order of the variables."""
    found = {context.name: {} for context in system.contexts}
    for bridge in system.bridges:
        for read in bridge.reads + bridge.denied:
            found[read.context].setdefault(read)
    return [read for reads in found.values() for read in reads]


def atoms_in(formula):
    """The names in a formula, from the left."""
    if formula[0] == "atom":
        return [formula[1]]
    return [name for part in formula[1:] for name in atoms_in(part)]


def atoms_of(system, context):
    """The atoms of a context in the order of their numbers: those of its items, of heads into it, of beliefs read of it."""
    names = []
    for item in context.items:
        if isinstance(item, Rule):
            names += item.heads + item.reads + item.denied
        elif isinstance(item, Default):
            names += [name for formula in (item.before, *item.unless_denied, item.then) for name in atoms_in(formula)]
        else:
            names += atoms_in(item)
    formulas = [bridge.head for bridge in system.bridges if bridge.context == context.name]
    formulas += [read.belief for read in variables_of(system) if read.context == context.name]
    return list(dict.fromkeys(names + [name for formula in formulas for name in atoms_in(formula)]))


def belief(formula):
    """A formula as a listing prints it in a place: what has two parts in parentheses."""
    if formula[0] in ("true", "false"):
        return formula[0]
    if formula[0] == "atom":
        return formula[1]
    if formula[0] == "not":
        return "~" + belief(formula[1])
    sign = next(sign for sign, word in SIGNS.items() if word == formula[0])
    return f"({belief(formula[1])} {sign} {belief(formula[2])})"


def marks_of(bridge):
    """What a rule says of itself, as its text has it: a weight of 1 is not said."""
    return ["keep"] * bridge.keep + ["closed"] * bridge.closed + [f"weight {bridge.weight}"] * (bridge.weight != 1)


def bridge_text(bridge):
    """A bridge rule as one line of a text."""
    places = [f"{read.context}:{belief(read.belief)}" for read in bridge.reads]
    places += [f"not {read.context}:{belief(read.belief)}" for read in bridge.denied]
    line = " ".join([f"bridge {bridge.name}", *marks_of(bridge)]) + f": {bridge.context}:{belief(bridge.head)}"
    return line + (" if " + ", ".join(places) if places else "") + "."
