"""Reads what mcs prints, as docs/REPORT.md and docs/CERTIFICATES.md have it, for the tools of this folder.

`read` answers a listing or report as the value of the JSON document that docs/REPORT.md tells, or raises `Fault` where
it is cut, is none, or is that of another text. It reads the form alone: whether a proof shows its answers is for `mcs
check` to say, and for tools/lrat.
"""
import re
from collections import defaultdict

import system_text

NAME = "[A-Za-z_][A-Za-z0-9_]*"
COUNT = "(0|[1-9][0-9]*)"
NUMBER = "[1-9][0-9]*"
SIZE = f"{COUNT} contexts, {COUNT} rules, {COUNT} variables"
SET = r"\{([^{}]*)\}"
HEADING = re.compile(f"mcs {COUNT}: {SIZE}")
MADE = re.compile(f"make {COUNT}: {SIZE}")
CHECKED = re.compile(f"valid|not valid: line ({NUMBER}): (grammar|certificate|missing|listing)")
EQUILIBRIUM = re.compile(f"equilibrium ({NUMBER}): {SET} applicable {SET}")
DIAGNOSIS = re.compile(f"diagnosis ({NUMBER}): {SET} state {SET} active {SET}")
EXPLANATION = re.compile(f"explanation ({NUMBER}): {SET}")
END = re.compile(f"end: {COUNT} equilibria(?:, {COUNT} diagnoses, {COUNT} explanations)?, need {COUNT}")
GROUNDED = re.compile(f"grounded ({NUMBER}): {SET} applicable {SET}")
GROUNDED_END = re.compile(f"end: {COUNT} grounded of {COUNT} equilibria, need {COUNT}")
CHEAPEST = re.compile(f"cheapest ({NUMBER}): {SET} cost {COUNT} state {SET} active {SET}")
CHEAPEST_END = re.compile(f"end: {COUNT} cheapest(?:, cost {COUNT})?, need {COUNT}")
ANSWER = re.compile(f"answer ({NAME}) {SET}")
STEP = re.compile(f"step((?: -?{NUMBER})*) by((?: {NUMBER})+)")


class Fault(Exception):
    """The line, from 1, at which no listing goes on so, and a sentence."""

    def __init__(self, line, sentence):
        super().__init__(sentence)
        self.line, self.sentence = line, sentence


def members(inside):
    """What stands in a set."""
    return inside.split(", ") if inside else []


def mark(kind, part):
    """The sign, the name and the diagnosis of a mark of a line of this kind, or None where it is no mark."""
    match = re.fullmatch(rf"([-+])({NAME})" + (f" by ({NUMBER})" if kind == "explanation" else "()"), part)
    return match and match.groups()


class Reader:
    """A walk over the lines of what was printed; `system` is None where no text is named."""

    def __init__(self, data, system):
        *self.lines, self.rest = data.decode("ascii", "replace").split("\n")
        self.at, self.system = 0, system
        if system:
            self.contexts = {context.name: context for context in system.contexts}
            self.rules = {bridge.name for bridge in system.bridges}
            self.beliefs = defaultdict(list)
            for read in system_text.variables_of(system):
                self.beliefs[read.context].append(system_text.belief(read.belief))
            self.atoms = {context.name: set(system_text.atoms_of(system, context)) for context in system.contexts}

    # Lines.

    @property
    def next(self):
        return self.lines[self.at] if self.at < len(self.lines) else None

    def fault(self, sentence, back=0):
        raise Fault(self.at + 1 - back, sentence)

    def another(self, why):
        """The line that was taken last is not of this text."""
        self.fault(f"this is the listing of another text: {why}", 1)

    def out_of_place(self, wanted):
        if self.next is None:
            self.fault(f"the listing is cut: {wanted} is missing")
        self.fault(f"no listing goes on so: {wanted} is wanted")

    def begins(self, word):
        return self.next is not None and self.next.startswith(word)

    def takes(self, line):
        """Takes the next line where it is this one."""
        if self.next != line:
            return False
        self.at += 1
        return True

    def take(self, form, wanted):
        """The groups of the next line, which has this form."""
        match = form.fullmatch(self.next) if self.next is not None else None
        if not match:
            self.out_of_place(wanted)
        self.at += 1
        return match.groups()

    def line(self, text):
        if not self.takes(text):
            self.out_of_place(f"`{text}`")

    # The listing.

    def document(self):
        if self.next is None:
            self.fault("this is no listing: it has no line")
        for form, kind in ((CHECKED, self.checked), (MADE, self.made), (HEADING, self.listing)):
            match = form.fullmatch(self.next)
            if match:
                self.at += 1
                found = kind(*match.groups())
                if self.next is not None or self.rest:
                    self.fault("this stands after the end of the listing")
                return found
        self.fault("this is no listing: its first line is none that mcs prints first")

    def checked(self, line, reason):
        if not line:
            return {"job": "check", "valid": True}
        return {"job": "check", "valid": False, "line": int(line), "reason": reason}

    def made(self, number, *size):
        consistent = self.verdict()
        counts = dict(zip(("contexts", "rules", "variables"), map(int, size)))
        need = self.end(counts, True)
        if consistent != (counts["equilibria"] > 0):
            self.fault("the end of the listing does not fit its verdict", 1)
        return {"job": "make", "number": int(number), "counts": counts, "consistent": consistent, "need": need}

    def listing(self, version, *size):
        system = self.system
        if version != "1":
            self.fault(f"this is a listing of form {version}, and form 1 is read here", 1)
        if not system:
            self.fault("this is the listing of a text, which has to be named", 1)
        variables = system_text.variables_of(system)
        counts = dict(zip(("contexts", "rules", "variables"), map(int, size)))
        if list(counts.values()) != [len(system.contexts), len(system.bridges), len(variables)]:
            self.another("it has {} contexts, {} rules and {} variables".format(*size))
        found = {"job": "", "version": 1,
                 "contexts": [{"name": context.name, "kind": context.kind} for context in system.contexts],
                 "rules": [bridge.name for bridge in system.bridges],
                 "variables": [{"context": read.context, "belief": system_text.belief(read.belief)} for read in variables]}
        if self.begins("grounded ") or self.next is not None and GROUNDED_END.fullmatch(self.next):
            return self.grounded(found, counts)
        if self.lists_cheapest():
            return self.cheapest(found, counts)
        equilibria = self.states("equilibrium", EQUILIBRIUM)
        consistent = self.verdict()
        if consistent != bool(equilibria):
            self.fault("the verdict does not fit the equilibria before it", 1)
        diagnoses = [{**self.marks("diagnosis", marks), "state": self.state(state), "active": self.names(rules)}
                     for marks, state, rules in self.numbered("diagnosis", DIAGNOSIS)]
        explanations = [self.marks("explanation", marks, len(diagnoses))
                        for marks, in self.numbered("explanation", EXPLANATION)]
        lists = {"equilibria": equilibria, "diagnoses": diagnoses, "explanations": explanations}
        need = self.end(counts)
        for name in lists:
            if counts.get(name, 0) != len(lists[name]):
                self.fault(f"the end of the listing tells another number of {name} than stand before it", 1)
        solved = "diagnoses" in counts
        found.update({"job": "solve" if solved else "equilibria", "consistent": consistent, "equilibria": equilibria})
        if solved:
            found.update({"diagnoses": diagnoses, "explanations": explanations})
        found.update({"counts": counts, "need": need})
        if solved and self.takes("proof"):
            found["proof"] = []
            while self.begins("answer "):
                found["proof"].append(self.answer())
            self.line("end of proof")
        return found

    def grounded(self, found, counts):
        """The rest of a listing of grounded equilibria."""
        grounded = self.states("grounded", GROUNDED)
        told, equilibria, need = map(int, self.take(GROUNDED_END, "the line `end: ..`"))
        if told != len(grounded) or told > equilibria:
            self.fault("the end of the listing tells another number of grounded equilibria than stand before it", 1)
        counts.update({"grounded": told, "equilibria": equilibria})
        found.update({"job": "grounded", "grounded": grounded, "counts": counts, "need": need})
        return found

    def lists_cheapest(self):
        """Whether what follows the verdict, which comes next, is of the cheapest diagnoses."""
        if self.next not in ("consistent", "inconsistent"):
            return False
        after = self.lines[self.at + 1] if self.at + 1 < len(self.lines) else ""
        return after.startswith("cheapest ") or bool(CHEAPEST_END.fullmatch(after))

    def cheapest(self, found, counts):
        """The rest of a listing of the cheapest diagnoses."""
        consistent = self.verdict()
        cheapest = [{**self.marks("diagnosis", marks), "cost": int(cost), "state": self.state(state), "active": self.names(rules)}
                    for marks, cost, state, rules in self.numbered("cheapest", CHEAPEST)]
        told, cost, need = self.take(CHEAPEST_END, "the line `end: ..`")
        if int(told) != len(cheapest):
            self.fault("the end of the listing tells another number of cheapest diagnoses than stand before it", 1)
        costs = {each["cost"] for each in cheapest}
        if costs != ({int(cost)} if cost else set()):
            self.fault("the end of the listing tells another cost than stands before it", 1)
        if consistent != (costs == {0}):
            self.fault("the verdict does not fit the cost of the repairs after it", 1)
        counts["cheapest"] = int(told)
        found.update({"job": "cheapest", "consistent": consistent, "cheapest": cheapest, "counts": counts})
        found.update({"cost": int(cost) if cost else None, "need": int(need)})
        return found

    def states(self, word, form):
        """The states of the lines of this word, each with the rules that apply in it."""
        return [{"state": self.state(state), "applicable": self.names(rules)} for state, rules in self.numbered(word, form)]

    def verdict(self):
        if self.takes("consistent"):
            return True
        if not self.takes("inconsistent"):
            self.out_of_place("`consistent` or `inconsistent`")
        return False

    def end(self, counts, solved=False):
        """Takes the end line with its counts, and answers the need."""
        equilibria, diagnoses, explanations, need = self.take(END, "the line `end: ..`")
        counts["equilibria"] = int(equilibria)
        if diagnoses:
            counts.update({"diagnoses": int(diagnoses), "explanations": int(explanations)})
        elif solved:
            self.fault("no listing of `make` ends so", 1)
        return int(need)

    def numbered(self, word, form):
        """What the lines of this word hold, one after the other."""
        number = 0
        while self.begins(word + " "):
            number += 1
            told, *groups = self.take(form, f"a whole line of {word} {number}")
            if int(told) != number:
                self.fault(f"{word} {number} is wanted here", 1)
            yield groups

    def names(self, inside, known=None):
        """The rules of a set."""
        found = members(inside)
        for name in found:
            if name not in (self.rules if known is None else known):
                self.another(f"no such rule is named `{name}`")
        return found

    def state(self, inside):
        """The beliefs of a set, by context."""
        found = {name: [] for name in self.contexts}
        for place in members(inside):
            context, _, belief = place.partition(":")
            if belief not in self.beliefs.get(context, ()):
                self.another(f"no rule reads `{place}`")
            found[context].append(belief)
        return found

    def marks(self, kind, inside, most=0):
        found = {"removed": [], "forced": []}
        for part in members(inside):
            match = mark(kind, part)
            if not match:
                self.fault(f"`{part}` is no mark of a listing", 1)
            sign, name, by = match
            self.names(name)
            if by and int(by) > most:
                self.fault(f"there is no diagnosis {by}", 1)
            found["removed" if sign == "-" else "forced"].append({"rule": name, "by": int(by)} if by else name)
        return found

    # The proof.

    def answer(self):
        """What a context answers, with its certificate."""
        line = self.at + 1
        name, rules = self.take(ANSWER, "a whole line of an answer")
        if name not in self.contexts:
            self.another(f"no context is named `{name}`")
        context = self.contexts[name]
        into = {bridge.name for bridge in self.system.bridges if bridge.context == name}
        found = {"line": line, "context": name, "kind": context.kind, "rules": self.names(rules, into), "states": []}
        while self.begins("state "):
            inside, = self.take(re.compile(f"state {SET}"), "a whole line of a state")
            state = self.state(inside)
            if [each for each in state if state[each] and each != name]:
                self.fault(f"this state is not of `{name}` alone", 1)
            found["states"].append(state[name])
        certificate = {"classical": self.classical, "default": self.default, "program": self.program}[context.kind]
        found.update(certificate(context, found))
        self.line("done")
        return found

    def classical(self, context, _):
        return {"beliefs": self.entailments_of_beliefs(context)}

    def default(self, context, _):
        self.defaults = [item for item in context.items if isinstance(item, system_text.Default)]
        sets = []
        while self.begins("set "):
            line = self.at + 1
            inside, = self.take(re.compile(f"set {SET}"), "a whole line of a set of defaults")
            chosen = self.numbers(inside)
            sets.append({"line": line, "set": chosen, **self.case(context, chosen)})
        return {"sets": sets}

    def program(self, context, answer):
        models, smaller = [], []
        for _ in answer["states"]:
            line, chosen = self.at + 1, self.atoms_named("model", context)
            models.append({"line": line, "atoms": chosen, "trace": self.trace()})
        while self.begins("smaller "):
            smaller.append(self.atoms_named("smaller", context))
        line = self.at + 1
        self.line("none")
        return {"models": models, "smaller": smaller, "none": {"line": line, "trace": self.trace()}}

    def atoms_named(self, word, context):
        """The atoms that a line names."""
        inside, = self.take(re.compile(f"{word} {SET}"), f"a whole line `{word} {{ATOMS}}`")
        for name in members(inside):
            if name not in self.atoms[context.name]:
                self.another(f"`{context.name}` has no atom `{name}`")
        return members(inside)

    def numbers(self, inside):
        """The defaults of a set."""
        for part in members(inside):
            if not re.fullmatch(NUMBER, part) or int(part) > len(self.defaults):
                self.another(f"the context has no default {part}")
        return [int(part) for part in members(inside)]

    def case(self, context, chosen):
        """What a set of defaults comes to."""
        if self.begins("unsupported ") or self.begins("blocked "):
            return self.ruled_out(context)
        if self.begins("applied "):
            number, = self.take(re.compile(f"applied ({NUMBER})"), "a whole line of a default")
            applied, = self.numbers(number)
            return {"case": "applied", "default": applied, "prerequisite": self.entailment(context, True),
                    "negations": [self.entailment(context, False) for _ in self.defaults[applied - 1].unless_denied]}
        if self.begins("ungrounded "):
            inside, = self.take(re.compile(f"ungrounded {SET}"), "a whole line of defaults")
            named = self.numbers(inside)
            return {"case": "ungrounded", "named": named,
                    "prerequisites": [self.entailment(context, False) for number in chosen if number not in named]}
        inside, = self.take(re.compile(f"extension((?: {NUMBER})*)"), "what a set of defaults comes to")
        order = self.numbers(", ".join(inside.split()))
        return {"case": "extension", "order": order,
                "prerequisites": [self.entailment(context, True) for _ in order],
                "negations": [self.entailment(context, False)
                              for number in chosen for _ in self.defaults[number - 1].unless_denied],
                "outside": [self.ruled_out(context) for _ in range(len(self.defaults) - len(chosen))],
                "beliefs": self.entailments_of_beliefs(context)}

    def ruled_out(self, context):
        """A default whose prerequisite does not follow, or one of whose justifications is denied."""
        if self.begins("unsupported "):
            number, = self.take(re.compile(f"unsupported ({NUMBER})"), "a whole line of a default")
            number, = self.numbers(number)
            return {"case": "unsupported", "default": number, "prerequisite": self.entailment(context, False)}
        number, place = self.take(re.compile(f"blocked ({NUMBER}) ({NUMBER})"), "`unsupported` or `blocked`")
        number, = self.numbers(number)
        if int(place) > len(self.defaults[number - 1].unless_denied):
            self.another(f"default {number} has no justification {place}")
        return {"case": "blocked", "default": number, "justification": int(place), "negation": self.entailment(context, True)}

    def entailments_of_beliefs(self, context):
        return [{"belief": belief, **self.entailment(context)} for belief in self.beliefs[context.name]]

    def entailment(self, context, wanted=None):
        """Whether a formula follows, and what shows it."""
        line = self.at + 1
        if wanted is not False and self.takes("yes"):
            return {"line": line, "follows": True, "trace": self.trace()}
        if wanted is True or not self.begins("no "):
            self.out_of_place("`yes`" if wanted else "`no {ATOMS}`" if wanted is False else "`yes` or `no {ATOMS}`")
        return {"line": line, "follows": False, "atoms": self.atoms_named("no", context)}

    def trace(self):
        """The steps of a trace, one or more."""
        steps = []
        while not steps or self.begins("step"):
            clause, chain = self.take(STEP, "a whole line of a step")
            steps.append({"clause": [int(part) for part in clause.split()], "chain": [int(part) for part in chain.split()]})
        return steps


def read(data, system=None):
    """What was printed for a system, as the value of a JSON document."""
    return Reader(data, system).document()
