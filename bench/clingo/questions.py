"""Asks clingo the questions of a text, its equilibria, minimal diagnoses, minimal explanations, cheapest diagnoses and
grounded equilibria, and reads the lists of mcs to compare them."""
import importlib.machinery
import importlib.util
import json
import os
import re
import sys

HERE = os.path.dirname(os.path.realpath(__file__))
sys.path.insert(0, os.path.dirname(HERE))
import measure  # noqa: E402

LEAST = ["--heuristic=Domain", "--enum-mode=domRec"]
KINDS = ("equilibrium", "diagnosis", "explanation", "grounded", "cheapest")
CHEAPEST = ["--opt-mode=optN", "--quiet=1", "--project=show"]


def translation():
    loader = importlib.machinery.SourceFileLoader("translate", os.path.join(HERE, "translate"))
    module = importlib.util.module_from_spec(importlib.util.spec_from_loader("translate", loader))
    loader.exec_module(module)
    return module


TRANSLATE = translation()


class Stopped(Exception):
    """clingo took too long, or had an error of its own."""


class Answers:
    """The answers of clingo to the questions of a text, as sets of words, and the seconds that it took."""

    def __init__(self, program, path, room, limit):
        self.program, self.limit, self.room = program, limit, room
        self.facts = os.path.join(room, "facts.lp")
        with open(path, "rb") as file:
            self.system = TRANSLATE.system_text.read(file.read())
        lines = TRANSLATE.facts_of(self.system)
        with open(self.facts, "w") as file:
            file.write("\n".join(lines) + "\n")
        self.names = dict(re.findall(r'name\((\d+),"([^"]*)"\)', "\n".join(lines)))

    def models(self, options, files):
        """The answer sets, each a list of its atoms, and the seconds."""
        words = [self.program, "--outf=2", *options, "0", *files]
        run = measure.run(words, self.limit)
        if run.status is None:
            raise Stopped(f"over {self.limit}")
        if run.status not in (10, 20, 30):
            raise Stopped(f"status {run.status}")
        calls = json.loads(run.printed)["Call"]
        return [witness.get("Value", []) for call in calls for witness in call.get("Witnesses", [])], run.wall

    def of_system(self, options, question):
        files = [os.path.join(HERE, name + ".lp") for name in ("system", "theories", question)]
        return self.models(options, [self.facts, *files])

    def views_of(self, models):
        """Models as sets of beliefs."""
        number = lambda atom: re.fullmatch(r"believed\((\d+)\)", atom)[1]
        return {frozenset(self.names[number(atom)] for atom in model) for model in models}

    def equilibria(self):
        """The equilibria as sets of beliefs."""
        models, seconds = self.of_system(["--project=show"], "equilibria")
        return self.views_of(models), seconds

    def grounded(self):
        """The grounded equilibria as sets of beliefs, where all contexts are normal programs, and else nothing."""
        if not all(is_normal(context) for context in self.system.contexts):
            return None, 0
        models, seconds = self.models(["--project=show"], [self.facts, os.path.join(HERE, "grounded.lp")])
        return self.views_of(models), seconds

    def diagnoses(self):
        """The minimal diagnoses as sets of marks."""
        models, seconds = self.of_system(LEAST, "diagnoses")
        return marks_of(models), seconds

    def cheapest(self):
        """The diagnoses of least cost as sets of marks."""
        models, seconds = self.of_system(CHEAPEST, "cheapest")
        return marks_of(models), seconds

    def explanations(self, diagnoses):
        """The minimal explanations as sets of marks."""
        if frozenset() in diagnoses:
            return set(), 0
        path = os.path.join(self.room, "diagnoses.lp")
        with open(path, "w") as file:
            for number, diagnosis in enumerate(sorted(map(sorted, diagnoses))):
                file.writelines(f'has({number},"{mark}").\n' for mark in diagnosis)
        models, seconds = self.models(LEAST, [path, os.path.join(HERE, "explanations.lp")])
        return {frozenset(atom.split('"')[1] for atom in model) for model in models}, seconds


def is_normal(context):
    """Whether a context is a program of which each rule has exactly one head."""
    return context.kind == "program" and all(len(rule.heads) == 1 for rule in context.items)


def marks_of(models):
    """Models as sets of marks."""
    mark = lambda atom: ("-" if atom.startswith("removed") else "+") + atom.split('"')[1]
    return {frozenset(map(mark, model)) for model in models}


def lists_of(printed):
    """The lists of a listing: equilibria as sets of beliefs, diagnoses and explanations as sets of marks."""
    lists = {kind: set() for kind in KINDS}
    for line in printed.decode("ascii").split("\n"):
        match = re.match(r"([a-z]+) \d+: \{([^}]*)\}", line)
        if match and match[1] in KINDS:
            members = match[2].split(", ") if match[2] else []
            lists[match[1]].add(frozenset(member.split(" by ")[0] for member in members))
    return lists
