"""tools/lrat: the files of each trace, which a small checker of LRAT takes, and what is refused."""
import glob
import os
import re
import subprocess

import reports
from ground import EXAMPLES, PROGRAM, Ground, needs_program

# Families whose traces have steps with literals.
GROWN = [("pigeons", "4"), ("loops", "4"), ("star", "4")]


def clauses_in(text):
    """The clauses of a DIMACS CNF by their numbers; it has as many, and no higher variable, than its heading says."""
    lines = [line for line in text.split("\n") if line and line[0] != "c"]
    _, form, variables, count = lines[0].split()
    clauses = {}
    for number, line in enumerate(lines[1:], 1):
        *literals, end = map(int, line.split())
        assert form == "cnf" and end == 0 and literals and all(0 < abs(each) <= int(variables) for each in literals)
        clauses[number] = literals
    assert len(clauses) == int(count)
    return clauses


def takes(cnf, lrat):
    """Whether a proof in LRAT shows that the clauses can't all be true."""
    clauses, last = clauses_in(cnf), None
    for line in lrat.split("\n")[:-1]:
        number, *rest = map(int, line.split())
        end = rest.index(0)
        clause, hints = rest[:end], rest[end + 1:-1]
        if number <= max(clauses) or rest[-1] != 0 or 0 in hints:
            return False
        true = {-literal for literal in clause}
        for place, hint in enumerate(hints, 1):
            left = [literal for literal in clauses.get(hint, [0, 0]) if -literal not in true]
            if len(left) == 0 and place == len(hints):
                break
            if len(left) != 1 or left[0] in true:
                return False
            true.add(left[0])
        else:
            return False
        clauses[number] = last = clause
    return last == []


class Lrat(Ground):
    def written(self, text, report):
        """What is printed for a report, and the contents of the files by their names."""
        folder = os.path.join(self.room, f"pairs of {len(os.listdir(self.room))}")
        status, told, noted = self.ran("tools/lrat", self.file("a text.mcs", text), self.file("a report", report), folder)
        self.assertEqual((status, noted), (0, ""))
        files = {}
        for name in os.listdir(folder):
            with open(os.path.join(folder, name)) as file:
                files[name] = file.read()
        return told, files

    def assertShown(self, text, report):
        """There is a pair for each trace of the report, and each is taken."""
        told, files = self.written(text, report)
        lines = report.split("\n")
        starts = [number for number, line in enumerate(lines, 1) if line in ("yes", "none") or line.startswith("model {")]
        self.assertEqual([int(re.match(r"\w+-(\d+): ", line)[1]) for line in told.split("\n")[:-1]], starts)
        self.assertEqual(len(files), 2 * len(starts))
        for line in told.split("\n")[:-1]:
            name, says = line.split(": ", 1)
            self.assertIn(f"c {says}\n", files[name + ".cnf"])
            self.assertTrue(takes(files[name + ".cnf"], files[name + ".lrat"]), line)
        return files

    def test_the_clauses_and_steps_of_a_classical_answer(self):
        told, files = self.written(*reports.CLASSICAL)
        self.assertEqual(told, "a-9: a with {} believes r\n")
        self.assertEqual(files, {"a-9.cnf": """\
c a with {} believes r
c atoms: 1 p, 2 q, 3 r
p cnf 7 15
-4 -1 2 0
-4 1 -2 0
4 1 2 0
4 -1 -2 0
4 0
-5 -2 0
5 2 0
-6 -1 5 0
-6 1 -5 0
6 1 5 0
6 -1 -5 0
6 0
-7 -3 0
7 3 0
7 0
""", "a-9.lrat": """\
16 1 0 12 5 2 9 7 0
17 0 12 5 16 1 8 6 0
"""})

    def test_the_checker_of_this_test_refuses_what_shows_nothing(self):
        _, files = self.written(*reports.CLASSICAL)
        cnf, lrat = files["a-9.cnf"], files["a-9.lrat"]
        self.assertTrue(takes(cnf, lrat))
        for old, new in [("16 1 0 12", "16 2 0 12"), (" 12 5 2", " 5 2"), ("2 9 7 0", "2 9 0"), ("5 16 1", "5 1"),
                         ("17 0", "17 3 0"), ("16 1 0", "15 1 0"), ("1 8 6 0", "1 8 99 0")]:
            self.assertFalse(takes(cnf, lrat.replace(old, new)), new)
        self.assertFalse(takes(cnf.replace("\n-7 -3 0", "\n7 3 0").replace("\n4 0", "\n4 1 0"), lrat))
        self.assertFalse(takes(cnf, ""))

    def test_each_trace_of_each_kind_is_taken(self):
        for text, report in reports.ALL:
            self.assertShown(text, report)

    def test_what_is_shown_is_told(self):
        told, _ = self.written(*reports.DEFAULT)
        self.assertEqual(told, """\
birds-11: birds with {} and the consequents of {} believes bird
birds-19: birds with {} and the consequents of {2} believes flies
birds-24: birds with {} and the consequents of {} believes bird
birds-26: birds with {} and the consequents of {2} believes flies
birds-30: birds with {} and the consequents of {1, 2} believes nests
zoo-35: zoo with {cage} has no smaller model of the reduct by {cage}
zoo-37: zoo with {cage} has no answer set with another state
""")

    def test_each_sign_has_its_clauses(self):
        text = "context a classical { (p & q) | (p -> q). (p <-> p) & false. ~true. }\ncontext b classical {}\nbridge x: b:y if a:z.\n"
        report = reports.CLASSICAL[1].replace("a:r", "a:z").replace("step 1 by 7 9 2 5 12\n", "").replace(
            "step by 6 8 1 16 5 12", "step by 19 17 15")
        files = self.assertShown(text, report)
        self.assertIn("""\
c atoms: 1 p, 2 q, 3 z
p cnf 12 26
-4 1 0
-4 2 0
4 -1 -2 0
5 1 0
5 -2 0
-5 -1 2 0
6 -4 0
6 -5 0
-6 4 5 0
6 0
-7 -1 1 0
-7 1 -1 0
7 1 0
7 -1 0
-8 0
-9 7 0
-9 8 0
9 -7 -8 0
9 0
10 0
-11 -10 0
11 10 0
11 0
-12 -3 0
12 3 0
12 0
""", files["a-9.cnf"])

    def test_steps_that_are_always_true_are_left_out(self):
        text = "context a classical { p <-> p. r. }\ncontext b classical {}\nbridge x: b:y if a:r.\n"
        report = reports.CLASSICAL[1].replace("step 1 by 7 9 2 5 12\nstep by 6 8 1 16 5 12\n", """\
step 1 -1 by 1 5
step 1 3 by 3 10
step 4 by 9
step by 12 7 6
step by 9 7 6
""")
        files = self.assertShown(text, report)
        self.assertEqual(files["a-9.lrat"], "11 1 3 0 3 0\n12 4 0 9 0\n13 0 6 7 12 0\n")

    def test_what_is_refused_is_told_in_one_line(self):
        text, report = reports.CLASSICAL
        text, other = self.file("a text.mcs", text), self.file("other.mcs", reports.PROGRAM[0])
        for content, told in [
            (report.replace("step 1 by 7", "step 1 by 6"), ":10:1: the chain of this step does not show it"),
            (report.replace("step by 6", "step by 99"), ":11:1: the chain of this step does not show it"),
            (report.replace("step by 6 8 1 16 5 12\n", ""), ":10:1: "),
            (report[:report.index("done")], ":12:1: the listing is cut: `done` is missing"),
            (report[:report.index("proof")], " has no proof"),
            ("", ":1:1: this is no listing"),
        ]:
            folder = os.path.join(self.room, f"pairs of {len(os.listdir(self.room))}")
            status, printed, noted = self.ran("tools/lrat", text, self.file("a report", content), folder)
            self.assertEqual((status, printed), (1, ""), content)
            self.assertOneLine(noted)
            self.assertIn(told, noted)
        report, full = self.file("a report", report), self.room
        for words, status in [([text, report], 2), ([text, report, "a", "b"], 2), (["--all", report, "a"], 2),
                              (["nothing", report, "a"], 2), ([text, "nothing", "a"], 2), ([text, report, full], 2),
                              ([text, report, report], 2), ([other, report, "a"], 1)]:
            got, printed, noted = self.ran("tools/lrat", *words)
            self.assertEqual((got, printed), (status, ""), words)
            self.assertOneLine(noted)

    @needs_program
    def test_each_trace_that_the_program_writes_is_taken(self):
        paths = glob.glob(os.path.join(EXAMPLES, "*.mcs"))
        paths += [self.file(f"{name}.mcs", self.ran("bench/families", name, size)[1]) for name, size in GROWN]
        steps = 0
        for path in paths:
            run = subprocess.run([PROGRAM, "solve", path, "--proof"], stdin=subprocess.DEVNULL, capture_output=True)
            self.assertEqual(run.returncode, 0, path)
            with open(path) as file:
                files = self.assertShown(file.read(), run.stdout.decode())
            steps += sum(text.count("\n") > 1 for name, text in files.items() if name.endswith(".lrat"))
        self.assertGreater(steps, 0)
