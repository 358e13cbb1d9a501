"""bench/: the texts and families can be read, are the same each time, and mean to clingo what the examples print; and
what hostile inputs take."""
import glob
import os
import re
import shutil
import sys

from ground import EXAMPLES, PROGRAM, TOP, Ground, needs, needs_program

sys.path.insert(0, os.path.join(TOP, "bench", "clingo"))


class Families(Ground):
    def test_each_is_a_text_and_the_same_each_time(self):
        status, listed, _ = self.ran("bench/families")
        self.assertEqual(status, 0)
        for name, sizes, most in re.findall(r"^([\w-]+) +([\d, ]+); at most (\d+)", listed, re.MULTILINE):
            for size in sizes.split(", ") + [most]:
                status, text, noted = self.ran("bench/families", name, size)
                self.assertEqual((status, noted), (0, ""))
                self.assertEqual(text, self.ran("bench/families", name, size, "1")[1])
                self.assertEqual(self.ran("tools/draw", self.file("a text.mcs", text))[0], 0)
        self.assertNotEqual(self.ran("bench/families", "ring", "9")[1], self.ran("bench/families", "ring", "9", "2")[1])

    def test_words(self):
        for words in (["wheels", "3"], ["ring"], ["ring", "x"], ["ring", "1"], ["ring", "64"]):
            status, text, noted = self.ran("bench/families", *words)
            self.assertEqual((status, text), (2, ""), words)
            self.assertOneLine(noted)


class Run(Ground):
    def test_words(self):
        for words in (["--fast"], ["--program", "nothing"], ["nothing.mcs"]):
            status, table, noted = self.ran("bench/run", *words)
            self.assertEqual((status, table), (2, ""), words)
            self.assertOneLine(noted)

    def test_a_difference_is_told(self):
        program = self.script("mcs", """#!/bin/sh
[ "$2" = -- ] || exit 2
printf '%s\\n' 'mcs 1: 1 contexts, 1 rules, 1 variables' 'equilibrium 1: {c:a} applicable {}' consistent 'end: 1 equilibria, need 1'
""")
        text = self.file("a text.mcs", "context c program { a. } bridge r: c:b if c:a.")
        status, table, noted = self.ran("bench/run", "--quick", "--program", program, text)
        self.assertIn("\na text              equilibria ", table)
        self.assertRegex(table, r"solve --proof +- +- +- +-")
        if shutil.which("clingo"):
            self.assertEqual(status, 1)
            self.assertEqual(noted, "run: a text: mcs has 0 diagnoses, clingo 1, and 0 are the same\n")
        else:
            self.assertEqual((status, noted), (0, ""))


class Workers(Ground):
    def test_words(self):
        self.assertEqual(self.ran("bench/workers", "--help")[0], 0)
        program = self.script("mcs", "#!/bin/sh\n")
        for words in (["--fast"], ["--program", "nothing"], ["--program", program, "wheels 3"], ["--program", program, "--workers", "0"]):
            status, table, noted = self.ran("bench/workers", *words)
            self.assertEqual((status, table), (2, ""), words)
            self.assertOneLine(noted)

    def test_a_difference_is_told(self):
        text = self.file("a text.mcs", "")
        for told, wanted in (("echo same", (0, "")), ("echo $2", (1, "workers: runs of one text did not print the same\n"))):
            program = self.script("mcs", f"#!/bin/sh\n{told}\n")
            status, table, noted = self.ran("bench/workers", "--program", program, "--workers", "2", "--times", "1", text)
            self.assertEqual((status, noted), wanted)
            self.assertRegex(table, r"\na text +0\.\d+ +0\.\d+ ")


class Sessions(Ground):
    def test_words(self):
        self.assertEqual(self.ran("bench/sessions", "--help")[0], 0)
        for words in (["--fast"], ["--program", "nothing"], ["--random", "some"]):
            status, table, _ = self.ran("bench/sessions", *words)
            self.assertEqual((status, table), (2, ""), words)

    def test_a_difference_is_told(self):
        for told, noted in [
            ("end of session: 0 lists, 0 answers", "the session has other numbers of listings or answers than its lines"),
            ("end of session: 1 lists, 0 answers", "the last line is not that of the session"),
        ]:
            program = self.script("mcs", f"#!/bin/sh\necho '{told}'\n")
            self.assertEqual(self.ran("bench/sessions", "--program", program), (1, "", f"sessions: {noted}\n"))


class Hostile(Ground):
    def test_words(self):
        self.assertEqual(self.ran("bench/hostile", "--help")[0], 0)
        for words in (["--fast"], ["--program", "nothing"]):
            status, table, noted = self.ran("bench/hostile", *words)
            self.assertEqual((status, table), (2, ""), words)

    def test_a_run_that_ends_otherwise_is_told(self):
        program = self.script("mcs", "#!/bin/sh\nkill -SEGV $$\n")
        status, table, noted = self.ran("bench/hostile", "--once", "--program", program, "text one word")
        self.assertEqual((status, noted), (1, ""))
        self.assertRegex(table, r"(?m)^! text +one word +1,048,576 .* signal 11  not as it has to end$")

    @needs_program
    def test_the_program_takes_long_words(self):
        status, table, noted = self.ran("bench/hostile", "--once", "--program", PROGRAM, "words")
        self.assertEqual((status, noted), (0, ""), table)


@needs("clingo")
class Clingo(Ground):
    def test_the_examples_have_the_same_lists(self):
        import questions
        for path in glob.glob(os.path.join(EXAMPLES, "*.mcs")):
            answers = questions.Answers(shutil.which("clingo"), path, self.room, 60)
            with open(path.replace(".mcs", ".solve"), "rb") as file:
                listed = questions.lists_of(file.read())
            diagnoses = answers.diagnoses()[0]
            self.assertEqual(listed["equilibrium"], answers.equilibria()[0], path)
            self.assertEqual(listed["diagnosis"], diagnoses, path)
            self.assertEqual(listed["explanation"], answers.explanations(diagnoses)[0], path)

    def test_the_least_cost_and_not_the_fewest_marks(self):
        import questions
        text = self.file("a text.mcs", """version 2.
context c1 program { a. }
context c2 program { :- p, not s. :- q, not s. }
bridge r1: c2:p if c1:a.
bridge r2: c2:q if not c1:b.
bridge r3 weight 5: c2:s if c1:b.
""")
        answers = questions.Answers(shutil.which("clingo"), text, self.room, 60)
        self.assertEqual(answers.cheapest()[0], {frozenset({"-r1", "-r2"})})
        self.assertEqual(answers.grounded()[0], None)

    def test_a_circle_is_not_grounded(self):
        import questions
        text = self.file("a text.mcs", "context c1 program {} bridge r1: c1:a if c1:a. bridge r2: c1:b if not c1:a.")
        answers = questions.Answers(shutil.which("clingo"), text, self.room, 60)
        self.assertEqual(answers.equilibria()[0], {frozenset(), frozenset({"c1:a"})})
        self.assertEqual(answers.grounded()[0], {frozenset()})
