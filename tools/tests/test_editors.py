"""editors/: what Vim makes of a text, and what bash completes."""
import os
import re
import subprocess

from ground import PROGRAM, TOP, Ground, needs, needs_program

TEXT = """\
# A comment. TODO
context clinic classical { patient -> insured. 9. }
context ward default {
  bird : flies / flies.
}
bridge admit: ward:admitted if clinic:patient,
  not clinic : (a <-> ~b).
bridge open: ward:x if
bridge next: ward:y. ? know
version 2. bridge safe keep closed weight 30: ward:z.
"""

# The line of the text, the word there, and what it is to be taken for.
TAKEN = [
    (1, "comment", "mcsComment"), (1, "TODO", "mcsTodo"),
    (2, "context", "mcsDeclare"), (2, "clinic", "mcsContextName"), (2, "classical", "mcsKind"), (2, "patient", "mcsName"),
    (2, "->", "mcsOperator"), (2, "9", "mcsStray"),
    (4, "bird", "mcsName"), (4, "flies", "mcsName"),
    (6, "bridge", "mcsDeclare"), (6, "admit", "mcsRuleName"), (6, "ward", "mcsPlace"), (6, "admitted", "mcsName"),
    (6, "if", "mcsLogic"), (6, "clinic", "mcsPlace"), (6, "patient", "mcsName"),
    (7, "not", "mcsLogic"), (7, "clinic", "mcsPlace"), (7, "<->", "mcsOperator"), (7, "b", "mcsName"),
    (8, "open", "mcsRuleName"), (9, "bridge", "mcsDeclare"), (9, "next", "mcsRuleName"), (9, "ward", "mcsPlace"),
    (9, "?", "mcsStray"), (9, "know", "mcsReserved"),
    (10, "version", "mcsVersion"), (10, "2", "mcsNumber"), (10, "safe", "mcsRuleName"), (10, "keep", "mcsMark"),
    (10, "closed", "mcsMark"), (10, "weight", "mcsMark"), (10, "30", "mcsNumber"), (10, "z", "mcsName"),
]

ASK = """\
let told = [&filetype, &commentstring, &comments]
for [line, column] in {places}
  call add(told, synIDattr(synID(line, column, 1), 'name'))
endfor
call writefile(told, $TOLD)
qall!
"""


PATH = "set runtimepath+=" + os.path.join(TOP, "editors", "vim").replace(" ", r"\ ")


@needs("vim")
class Vim(Ground):
    def asked(self, text, script, lines, **variables):
        """What a script of Vim tells, with a `.vimrc` of these lines."""
        text, script = self.file("a text.mcs", text), self.file("ask.vim", script)
        settings = self.file("vimrc", "\n".join(["set nocompatible", *lines]) + "\n")
        told = os.path.join(self.room, "told")
        subprocess.run(["vim", "-u", settings, "-i", "NONE", "-n", "-T", "dumb", "--not-a-term", text, "-S", script],
                       stdin=subprocess.DEVNULL, stdout=subprocess.DEVNULL, stderr=subprocess.DEVNULL, timeout=60,
                       env={**os.environ, "TOLD": told, "HOME": self.room, **variables})
        with open(told) as file:
            return file.read().split("\n")[:-1]

    def told(self, *lines):
        """What Vim takes the text for."""
        rows = TEXT.split("\n")
        places = [[line, rows[line - 1].index(word) + 1] for line, word, _ in TAKEN]
        return self.asked(TEXT, ASK.format(places=places), lines)

    def test_make_goes_to_the_fault(self):
        program = self.script("mcs", "#!/bin/sh\necho 'mcs: refused: F2 at 34' >&2\nexit 3\n")
        text = "context c classical {}\n\tbridge r: d:p.\n"
        script = """silent make!
call writefile(map(getqflist(), 'v:val.lnum . " " . v:val.col . " " . v:val.text'), $TOLD)
qall!
"""
        told = self.asked(text, script, [PATH, "filetype plugin on"], MCS=program)
        self.assertEqual(told, ["2 12 F2: no context has this name"])

    def test_words_are_taken_as_what_they_are_in_any_order_of_lines(self):
        path = PATH
        wanted = ["mcs", "# %s", ":#"] + [taken for _, _, taken in TAKEN]
        for lines in [(path, "syntax on", "filetype plugin on"), ("syntax on", path, "filetype plugin on"),
                      ("filetype plugin on", "syntax on", path), ("syntax on", "filetype plugin on", path)]:
            told = self.told(*lines)
            self.assertEqual(dict(enumerate(zip(TAKEN, told[3:]))), dict(enumerate(zip(TAKEN, wanted[3:]))), lines)
            self.assertEqual(told[:3], wanted[:3], lines)


@needs("bash")
class Completion(Ground):
    def offered(self, *words, built=False):
        """What bash offers for the last word, with all that is not built yet left out unless it is asked for."""
        script = os.path.join(TOP, "editors", "bash", "mcs")
        run = subprocess.run(
            ["bash", "-c", 'source "$0"; ' + ("unset _mcs_not_built; " if built else "")
             + 'COMP_WORDS=("$@"); COMP_CWORD=$(($# - 1)); _mcs; printf "%s\\n" "${COMPREPLY[@]}"', script, "mcs", *words],
            cwd=self.room, capture_output=True, text=True)
        self.assertEqual(run.returncode, 0, run.stderr)
        return run.stdout.split("\n")[:-1] if run.stdout != "\n" else []

    def test_jobs_options_and_files(self):
        self.file("a text.mcs", "")
        self.file("other.txt", "")
        os.mkdir(os.path.join(self.room, "folder"))
        everything = dict(built=True)
        self.assertEqual(self.offered("", **everything), ["equilibria", "grounded", "solve", "cheapest", "session", "check", "make"])
        self.assertEqual(self.offered("s"), ["solve", "session"])
        self.assertEqual(sorted(self.offered("solve", "")), ["a text.mcs", "folder"])
        self.assertEqual(self.offered("solve", "a"), ["a text.mcs"])
        self.assertEqual(sorted(self.offered("check", "a text.mcs", "")), ["a text.mcs", "folder", "other.txt"])
        self.assertEqual(sorted(self.offered("cheapest", "a text.mcs", "")), ["a text.mcs", "folder", "other.txt"])
        self.assertEqual(sorted(self.offered("session", "a text.mcs", "")), ["a text.mcs", "folder", "other.txt"])
        self.assertEqual(self.offered("solve", "a text.mcs", ""), [])
        self.assertEqual(self.offered("make", "", **everything), [])
        self.assertEqual(self.offered("-", **everything), ["--budget", "--workers", "--proof"])
        self.assertEqual(self.offered("equilibria", "--", **everything), ["--budget", "--workers"])
        self.assertEqual(self.offered("session", "--", **everything), ["--budget"])
        self.assertEqual(self.offered("--budget", "5", "--", **everything), ["--workers", "--proof"])
        self.assertEqual(self.offered("--budget", ""), [])
        self.assertEqual(self.offered("--budget", "=", "5", "--workers", "2", "sol"), ["solve"])
        self.assertEqual(self.offered("--budget", "="), [])
        self.assertEqual(self.offered("--", "-"), [])

    def test_what_is_not_built_is_not_offered(self):
        with open(os.path.join(TOP, "editors", "bash", "mcs")) as file:
            absent = re.search('^_mcs_not_built="(.*)"$', file.read(), re.MULTILINE)
        words = self.offered("") + self.offered("solve", "x", "-")
        for word in absent[1].split() if absent else []:
            self.assertNotIn(word, words)

    @needs_program
    def test_what_is_built_is_offered_and_has_its_page(self):
        with open(os.path.join(TOP, "editors", "bash", "mcs")) as file:
            absent = re.search('^_mcs_not_built="(.*)"$', file.read(), re.MULTILINE)
        absent = absent[1].split() if absent else []
        with open(os.path.join(TOP, "docs", "mcs.1")) as file:
            page = next((line for line in file if "Not built yet:\\fR" in line), "").replace("\\-", "-")
        empty = self.file("empty.mcs", "")
        for word, words in [("check", ["check", empty, empty]), ("make", ["make", "0"]),
                            ("--proof", ["solve", empty, "--proof"])]:
            run = subprocess.run([PROGRAM, *words], stdin=subprocess.DEVNULL, capture_output=True)
            built = run.returncode != 2
            told = f"{word} is{'' if built else ' not'} built: mend "
            self.assertEqual(word not in absent, built, told + "_mcs_not_built in editors/bash/mcs")
            self.assertEqual(word not in page, built, told + "the line `Not built yet` of docs/mcs.1")
