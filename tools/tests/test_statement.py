"""tools/statement: the definitions that the contract of `run` rests on; docs/BELIEVE.md, which leads through them."""
import os
import re

from ground import TOP, Ground

PAGE = os.path.join(TOP, "docs", "BELIEVE.md")
PROMISE = os.path.join(TOP, "crates", "mcs_top", "specs", "Promise.antt")
RUN = os.path.join(TOP, "crates", "mcs_top", "src", "command.rt")


def content(path):
    with open(path, encoding="utf-8") as file:
        return file.read()


def quoted(cell):
    return re.findall(r"`([^`]+)`", cell)


def rows(head):
    """The cells of each row of the tables of the page that begin with this word."""
    for table in re.findall(r"(?:^\|.*\n)+", content(PAGE), re.MULTILINE):
        lines = [[cell.strip() for cell in line.strip("|").split(" | ")] for line in table.splitlines()]
        if lines[0][0].strip("| ") == head:
            for line in lines[2:]:
                yield [cell.strip("| ") for cell in line]


class Statement(Ground):
    def printed(self, *words):
        status, told, noted = self.ran("tools/statement", *words)
        self.assertEqual((status, noted), (0, ""))
        return told

    def names(self, *words):
        return [tuple(line.split(" ")) for line in self.printed("--names", *words).splitlines()]

    def test_the_page_names_what_the_statement_rests_on(self):
        there, told = set(self.names()), set()
        for names, _, files in rows("Names"):
            for name in quoted(names):
                found = {(name, "crates/" + file) for file in quoted(files)} & there
                self.assertTrue(found, f"docs/BELIEVE.md has `{name}` of {files}, on which `run` does not rest")
                told |= found
        missing = sorted(f"{name} of {path}" for name, path in there - told)
        self.assertEqual(missing, [], "docs/BELIEVE.md does not name these definitions, on which `run` rests")

    def test_the_cases_of_the_page_are_there(self):
        for names, _, files in rows("Case"):
            text = "\n".join(content(os.path.join(TOP, "crates", file)) for file in quoted(files))
            for name in quoted(names):
                self.assertTrue(re.search(rf"^\s*((pattern )?abbrev pub|pub record|pub fn|fn) {name}\b", text, re.MULTILINE),
                                f"docs/BELIEVE.md has the case `{name}`, which is not in {files}")

    def test_the_clauses_of_the_page_are_those_of_run(self):
        promise = content(PROMISE)
        promise = promise[promise.index("pub record KeepsPromise "):]
        fields = re.findall(r"^  pub ([\w']+) : ", promise[:promise.index("\n\n")], re.MULTILINE)
        run = content(RUN)
        run = run[run.index("pub fn run<"):]
        clauses = fields + re.findall(r"^    ensures (\w+) \{", run[:run.index("\n{")], re.MULTILINE)
        told = [clause for cells in rows("Clause") for clause in quoted(cells[0])]
        self.assertEqual(sorted(told), sorted(clauses))
        there = {name for name, _ in self.names()}
        for _, _, names in rows("Clause"):
            for name in quoted(names):
                self.assertIn(name, there, f"docs/BELIEVE.md has `{name}`, on which `run` does not rest")

    def test_the_files_and_commands_of_the_page_are_there(self):
        for words in quoted(content(PAGE)):
            path = words.split(" ")[0]
            if re.fullmatch(r"[\w.]+(/[\w.-]+)+/?", path):
                self.assertTrue(any(os.path.exists(os.path.join(TOP, folder, path)) for folder in ("", "crates")),
                                f"docs/BELIEVE.md names {path}, which is not there")
        for words in re.findall(r"^    tools/statement(.*?)(?:  +#.*)?$", content(PAGE), re.MULTILINE):
            self.printed(*words.split())

    def test_a_definition_stands_after_what_it_rests_on(self):
        told = self.printed("IsEquilibrium")
        self.assertTrue(told.startswith("==== crates/mcs_sets/specs/Sets.antt\n\n-- whether k is in the set\n"))
        self.assertIn("\n  -- the rules that act\n", told)
        self.assertTrue(told.rstrip().split("\n\n")[-1].startswith("-- s is an equilibrium"), told[-300:])
        names = [name for name, _ in self.names("IsEquilibrium")]
        for first, then in [("has", "Within"), ("Formula", "holds"), ("holds", "Entails"), ("Accepts", "AcceptsWith")]:
            self.assertLess(names.index(first), names.index(then))
        for name in ("IsDiagnosis", "IsConsistent", "run"):
            self.assertNotIn(name, names)

    def test_the_contract_comes_last(self):
        told = self.printed()
        self.assertRegex(told.rstrip().split("\n")[-1], r"^    ensures unread \{")
        self.assertEqual(self.names()[-1], ("run", "crates/mcs_top/src/command.rt"))
        self.assertEqual(self.names("run"), self.names())
        for name, path in self.names():
            self.assertIn(f"==== {path}\n", told)
            head = rf"^((pub|pattern|abbrev|unfoldable|pub\(crate\)|record|data|enum|struct|trait|type|fn) )+{name}\b"
            self.assertTrue(re.search(head, told, re.MULTILINE), f"{name} of {path} is not printed")

    def test_words(self):
        usage = "usage: statement [--names] [NAME...]\n"
        for words in (["--all"], ["IsDiagnosis", "-n"], ["--names", "--names"]):
            self.assertEqual(self.ran("tools/statement", *words), (2, "", usage))
        for name in ("IsTextReader", "nothing_of_the_kind"):
            status, told, noted = self.ran("tools/statement", name)
            self.assertEqual((status, told), (2, ""))
            self.assertEqual(noted, f"statement: the contract of `run` rests on no definition {name}\n")
        self.assertIn("tools/statement [--names] [NAME...]", self.printed("--help"))
