"""tools/recheck: what it says of reports, and that it says what `mcs check` says."""
import os
import re
import unittest

from ground import PROGRAM, TOP, Ground, example, needs_program

PAGE = os.path.join(TOP, "docs", "CERTIFICATES.md")
FAULTS = [(10, "step by 8 6 4 1 6", 7, "certificate"), (10, "step by 08 6 4 1 5", 10, "grammar"),
          (15, "state {facts:a}", 15, "grammar"), (16, "model {p}", 14, "certificate"),
          (3, "diagnosis 1: {+r1} state {facts:a} active {}", 3, "listing"), (5, "end: ", 5, "listing"),
          (5, "end", 26, "grammar"), (25, "end of proof\n", 26, "grammar"), (25, "", 25, "grammar")]


def worked_example():
    """The first text of the page and its report, as lines."""
    with open(PAGE) as file:
        page = file.read()
    text = re.search(r"\n## An example\n\n((?:    .*\n)+)", page).group(1)
    return text, re.findall(r"^ {4} ?[0-9 ]?[0-9]  (.*)$", page, re.MULTILINE)


# Two texts of version 2 with their reports: the example of docs/LANGUAGE.md, and a conflict whose rule may not be changed.
BOOKING = ("""\
version 2.
context scheduler classical {}
context diary classical {}
bridge book closed: scheduler:booked if not diary:entry.
bridge enter keep: diary:entry if scheduler:booked.
""", """\
mcs 1: 2 contexts, 2 rules, 2 variables
inconsistent
diagnosis 1: {-book} state {} active {}
diagnosis 2: {+enter} state {diary:entry} active {enter}
explanation 1: {-book by 1, +enter by 2}
end: 0 equilibria, 2 diagnoses, 1 explanations, need 4
proof
answer scheduler {}
state {}
no {}
done
answer scheduler {book}
state {scheduler:booked}
yes
step by 4 2 1
done
answer diary {}
state {}
no {}
done
answer diary {enter}
state {diary:entry}
yes
step by 4 2 1
done
end of proof
""")
BARRED = ("""\
version 2.
context c1 program { a. }
context c2 program { :- p. }
bridge r1 keep closed weight 30: c2:p if c1:a.
""", """\
mcs 1: 2 contexts, 1 rules, 1 variables
inconsistent
explanation 1: {}
end: 0 equilibria, 0 diagnoses, 1 explanations, need 2
proof
answer c1 {}
state {c1:a}
model {a}
step by 8 6 4 1 5
none
step by 8 6 4 1 5
done
answer c2 {r1}
none
step by 10 9 6 4 1 5
done
end of proof
""")


class Recheck(Ground):
    def told(self, text, report):
        return self.ran("tools/recheck", self.file("a text.mcs", text), self.file("a report", report))

    def test_the_example_of_the_page(self):
        text, lines = worked_example()
        report = "\n".join(lines) + "\n"
        self.assertEqual(len(lines), 25)
        self.assertEqual(self.told(text, report), (0, "valid\n", ""))
        for line, put, at, reason in FAULTS:
            changed = "\n".join(lines[:line - 1] + [put] + lines[line:]) + "\n"
            self.assertEqual(self.told(text, changed), (1, f"not valid: line {at}: {reason}\n", ""), (line, put))
        without = "\n".join(lines[:13] + lines[20:]) + "\n"
        self.assertEqual(self.told(text, without), (1, "not valid: line 18: missing\n", ""))
        self.assertEqual(self.told(text, report[:-1]), (1, "not valid: line 25: grammar\n", ""))
        self.assertEqual(self.told(text, ""), (1, "not valid: line 1: grammar\n", ""))

    def test_rules_that_repairs_leave_alone(self):
        for text, report in (BOOKING, BARRED):
            self.assertEqual(self.told(text, report), (0, "valid\n", ""))
        text, report = BOOKING
        # Without its marks the first system has two more diagnoses, and the second one asks one more question.
        free = text.replace(" closed", "").replace(" keep", "")
        self.assertEqual(self.told(free, report), (1, "not valid: line 4: listing\n", ""))
        self.assertEqual(self.told(text.replace(" keep", ""), report), (1, "not valid: line 4: listing\n", ""))
        text, report = BARRED
        self.assertEqual(self.told(text.replace(" keep", ""), report), (1, "not valid: line 17: missing\n", ""))
        self.assertEqual(self.told(text.replace(" closed", ""), report), (0, "valid\n", ""))

    def test_texts_of_version_2_that_are_refused(self):
        begins = "version 2. context c1 program {} bridge r1 "
        for text, note in [("version 3.", "F1 at 8"), ("version 02.", "F1 at 8"), ("bridge r keep: c:p.", "F1 at 9"),
                           (begins + "weight 0: c1:a.", "F1 at 50"), (begins + "weight: c1:a.", "F1 at 49"),
                           (begins + "closed keep: c1:a.", "F1 at 50"), (begins + "7: c1:a.", "F1 at 43"),
                           (begins + "weight 1000001: c1:a.", "F5 at 50: weight 1000000"),
                           (begins + "weight " + "1" * 5000 + ": c1:a.", "F5 at 50: weight 1000000")]:
            self.assertEqual(self.ran("tools/recheck", self.file("a text.mcs", text), "nothing"),
                             (3, "", f"mcs: refused: {note}\n"), text)

    def test_texts_that_are_refused(self):
        folder = example("refused")
        for name in (name for name in os.listdir(folder) if name.endswith(".mcs")):
            with open(os.path.join(folder, name.replace(".mcs", ".refused"))) as file:
                self.assertEqual(self.ran("tools/recheck", os.path.join(folder, name), "nothing"), (3, "", file.read()))

    def test_other_endings(self):
        text = self.file("a text.mcs", "")
        self.assertEqual(self.ran("tools/recheck", text, "nothing"), (5, "", "mcs: read fault\n"))
        self.assertEqual(self.ran("tools/recheck", self.room, text), (5, "", "mcs: read fault\n"))
        long = self.file("long.mcs", " " * 1048577)
        self.assertEqual(self.ran("tools/recheck", long, text), (3, "", "mcs: refused: file longer than 1048576\n"))
        for words in ([], [text], [text, "-"], [text, ""], [text, text, text], [text, "-r"]):
            self.assertEqual(self.ran("tools/recheck", *words), (2, "", "usage: recheck FILE REPORT\n"))

    @needs_program
    def test_it_says_what_the_program_says(self):
        status, told, noted = self.ran("tools/compare-recheck", "--count", "60", "--program", PROGRAM,
                                       example("birds.mcs"), example("therapy.mcs"))
        self.assertEqual((status, noted), (0, ""), told)
        self.assertRegex(told, r"\Arecheck: 2 reports and 60 changed ones, 0 differences, 0 texts left out\n")


if __name__ == "__main__":
    unittest.main()
