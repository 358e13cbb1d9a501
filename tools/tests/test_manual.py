"""docs/mcs.1: it is laid out without a warning, and has the words and statuses that the program has."""
import os
import re
import subprocess

from ground import TOP, Ground, needs

PAGE = os.path.join(TOP, "docs", "mcs.1")


class Manual(Ground):
    @needs("groff")
    def test_it_is_laid_out_without_a_warning(self):
        run = subprocess.run(["groff", "-man", "-t", "-ww", "-Tutf8", PAGE], capture_output=True)
        self.assertEqual((run.returncode, run.stderr), (0, b""))

    def test_it_has_the_options_and_statuses(self):
        with open(PAGE) as file:
            page = file.read().replace("\\-", "-")
        with open(os.path.join(TOP, "docs", "REPORT.md")) as file:
            report = file.read()
        for option in re.findall(r"\[(--\w+)", re.search("mcs: usage: .*", report)[0]):
            self.assertRegex(page, rf'\n\.(TP\n\.BI? )"?{option}')
        for status in re.findall(r"^\| (\d) \| ", report, re.MULTILINE):
            self.assertIn(f"\n{status}|T{{", page)
