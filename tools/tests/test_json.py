"""tools/json: the document of a listing or report, from which it can be printed again, and what is refused."""
import glob
import json
import os
import subprocess
import sys

import reports
from ground import EXAMPLES, PROGRAM, TOP, Ground, example, needs_program

sys.path.insert(0, os.path.join(TOP, "tools"))
import report_text  # noqa: E402
import system_text  # noqa: E402


def told(members):
    return "{" + ", ".join(map(str, members)) + "}"


class Printed:
    """What was printed, from the document alone."""

    def __init__(self, document):
        self.document, self.lines = document, []
        counts = document.get("counts")
        if document["job"] == "check":
            line = f"not valid: line {document.get('line')}: {document.get('reason')}"
            self.lines.append("valid" if document["valid"] else line)
            return
        size = "{contexts} contexts, {rules} rules, {variables} variables".format(**counts)
        made = document["job"] == "make"
        self.lines.append((f"make {document['number']}: " if made else f"mcs {document['version']}: ") + size)
        if document["job"] == "grounded":
            for number, each in enumerate(document["grounded"], 1):
                self.lines.append(f"grounded {number}: {self.state(each)} applicable {told(each['applicable'])}")
            self.lines.append(f"end: {counts['grounded']} grounded of {counts['equilibria']} equilibria, need {document['need']}")
            return
        for number, each in enumerate(document.get("equilibria", []), 1):
            self.lines.append(f"equilibrium {number}: {self.state(each)} applicable {told(each['applicable'])}")
        self.lines.append("consistent" if document["consistent"] else "inconsistent")
        if document["job"] == "cheapest":
            for number, each in enumerate(document["cheapest"], 1):
                shown = f"state {self.state(each)} active {told(each['active'])}"
                self.lines.append(f"cheapest {number}: {self.marks(each)} cost {each['cost']} {shown}")
            cost = "" if document["cost"] is None else f", cost {document['cost']}"
            self.lines.append(f"end: {counts['cheapest']} cheapest{cost}, need {document['need']}")
            return
        for number, each in enumerate(document.get("diagnoses", []), 1):
            self.lines.append(f"diagnosis {number}: {self.marks(each)} state {self.state(each)} active {told(each['active'])}")
        for number, each in enumerate(document.get("explanations", []), 1):
            self.lines.append(f"explanation {number}: {self.marks(each)}")
        lists = [f"{counts[name]} {name}" for name in ("equilibria", "diagnoses", "explanations") if name in counts]
        self.lines.append(f"end: {', '.join(lists)}, need {document['need']}")
        if "proof" in document:
            self.lines.append("proof")
            for answer in document["proof"]:
                self.answer(answer)
            self.lines.append("end of proof")

    def state(self, each):
        return told(f"{context}:{belief}" for context, beliefs in each["state"].items() for belief in beliefs)

    def marks(self, each):
        """The marks in the order of the rules, `-` before `+`."""
        marks = []
        for place, name in enumerate(self.document["rules"]):
            for sign, of in enumerate(("removed", "forced")):
                for mark in each[of]:
                    if isinstance(mark, dict) and mark["rule"] == name:
                        marks.append((place, sign, f"{'-+'[sign]}{name} by {mark['by']}"))
                    elif mark == name:
                        marks.append((place, sign, "-+"[sign] + name))
        return told(mark for _, _, mark in sorted(marks))

    def answer(self, answer):
        assert answer["line"] == len(self.lines) + 1
        self.lines.append(f"answer {answer['context']} {told(answer['rules'])}")
        for state in answer["states"]:
            self.lines.append("state " + told(f"{answer['context']}:{belief}" for belief in state))
        self.entailments(answer.get("beliefs", []))
        for case in answer.get("sets", []):
            assert case["line"] == len(self.lines) + 1
            self.lines.append("set " + told(case["set"]))
            self.case(case)
        for model in answer.get("models", []):
            self.lines.append("model " + told(model["atoms"]))
            self.steps(model["trace"])
        self.lines += ["smaller " + told(atoms) for atoms in answer.get("smaller", [])]
        if "none" in answer:
            self.lines.append("none")
            self.steps(answer["none"]["trace"])
        self.lines.append("done")

    def case(self, case):
        words = {"unsupported": [case.get("default")], "blocked": [case.get("default"), case.get("justification")],
                 "applied": [case.get("default")], "ungrounded": [told(case.get("named", []))],
                 "extension": case.get("order")}[case["case"]]
        self.lines.append(" ".join(map(str, [case["case"], *words])))
        self.entailments([case[name] for name in ("prerequisite", "negation") if name in case])
        self.entailments(case.get("prerequisites", []) + case.get("negations", []))
        for each in case.get("outside", []):
            self.case(each)
        self.entailments(case.get("beliefs", []))

    def entailments(self, parts):
        for part in parts:
            assert part["line"] == len(self.lines) + 1
            self.lines.append("yes" if part["follows"] else "no " + told(part["atoms"]))
            self.steps(part.get("trace", []))

    def steps(self, trace):
        for step in trace:
            self.lines.append(" ".join(map(str, ["step", *step["clause"], "by", *step["chain"]])))


class Json(Ground):
    def document(self, path, listing):
        """The document of a listing in a file."""
        status, text, noted = self.ran("tools/json", path, listing)
        self.assertEqual((status, noted), (0, ""), listing)
        return json.loads(text)

    def assertTurned(self, path, printed):
        """The document of what was printed has all that it has."""
        document = self.document(path, self.file("a listing", printed))
        self.assertEqual("\n".join(Printed(document).lines) + "\n", printed)
        return document

    def test_a_listing_by_hand(self):
        self.assertEqual(self.document(example("paradox.mcs"), example("paradox.solve")), {
            "job": "solve",
            "version": 1,
            "contexts": [{"name": "scheduler", "kind": "classical"}, {"name": "diary", "kind": "classical"}],
            "rules": ["book", "enter"],
            "variables": [{"context": "scheduler", "belief": "booked"}, {"context": "diary", "belief": "entry"}],
            "consistent": False,
            "equilibria": [],
            "diagnoses": [
                {"removed": ["book"], "forced": [], "state": {"scheduler": [], "diary": []}, "active": []},
                {"removed": [], "forced": ["book"], "state": {"scheduler": ["booked"], "diary": ["entry"]},
                 "active": ["book", "enter"]},
                {"removed": ["enter"], "forced": [], "state": {"scheduler": ["booked"], "diary": []}, "active": ["book"]},
                {"removed": [], "forced": ["enter"], "state": {"scheduler": [], "diary": ["entry"]}, "active": ["enter"]},
            ],
            "explanations": [{"removed": [{"rule": "book", "by": 1}, {"rule": "enter", "by": 3}],
                              "forced": [{"rule": "book", "by": 2}, {"rule": "enter", "by": 4}]}],
            "counts": {"contexts": 2, "rules": 2, "variables": 2, "equilibria": 0, "diagnoses": 4, "explanations": 1},
            "need": 4,
        })

    def test_the_views_and_the_verdict_by_hand(self):
        document = self.document(example("records.mcs"), example("records.out"))
        self.assertEqual((document["job"], document["consistent"], document["need"]), ("equilibria", True, 4))
        self.assertEqual(document["equilibria"], [{
            "state": {"clinic": ["patient", "allergic"], "registry": ["insured"], "merged": ["linked"]},
            "applicable": ["link", "warn", "flag"]}])
        self.assertEqual(document["counts"], {"contexts": 3, "rules": 3, "variables": 5, "equilibria": 1})
        self.assertNotIn("diagnoses", document)

    def test_grounded_equilibria_by_hand(self):
        path = example("ontologies.mcs")
        with open(example("ontologies.grounded")) as file:
            whole = file.read()
        document = self.assertTurned(path, whole)
        self.assertEqual(document["grounded"], [{"state": {"zoology": ["mammal"], "fishery": []}, "applicable": []}])
        self.assertEqual(document["counts"], {"contexts": 2, "rules": 2, "variables": 3, "grounded": 1, "equilibria": 2})
        self.assertNotIn("consistent", document)
        heading, _, end = whole.splitlines(True)
        self.assertEqual(self.assertTurned(path, heading + "end: 0 grounded of 0 equilibria, need 4\n")["grounded"], [])
        for content, line in [(heading + end, 2), (whole.replace("of 2", "of 0"), 3), (whole[:-1], 3), (whole + end, 4)]:
            listing = self.file("a listing", content)
            status, printed, noted = self.ran("tools/json", path, listing)
            self.assertEqual((status, printed), (1, ""), content)
            self.assertTrue(noted.startswith(f"{listing}:{line}:1: "), (content, noted))

    def test_cheapest_diagnoses_by_hand(self):
        path = example("prescription.mcs")
        with open(example("prescription.cheapest")) as file:
            whole = file.read()
        document = self.assertTurned(path, whole)
        self.assertEqual(document["cheapest"], [{
            "removed": ["liver"], "forced": ["substitute"], "cost": 5,
            "state": {"record": ["infection", "allergic", "hepatitis"], "pharmacy": []},
            "active": ["report", "warn", "substitute"]}])
        self.assertEqual((document["consistent"], document["cost"], document["need"]), (False, 5, 9))
        self.assertEqual(document["counts"], {"contexts": 2, "rules": 5, "variables": 5, "cheapest": 1})
        heading, verdict, cheapest, end = whole.splitlines(True)
        none = self.assertTurned(path, heading + verdict + "end: 0 cheapest, need 9\n")
        self.assertEqual((none["cheapest"], none["cost"]), ([], None))
        for content, line in [(heading + verdict + end, 3), (whole.replace("cost 5,", "cost 4,"), 4), (heading + cheapest + end, 2),
                              (whole.replace("inconsistent", "consistent"), 4), (whole[:-1], 4), (whole + end, 5)]:
            listing = self.file("a listing", content)
            status, printed, noted = self.ran("tools/json", path, listing)
            self.assertEqual((status, printed), (1, ""), content)
            self.assertTrue(noted.startswith(f"{listing}:{line}:1: "), (content, noted))

    def test_make_and_check_by_hand(self):
        made = "make 0: 2 contexts, 2 rules, 1 variables\nconsistent\nend: 2 equilibria, 1 diagnoses, 0 explanations, need 3\n"
        self.assertEqual(self.assertTurned("-", made), {
            "job": "make", "number": 0, "consistent": True, "need": 3,
            "counts": {"contexts": 2, "rules": 2, "variables": 1, "equilibria": 2, "diagnoses": 1, "explanations": 0}})
        self.assertEqual(self.assertTurned(example("paradox.mcs"), "valid\n"), {"job": "check", "valid": True})
        self.assertEqual(self.assertTurned("-", "not valid: line 8: certificate\n"),
                         {"job": "check", "valid": False, "line": 8, "reason": "certificate"})

    def test_a_proof_by_hand(self):
        text, report = reports.DEFAULT
        birds, zoo = self.assertTurned(self.file("a text.mcs", text), report)["proof"]
        self.assertEqual({name: birds[name] for name in ("line", "context", "kind", "rules", "states")},
                         {"line": 7, "context": "birds", "kind": "default", "rules": [], "states": [["nests"]]})
        self.assertEqual([(case["set"], case["case"]) for case in birds["sets"]],
                         [([], "applied"), ([1], "ungrounded"), ([2], "applied"), ([1, 2], "extension")])
        self.assertEqual(birds["sets"][0], {
            "line": 9, "set": [], "case": "applied", "default": 2,
            "prerequisite": {"line": 11, "follows": True, "trace": [{"clause": [], "chain": [2, 4, 1]}]},
            "negations": [{"line": 13, "follows": False, "atoms": ["bird", "flies"]}]})
        self.assertEqual(birds["sets"][3]["order"], [2, 1])
        self.assertEqual(birds["sets"][3]["beliefs"], [
            {"belief": "nests", "line": 30, "follows": True, "trace": [{"clause": [], "chain": [4, 6, 2]}]}])
        self.assertEqual(zoo, {
            "line": 33, "context": "zoo", "kind": "program", "rules": ["cage"], "states": [[]],
            "models": [{"line": 35, "atoms": ["cage"], "trace": [{"clause": [], "chain": [8, 6, 4, 1, 5]}]}],
            "smaller": [], "none": {"line": 37, "trace": [{"clause": [], "chain": [9, 7, 6]}]}})
        text, report = reports.CLASSICAL
        self.assertEqual(self.assertTurned(self.file("a text.mcs", text), report)["proof"], [
            {"line": 7, "context": "a", "kind": "classical", "rules": [], "states": [["r"]], "beliefs": [
                {"belief": "r", "line": 9, "follows": True, "trace": [
                    {"clause": [1], "chain": [7, 9, 2, 5, 12]}, {"clause": [], "chain": [6, 8, 1, 16, 5, 12]}]}]},
            {"line": 13, "context": "b", "kind": "classical", "rules": ["x"], "states": [[]], "beliefs": []}])

    def test_nothing_of_a_listing_is_lost(self):
        for path in glob.glob(os.path.join(EXAMPLES, "*.mcs")):
            for ending in (".out", ".solve"):
                with open(path.replace(".mcs", ending)) as file:
                    self.assertTurned(path, file.read())

    def test_what_is_cut_is_refused(self):
        for text, report in reports.ALL:
            system, listing = system_text.read(text.encode()), report[:report.index("proof\n")]
            for length in range(len(report)):
                if length != len(listing):
                    with self.assertRaises(report_text.Fault, msg=report[:length]):
                        report_text.read(report[:length].encode(), system)
            with self.assertRaises(report_text.Fault):
                report_text.read((report + "x").encode(), system)

    def test_what_is_refused_is_told_in_one_line(self):
        text = example("paradox.mcs")
        with open(example("paradox.solve")) as file:
            whole = file.read()
        for content, line in [
            ("", 1), ("hello\n", 1), ("valid\nvalid\n", 2), ("valid", 1), ("not valid: line 0: grammar\n", 1),
            ("mcs 2" + whole[5:], 1), (whole.replace("2 variables", "3 variables"), 1), (whole[:-1], 8),
            (whole.replace("inconsistent", "consistent"), 2), (whole.replace("diagnosis 3", "diagnosis 4"), 5),
            (whole.replace("diary:entry", "diary:entries"), 4), (whole.replace("{-book}", "{-look}"), 3),
            (whole.replace("{-book}", "{book}"), 3), (whole.replace("by 4", "by 5"), 7), (whole.replace("4 diag", "3 diag"), 8),
            (whole + "end\n", 9), (whole + "proof\n", 10), (whole + "proof\nanswer diary {}\nend of proof\n", 11),
            (whole + "proof\nanswer staff {}\n", 10), (whole + "proof\nanswer diary {book}\n", 10),
        ]:
            listing = self.file("a listing", content)
            status, printed, noted = self.ran("tools/json", text, listing)
            self.assertEqual((status, printed), (1, ""), content)
            self.assertOneLine(noted)
            self.assertTrue(noted.startswith(f"{listing}:{line}:1: "), (content, noted))
        self.assertEqual(self.ran("tools/json", "-", example("paradox.solve"))[0], 1)

    def test_words_and_the_standard_input(self):
        for words in ([], ["a", "b", "c"], ["--all", "a"], [example("refused", "unknown_context.mcs")], ["nothing"],
                      [example("paradox.mcs"), "nothing"]):
            status, printed, noted = self.ran("tools/json", *words)
            self.assertEqual((status, printed), (2, ""), words)
            self.assertOneLine(noted)
        with open(example("paradox.solve"), "rb") as file:
            listing = file.read()
        for words in (["-"], []):
            run = subprocess.run([os.path.join(TOP, "tools", "json"), example("paradox.mcs"), *words], input=listing,
                                 capture_output=True)
            self.assertEqual((run.returncode, run.stderr), (0, b""))
            self.assertEqual(json.loads(run.stdout), self.document(example("paradox.mcs"), example("paradox.solve")))

    @needs_program
    def test_nothing_that_the_program_prints_is_lost(self):
        def printed(*words):
            return subprocess.run([PROGRAM, *words], stdin=subprocess.DEVNULL, capture_output=True).stdout.decode()

        for path in glob.glob(os.path.join(EXAMPLES, "*.mcs")):
            self.assertTurned(path, printed("equilibria", path))
            report = printed("solve", path, "--proof")
            self.assertIn("proof", self.assertTurned(path, report))
            self.assertTrue(self.assertTurned(path, printed("check", path, self.file("report", report)))["valid"])
        self.assertFalse(self.assertTurned("-", printed("check", path, path))["valid"])
        self.assertEqual(self.assertTurned("-", printed("make", "1055"))["number"], 1055)
