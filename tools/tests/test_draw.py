"""tools/draw: the graph of a text, with and without a listing, and what it can't read."""
import glob
import os
import re
import subprocess

from ground import EXAMPLES, Ground, example, needs

RED, BLUE, ORANGE, PURPLE, CRIMSON = "#c81e1e", "#1f5fd0", "#c76a00", "#8a2be2", "#a8326e"


class Draw(Ground):
    def drawn(self, *words):
        status, graph, noted = self.ran("tools/draw", *words)
        self.assertEqual((status, noted), (0, ""))
        return graph

    def text(self, content, *words):
        return self.drawn(self.file("a text.mcs", content), *words)

    def line(self, graph, start):
        """The one line that begins so."""
        found = [line.strip() for line in graph.split("\n") if line.strip().startswith(start)]
        self.assertEqual(len(found), 1, (start, graph))
        return found[0]

    def test_each_example_has_its_boxes_and_names(self):
        for path in glob.glob(os.path.join(EXAMPLES, "*.mcs")):
            graph = self.drawn(path)
            with open(path) as file:
                text = re.sub("#.*", "", file.read())
            for name, kind in re.findall(r"\bcontext (\w+) (\w+)", text):
                self.line(graph, f'"context {name}" [label="{name}\\n({kind})"]')
            for name in re.findall(r"\bbridge (\w+)", text):
                # The name of a rule stands alone or before its marks; that of a context before its kind.
                self.assertEqual(len(re.findall(rf'label="{name}("|\\n[^(])', graph)), 1, path)

    def test_one_read_is_an_arrow_and_a_negative_one_is_dashed(self):
        graph = self.drawn(example("access.mcs"))
        self.assertIn("style=solid", self.line(graph, '"context staff" -> "context roles" [label="clerk"'))
        self.assertIn("style=dashed", self.line(graph, '"context desk" -> "context roles" [label="emergency"'))

    def test_several_reads_meet_in_a_point(self):
        graph = self.drawn(example("records.mcs"))
        self.assertIn("shape=point", self.line(graph, '"rule flag" ['))
        self.assertIn("style=solid", self.line(graph, '"context merged" -> "rule flag"'))
        self.assertIn("style=dashed", self.line(graph, '"context registry" -> "rule flag"'))
        self.assertIn('label="flag"', self.line(graph, '"rule flag" -> "context merged"'))

    def test_a_loop_and_a_rule_without_reads(self):
        graph = self.text("context c program { a. } bridge r: c:b if not c:a. bridge s: c:d.")
        self.assertIn("style=dashed", self.line(graph, '"context c" -> "context c" [label="r"'))
        self.assertIn("shape=circle", self.line(graph, '"rule s" ['))
        self.line(graph, '"rule s" -> "context c" [label="s"')

    def test_what_rules_say_of_themselves(self):
        graph = self.text("version 2. context c program { a. } context d program {} bridge k keep: d:p if c:a.\n"
                          "bridge l closed: d:q if c:a. bridge m weight 30: d:r if c:a. bridge n weight 1: d:s if c:a.\n"
                          "bridge o keep closed weight 2: d:t if c:a, not d:q.")
        kept = self.line(graph, '"context c" -> "context d" [label="k\\nkeep"')
        self.assertIn('color="black:invis:black"', kept)
        self.assertNotIn("arrowhead", kept)
        self.assertIn('tooltip="bridge k keep: d:p if c:a."', kept)
        closed = self.line(graph, '"context c" -> "context d" [label="l\\nclosed"')
        self.assertIn("arrowhead=onormal", closed)
        self.assertIn('color="black"', closed)
        self.assertIn('color="black"', self.line(graph, '"context c" -> "context d" [label="m\\nweight 30"'))
        plain = self.line(graph, '"context c" -> "context d" [label="n", ')
        self.assertIn('tooltip="bridge n: d:s if c:a."', plain)
        both = self.line(graph, '"rule o" -> "context d"')
        self.assertIn('label="o\\nkeep closed weight 2", color="black:invis:black"', both)
        self.assertIn("arrowhead=onormal", both)
        self.assertIn('color="black"', self.line(graph, '"rule o" ['))

    def test_all_kinds_formulas_comments_and_line_ends(self):
        graph = self.text("# \u00fc \"x\"\r\ncontext a classical {p<->~q&(r|true)->false. }\t# {\r\n"
                          "context b default { p : q, ~r / s. p. }\ncontext node program { x | y :- z, not w. :- . }\n"
                          "bridge edge: a:(p -> q) if b:~~s, not node:x. # no line feed follows")
        self.assertIn('tooltip="bridge edge: a:(p -> q) if b:~~s, not node:x."', graph)
        self.line(graph, '"context node" [label="node\\n(program)"]')

    def test_deep_formulas_are_read(self):
        self.text("context c classical { " + "(" * 512 + "a" + ")" * 512 + ". " + "~" * 511 + "a. "
                  + "a -> " * 255 + "a. }")

    def test_diagnosis_1_is_shown_where_none_is_chosen(self):
        graph = self.drawn(example("access.mcs"), example("access.solve"))
        line = self.line(graph, '"context rota" -> "context staff"')
        self.assertIn('label="stand_in\\ndropped"', line)
        self.assertIn(RED, line)
        self.assertEqual(graph.count(RED), line.count(RED))
        self.assertIn('label="diagnosis 1\\ndropped (red): stand_in"', graph)

    def test_dropped_and_forced_rules_are_told_apart(self):
        graph = self.drawn(example("access.mcs"), example("access.solve"), "--diagnosis", "4")
        forced = self.line(graph, '"rule alarm" -> "context desk"')
        self.assertIn('label="alarm\\nforced"', forced)
        self.assertIn(BLUE, forced)
        self.assertIn("shape=circle", self.line(graph, '"rule alarm" ['))
        self.assertNotIn(BLUE, self.line(graph, '"context rota" -> "rule alarm"'))
        self.assertIn(RED, self.line(graph, '"context roles" -> "context audit"'))

    def test_explanations(self):
        graph = self.drawn(example("access.mcs"), example("access.solve"), "--explanation=2")
        self.assertIn(f'label="waive\\nin the way, by 4", color="{ORANGE}"', graph)
        self.assertIn(f'label="log\\nnot forced, by 5", color="{PURPLE}"', graph)
        graph = self.drawn("--explanation", "1", example("paradox.mcs"), example("paradox.solve"))
        self.assertIn(f'label="book\\nin the way, by 1\\nnot forced, by 2", color="{CRIMSON}"', graph)

    def test_listings_with_nothing_to_colour(self):
        plain = self.drawn(example("paradox.mcs"))
        self.assertEqual(plain, self.drawn(example("paradox.mcs"), example("paradox.out")))
        self.assertIn("nothing has to be changed", self.drawn(example("records.mcs"), example("records.solve")))

    def test_what_is_refused_is_told_in_one_line(self):
        text, listing = example("access.mcs"), example("access.solve")
        bad = self.file("bad.mcs", "context c classical {\n\tp & ? q. }")
        for words, told in [
            ([], "usage: "),
            ([text, "--diagnosis", "1"], "usage: "),
            ([text, listing, "--diagnosis"], "usage: "),
            ([text, listing, "--diagnosis", "0"], "usage: "),
            ([text, listing, "--diagnosis", "1", "--explanation", "1"], "usage: "),
            ([text, listing, "--colour"], "usage: "),
            ([text, listing, "--diagnosis", "8"], "there is no diagnosis 8: the listing has 7 diagnoses"),
            ([text, listing, "--explanation", "3"], "there is no explanation 3: the listing has 2 explanations"),
            ([text, example("paradox.solve")], "another text"),
            ([example("registries.mcs"), listing], "another text"),
            ([text, text], "is no listing"),
            (["missing file"], "draw: missing file can't be read: "),
            ([bad], f"{bad}:2:6: `?`, with which no token begins, can't stand here: a formula is wanted"),
            ([example("refused", "unknown_context.mcs")], ":2:14: no context has this name"),
        ]:
            status, graph, noted = self.ran("tools/draw", *words)
            self.assertEqual((status, graph), (2, ""), words)
            self.assertOneLine(noted)
            self.assertIn(told, noted)

    def test_refusals_stand_where_the_program_has_them(self):
        for path in glob.glob(example("refused", "*.refused")):
            with open(path) as file:
                number, offset = re.match(r"mcs: refused: F(\d) at (\d+)", file.read()).groups()
            if number == "5":
                continue
            with open(path.replace(".refused", ".mcs"), "rb") as file:
                before = file.read()[:int(offset)]
            place = f"{before.count(10) + 1}:{len(before) - before.rfind(10)}: "
            status, _, noted = self.ran("tools/draw", path.replace(".refused", ".mcs"))
            self.assertEqual(status, 2)
            self.assertIn(f".mcs:{place}", noted)

    @needs("dot")
    def test_graphviz_takes_each_graph(self):
        for path in glob.glob(os.path.join(EXAMPLES, "*.mcs")):
            graph = self.drawn(path, path.replace(".mcs", ".solve"))
            made = subprocess.run(["dot", "-Tsvg"], input=graph.encode(), capture_output=True)
            self.assertEqual((made.returncode, made.stderr), (0, b""), path)
