"""tools/where: the place of a fault."""
import glob
import os
import re
import subprocess

from ground import PROGRAM, TOP, Ground, example, needs_program


class Where(Ground):
    def noted(self, content, note, status=3, name="a text.mcs"):
        """What is told of a text of which a program in the place of `mcs` notes this line."""
        text = self.file(name, content)
        program = self.script("mcs", f"#!/bin/sh\necho '{note}' >&2\nexit {status}\n")
        return (text, *self.ran("tools/where", text, MCS=program))

    def told(self, content, note):
        text, status, told, noted = self.noted(content, note)
        self.assertEqual((status, noted), (3, ""))
        place, line, caret = told.split("\n")[:3]
        self.assertTrue(place.startswith(text + ":"))
        return place[len(text) + 1:], line, caret

    def test_the_place_the_line_and_the_caret(self):
        with open(example("refused", "unknown_context.mcs"), "rb") as file:
            content = file.read()
        self.assertEqual(self.told(content, "mcs: refused: F2 at 51"),
                         ("2:14: F2: no context has this name",
                          "bridge link: merged:linked if clinic:patient.", " " * 13 + "^"))

    def test_tabs_stay_before_the_caret(self):
        self.assertEqual(self.told("context c classical {\n\t\tp q. }", "mcs: refused: F1 at 26"),
                         ("2:5: F1: `q` can't stand here: `.` or a sign that goes on is wanted", "\t\tp q. }", "\t\t  ^"))

    def test_line_ends_of_two_bytes(self):
        self.assertEqual(self.told("context c classical {\r\np q. }\r\n", "mcs: refused: F1 at 25")[1:], ("p q. }", "  ^"))

    def test_letters_of_several_bytes(self):
        content = "# \u00fc\u00e9 \u6f22\ncontext c classical { p } # \u00fc\u6f22"
        offset = content.encode().index(b"}")
        self.assertEqual(self.told(content, f"mcs: refused: F1 at {offset}")[0],
                         "2:25: F1: `}` can't stand here: `.` or a sign that goes on is wanted")
        content = "context c classical { # \u6f22\u00fc"
        place, line, caret = self.told(content, f"mcs: refused: F1 at {len(content.encode())}")
        self.assertEqual((place[:5], line, caret), ("1:27:", content, " " * 27 + "^"))

    def test_the_end_of_the_text(self):
        for content, line in [("context c", 1), ("context c\n", 1), ("\ncontext c\r\n", 2)]:
            place, shown, caret = self.told(content, f"mcs: refused: F1 at {len(content)}")
            self.assertEqual(place, f"{line}:10: F1: the end of the text can't stand here: "
                                    "`classical`, `default` or `program` is wanted")
            self.assertEqual((shown, caret), ("context c", " " * 9 + "^"))
        self.assertEqual(self.told("", "mcs: refused: F1 at 0")[0][:4], "1:1:")

    def test_stray_bytes_are_shown(self):
        self.assertEqual(self.told(b"context \x1b c", "mcs: refused: F1 at 8")[1:], ("context \ufffd c", " " * 8 + "^"))
        self.assertEqual(self.told(b"\xef\xbb\xbfcontext c", "mcs: refused: F1 at 0")[0],
                         "1:1: F1: the byte 239, with which no token begins, can't stand here: "
                         "`context` or `bridge` is wanted")

    def test_what_may_stand_there_is_told_whole(self):
        for text, word, sentence in [
            ("context c program { ill(x). }", "(", "`(` can't stand here: `|`, `:-` or `.` is wanted"),
            ("context c program { a; b. }", ";", "`;`, with which no token begins, can't stand here: `|`, `:-` or `.` is wanted"),
            ("context c program { a :- b | c. }", "|", "`|` can't stand here: `,` or `.` is wanted"),
            ("context c program { a :- ~b. }", "~", "`~` can't stand here: a name, `not` or `.` is wanted"),
            ("context c program { a :- b, ~c. }", "~", "`~` can't stand here: a name or `not` is wanted"),
            ("context c program { a :- not ~c. }", "~", "`~` can't stand here: a name is wanted"),
            ("% a rule", "%", "`%`, with which no token begins, can't stand here: `context` or `bridge` is wanted; "
                              "a comment begins with `#`"),
            ("bridge r: d:p. context c classical {}", "context", "`context` can't stand here: contexts come before the bridge rules"),
        ]:
            text = "context d classical {}\n" + text
            place, _, _ = self.told(text, f"mcs: refused: F1 at {23 + text[23:].index(word)}")
            self.assertEqual(place.split(": ", 1)[1], "F1: " + sentence)
        for text, offset, sentence in [
            ("version 3.", 8, "`3` can't stand here: `2` is wanted"),
            ("version 2. context c program {} bridge r weight 0: c:a.", 48,
             "`0` can't stand here: a number from 1 on, without a `0` before it, is wanted"),
            ("version 2. context c program {} bridge r closed keep: c:a.", 48,
             "`keep` can't stand here: `weight` or `:` is wanted"),
            ("context c program {} bridge r keep: c:a.", 30,
             "only a text that begins with `version 2.` says `keep` of a rule: `:` is wanted"),
            ("context c program {} version 2.", 21, "`version` can't stand here: it comes before everything else"),
            ("context c program { weight. }", 20, "`weight` is reserved: a rule or `}` is wanted"),
            ("context c program { 7. }", 20, "`7` can't stand here: a rule or `}` is wanted"),
        ]:
            place, _, _ = self.told(text, f"mcs: refused: F1 at {offset}")
            self.assertEqual(place, f"1:{offset + 1}: F1: {sentence}")
        text = "bridge r: c:p.\ncontext c classical {}\n"
        self.assertEqual(self.told(text, "mcs: refused: F2 at 10")[0],
                         "1:11: F2: the context of this name comes too late: contexts come before the bridge rules")

    def test_the_standard_input_is_read_as_any_file(self):
        program = self.script("mcs", """#!/bin/sh
if grep -q 'd:' "$3"; then echo 'mcs: refused: F2 at 33' >&2; exit 3; fi
""")
        text = self.file("a text.mcs", "context c classical {}\nbridge r: d:p.\n")
        with open(text, "rb") as file:
            whole = file.read()
        told = b"/dev/stdin:2:11: F2: no context has this name\nbridge r: d:p.\n          ^\n"
        with open(text, "rb") as file:
            for given in (dict(stdin=file), dict(input=whole)):
                run = subprocess.run([os.path.join(TOP, "tools", "where"), "/dev/stdin"], capture_output=True,
                                     env={**os.environ, "MCS": program}, **given)
                self.assertEqual((run.returncode, run.stdout, run.stderr), (3, told, b""))
        program = self.script("mcs", "#!/bin/sh\n[ -e \"$3\" ] || { echo 'mcs: read fault' >&2; exit 5; }\n")
        run = subprocess.run(["sh", "-c", 'exec "$0" /dev/stdin <&-', os.path.join(TOP, "tools", "where")],
                             capture_output=True, env={**os.environ, "MCS": program})
        self.assertEqual((run.returncode, run.stdout, run.stderr), (5, b"", b"mcs: read fault\n"))

    def test_each_limit_of_the_language_has_a_sentence(self):
        with open(os.path.join(TOP, "docs", "LANGUAGE.md")) as file:
            limits = re.findall(r"^\| `(\w+)` \| (\d+) \|", file.read(), re.MULTILINE)
        self.assertGreater(len(limits), 5)
        for name, number in limits:
            place, _, _ = self.told("context c default { a. }", f"mcs: refused: F5 at 20: {name} {number}")
            self.assertRegex(place, rf"^1:21: F5: .*\b{number}\b")
            self.assertNotIn("above a limit", place)

    def test_other_endings_are_those_of_mcs(self):
        for note, status in [("mcs: read fault", 5), ("mcs: unfinished at level 0, budget 1", 4), ("mcs: out of memory", 7)]:
            _, got, told, noted = self.noted("", note, status)
            self.assertEqual((got, told, noted), (status, "", note + "\n"))
        text, got, told, _ = self.noted("", "mcs: refused: file longer than 1048576")
        self.assertEqual((got, told), (3, f"{text}:1:1: the file has more than 1048576 bytes, and longer ones are not taken\n"))

    def scripted(self, script, note, status=3):
        """What is told of a script, where a program in the place of `mcs` notes this line."""
        text, script = self.file("a text.mcs", "context c classical {}\n"), self.file("an edit", script)
        program = self.script("mcs", f"#!/bin/sh\n[ \"$1\" = session ] || exit 9\necho '{note}' >&2\nexit {status}\n")
        return (text, script, *self.ran("tools/where", text, script, MCS=program))

    def test_the_place_in_a_script(self):
        for note, sentence in [
            ("F6 at 6", "F6: no bridge rule has the name that this edit drops"),
            ("F5 at 6: rules_per_context 12", "F5: with this edit a limit is exceeded: rules_per_context, which is 12"),
            ("F1 at 6", "F1: no script goes on so: something before this is missing, or this is out of place"),
            ("F2 at 6", "F2: no context has this name"),
        ]:
            _, script, status, told, noted = self.scripted("list.\ndrop r9.\n", f"mcs: refused: script {note}")
            self.assertEqual((status, told, noted), (3, f"{script}:2:1: {sentence}\ndrop r9.\n^\n", ""))
        text, _, status, told, _ = self.scripted("", "mcs: refused: F2 at 8")
        self.assertEqual((status, told.split("\n")[0]), (3, f"{text}:1:9: F2: no context has this name"))
        _, script, status, told, _ = self.scripted("", "mcs: refused: script longer than 1048576")
        self.assertEqual((status, told), (3, f"{script}:1:1: the script has more than 1048576 bytes, and longer ones are not taken\n"))

    def test_a_script_that_is_taken(self):
        self.assertEqual(self.scripted("list.", "mcs: unfinished at level 0, budget 1", 4)[2:], (0, "", ""))
        self.assertEqual(self.scripted("list.", "mcs: read fault", 5)[2:], (5, "", "mcs: read fault\n"))

    def test_words(self):
        for words in ([], ["a", "b", "c"], ["--all", "a"]):
            status, told, noted = self.ran("tools/where", *words)
            self.assertEqual((status, told, noted), (2, "", "usage: where FILE [SCRIPT]\n"))
        status, told, noted = self.ran("tools/where", "a", MCS=os.path.join(self.room, "nothing"))
        self.assertEqual((status, told), (127, ""))
        self.assertOneLine(noted)

    @needs_program
    def test_with_the_program(self):
        for path in glob.glob(example("refused", "*.mcs")):
            with open(path, "rb") as file:
                content = file.read()
            with open(path.replace(".mcs", ".refused")) as file:
                number, offset = re.match(r"mcs: refused: F(\d) at (\d+)", file.read()).groups()
            before = content[:int(offset)]
            status, told, noted = self.ran("tools/where", path, MCS=PROGRAM)
            self.assertEqual((status, noted), (3, ""))
            place = f"{path}:{before.count(10) + 1}:{len(before) - before.rfind(10)}: F{number}: "
            self.assertTrue(told.startswith(place), told)
        text = self.file("a text.mcs", "context c classical {}")
        self.assertEqual(self.ran("tools/where", text, MCS=PROGRAM), (0, "", ""))
        status, told, noted = self.ran("tools/where", self.room + "/nothing.mcs", MCS=PROGRAM)
        self.assertEqual((status, told, noted), (5, "", "mcs: read fault\n"))
        script = self.file("an edit", "list.\nadd bridge r: c:p.\nlist.\ndrop s.\n")
        status, told, noted = self.ran("tools/where", text, script, MCS=PROGRAM)
        self.assertEqual((status, noted), (3, ""))
        self.assertEqual(told, f"{script}:4:1: F6: no bridge rule has the name that this edit drops\ndrop s.\n^\n")
