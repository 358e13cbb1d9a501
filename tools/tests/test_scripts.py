"""The launcher `mcs`, `build` and the gate: what they start, from any folder, and what they say where they can't."""
import os
import shutil
import subprocess
import sys

from ground import TOP, Ground, needs


@needs("bash")
class Scripts(Ground):
    def setUp(self):
        super().setUp()
        self.top = os.path.join(self.room, "a checkout")
        os.makedirs(os.path.join(self.top, "crates", "mcs"))
        for name in ("mcs", "build", ".ci"):
            source = os.path.join(TOP, name)
            (shutil.copytree if os.path.isdir(source) else shutil.copy)(source, os.path.join(self.top, name))

    def started(self, name, *words, kit=None):
        """What a script of the copied checkout did, with the text of an `rt`, or with none on the PATH."""
        tools = os.path.join(self.room, "bin")
        os.makedirs(tools, exist_ok=True)
        for tool in ("bash", "sh", "env", "dirname", "readlink", "realpath", "grep", "cat"):
            if shutil.which(tool) and not os.path.exists(os.path.join(tools, tool)):
                os.symlink(shutil.which(tool), os.path.join(tools, tool))
        if not os.path.exists(os.path.join(tools, "python3")):
            os.symlink(os.path.realpath(sys.executable), os.path.join(tools, "python3"))
        if kit is not None:
            self.script(os.path.join("bin", "rt"), "#!/bin/sh\n" + kit)
        return self.ran(os.path.join(self.top, name), *words, PATH=tools)

    def test_without_the_kit_one_line_says_what_to_do(self):
        for name in ("mcs", "build", ".ci/run"):
            status, told, noted = self.started(name)
            self.assertEqual((status, told), (127, ""), name)
            self.assertOneLine(noted)
            self.assertIn("on the PATH", noted)

    def test_without_the_program_the_examples_say_what_to_do(self):
        status, told, noted = self.started(".ci/examples")
        self.assertEqual((status, told), (1, ""))
        self.assertOneLine(noted)
        self.assertIn("./build", noted)

    def test_a_run_before_the_proof_names_files_in_full(self):
        kit = """shift 2; printf '<%s>' "$@"; echo; echo 'checked: x' >&2; echo 'races: x' >&2; echo 'mcs: noted' >&2; exit 4"""
        here = self.room + "/"
        for words, wanted in [
            (["solve", "a text.mcs"], ["solve", here + "a text.mcs"]),
            (["--budget", "5", "solve", "--proof", "t"], ["--budget", "5", "solve", "--proof", here + "t"]),
            (["--budget=5", "solve", "/t", "more"], ["--budget=5", "solve", "/t", "more"]),
            (["check", "--", "t", "-r"], ["check", "--", here + "t", here + "-r"]),
            (["make", "7"], ["make", "7"]),
            (["solve", "-"], ["solve", "-"]),
            (["solve", ""], ["solve", ""]),
        ]:
            status, told, noted = self.started("mcs", *words, kit=kit)
            self.assertEqual((status, told), (4, "".join(f"<{word}>" for word in wanted) + "\n"))
            told, more = noted.split("\n", 1)
            self.assertRegex(told, "^mcs: this run is not the proved program, .* a minute: ./build proves .* at once$")
            self.assertEqual(more, "mcs: noted\n")

    def proved(self):
        """Puts a program of these sources in the place of the proved one, which ends as the real one does."""
        for folder in ("src", "specs", "proofs"):
            os.makedirs(os.path.join(self.top, "crates", "mcs", folder))
        os.makedirs(os.path.join(self.top, "out"))
        for name in ("crates.txt", "HANDLES"):
            self.file(os.path.join(self.top, name), name)
        built = self.script(os.path.join(self.top, "out", "mcs"), """#!/bin/sh
while [ "${1#--}" != "$1" ] && [ "$1" != -- ]; do [ "$1" = --proof ] || [ "${1#--budget=}" -gt 0 ] 2> /dev/null || break; shift; done
case "$1:$#" in equilibria:2 | solve:2 | check:3 | make:2) ;; *) echo 'mcs: usage: x' >&2; exit 2 ;; esac
if [ "$1" != make ]; then
    for file in "$2" "${3:-$2}"; do [ -f "$file" ] || { echo 'mcs: read fault' >&2; exit 5; }; done
fi
echo "$$"
""")
        sources = subprocess.run([os.path.join(self.top, ".ci", "sources")], capture_output=True, check=True).stdout
        self.file(built + ".sources", sources)

    def test_a_line_says_where_the_jobs_are_told_or_which_file_it_was(self):
        self.proved()
        self.file("a text.mcs", "")
        os.mkdir(os.path.join(self.room, "folder"))
        page = (self.top + "/docs/mcs.1").replace(" ", "\\ ")
        told = f"mcs: the jobs and options are told by: man -l {page}"
        for words, status, line in [
            ([], 2, told), (["--help"], 2, told), (["solved", "a text.mcs"], 2, told), (["solve"], 2, told),
            (["--budget=0", "solve", "a text.mcs"], 2, told), (["solve", "a text.mcs", "more"], 2, told),
            (["solve", "nothing"], 5, "mcs: there is no file nothing"), (["solve", "folder"], 5, "mcs: folder is a folder"),
            (["check", "a text.mcs", "a report"], 5, "mcs: there is no file a report"),
            (["check", "a text", "a report"], 5, "mcs: there is no file a text"),
        ]:
            first = "mcs: usage: x" if status == 2 else "mcs: read fault"
            self.assertEqual(self.ran(os.path.join(self.top, "mcs"), *words), (status, "", f"{first}\n{line}\n"), words)
        kit = "echo 'mcs: read fault' >&2; exit 5"
        os.remove(os.path.join(self.top, "out", "mcs"))
        self.assertEqual(self.started("mcs", "solve", "nothing", kit=kit)[2].split("\n")[1:],
                         ["mcs: read fault", "mcs: there is no file nothing", ""])

    def test_the_gate_ends_with_the_status_of_the_kit(self):
        status, told, _ = self.started(".ci/run", kit='echo "rt $*"; exit 9')
        self.assertEqual((status, told), (9, "rt ci\n"))
