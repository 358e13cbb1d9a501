"""`build`: what it has proved, what it tells meanwhile, what it leaves, and how it is stopped. In the place of the kit
stands a script that keeps what it is given."""
import os
import re
import shutil
import signal
import subprocess
import unittest

from ground import TOP, Ground

CRATES = """\
# NAME: the libraries that it stands on
low:
sums: low itoa
tests tests_may=Threads: sums low
beside: low
top: sums, low
mcs: top low # the program
"""
# What stands in the folder of each crate.
PARTS = ("src/lib.rt", "src/out/more.rt", "specs/Lib.antt", "proofs/f/Answers.antt", "must-fail/wrong.edit", "out/old")
# What `rt ci` says where all is proved, but for the first crate, which was proved before.
SAYS = """
echo 'rt: low is kept: an earlier run on this machine proved the same files over the same libraries'
printf '== sums\\nfn sums::of: proved\\nlogic=proved functions=12 sum=1 native=nat\\nrt: sums proved\\n'
printf '== top\\nlogic=proved functions=5 sum=1 native=nat\\nrt: top proved\\n'
printf '== mcs\\nrt: note: it is so\\nlogic=proved functions=1 axioms=3 sum=1\\nrt: mcs proved\\n'
echo 'rt: mcs ran, and wrote what its file stdout has'
echo 'rt: ok; handles allowed: none; the rest'
echo '4 passed, 0 failed'
"""
# Where `rt ci` leaves the program.
MAKES = """
mkdir -p crates/mcs/out
printf '#!/bin/sh\\necho "proved $*"\\n' > crates/mcs/out/mcs
chmod +x crates/mcs/out/mcs
"""


@unittest.skipUnless(shutil.which("bash") and shutil.which("sha256sum"), "bash or sha256sum is not installed")
class Build(Ground):
    def setUp(self):
        super().setUp()
        self.top = os.path.join(self.room, "a checkout")
        files = {"crates.txt": CRATES, "HANDLES": "Handles allowed: none.\n", "crates/mcs/src/main.rt": "\n" * 300,
                 "crates/mcs/args": "--help\n"}
        for name in ("low", "sums", "tests", "beside", "top"):
            files.update({f"crates/{name}/{part}": "\n" * 100 for part in PARTS})
        for path, content in files.items():
            os.makedirs(os.path.dirname(self.inside(path)), exist_ok=True)
            self.file(self.inside(path), content)
        for name in ("mcs", "build", os.path.join(".ci", "sources")):
            os.makedirs(os.path.dirname(self.inside(name)), exist_ok=True)
            shutil.copy(os.path.join(TOP, name), self.inside(name))
        for name in ("bin", "temporary files"):
            os.mkdir(os.path.join(self.room, name))

    def inside(self, *names):
        return os.path.join(self.top, *names)

    def made(self, *names):
        """The path of a file there, whose folder is made."""
        path = self.inside(*names)
        os.makedirs(os.path.dirname(path), exist_ok=True)
        return path

    def read(self, *names):
        with open(self.inside(*names)) as file:
            return file.read()

    def around(self, kit):
        """The variables of a run of `build` with this text of an `rt`."""
        self.script(os.path.join("bin", "rt"), '#!/bin/sh\n[ "$1" = ci ] || exit 9\nroom="$OUTSIDE"\necho "$*" >> "$room/calls"\n' + kit)
        return {"PATH": os.path.join(self.room, "bin") + os.pathsep + os.environ["PATH"], "OUTSIDE": self.room,
                "TMPDIR": os.path.join(self.room, "temporary files")}

    def built(self, kit):
        """What `build` did with it, with no minute passed."""
        status, told, noted = self.ran(self.inside("build"), **self.around(kit))
        return status, told, re.sub(r"\b\d+:\d\d minutes", "0:00 minutes", noted)

    def assertNothingIsLeft(self):
        self.assertEqual(os.listdir(os.path.join(self.room, "temporary files")), [])

    def test_what_the_program_stands_on_is_proved_and_no_more(self):
        status, told, noted = self.built('cat crates.txt > "$room/list"; find . | sort > "$room/files"' + SAYS + MAKES)
        self.assertEqual((status, told), (0, ""), noted)
        with open(os.path.join(self.room, "list")) as file:
            self.assertEqual(file.read(), "low:\nsums: low itoa\ntop: sums, low\nmcs: top low # the program\n")
        with open(os.path.join(self.room, "files")) as file:
            files = file.read().split("\n")
        for path in ("./.git", "./HANDLES", "./crates/mcs/args", "./crates/mcs/src/main.rt", "./crates/low/src/lib.rt",
                     "./crates/low/src/out/more.rt", "./crates/top/specs/Lib.antt", "./crates/sums/proofs/f"):
            self.assertIn(path, files)
        for path in ("./crates/tests", "./crates/beside", "./crates/low/out", "./crates/low/must-fail"):
            self.assertNotIn(path, files)

    def test_large_crates_have_runs_beside_the_whole_one(self):
        for name in ("mcs_system", "mcs_sat"):
            self.file(self.made("crates", name, "src", "lib.rt"), "\n")
        self.file(self.inside("crates.txt"), "low:\nmcs_system: low\nmcs_sat: low\nmcs: mcs_sat mcs_system\n")
        # The whole run waits for the two beside it, and each of these says how it went only after it has said all else.
        kit = """
case "$2" in
"") while [ ! -f "$room/mcs_system" ] || [ ! -f "$room/mcs_sat" ]; do sleep 0.1; done
    for name in low mcs_system mcs_sat; do
        echo "rt: $name: another run on this machine is proving the same; waiting for it"
        echo "rt: $name is kept: an earlier run on this machine proved the same"
    done
    printf '== mcs\\nrt: mcs proved\\n';;
*)  [ $2 = mcs_sat ] || echo "rt: low: another run on this machine is proving the same; waiting for it"
    printf "== low\\n== $2\\nfn $2::of: proved\\nrt: $2 proved\\n"
    echo "rt: $2 and the crates below passed"
    touch "$room/$2"; exit;;
esac
"""
        status, _, noted = self.built(kit + MAKES)
        self.assertEqual(status, 0, noted)
        with open(os.path.join(self.room, "calls")) as file:
            self.assertEqual(sorted(file.read().splitlines()), ["ci", "ci mcs_sat", "ci mcs_system"])
        told = re.findall(r"build: \d of 4 crates, .*: (\w+) (?:is|was) proved", noted)
        self.assertEqual(sorted(told[:2]) + told[2:], ["mcs_sat", "mcs_system", "low", "mcs"])
        self.assertNotIn("waiting", noted)
        self.assertNothingIsLeft()

    def test_waiting_for_the_run_of_somebody_else_is_told(self):
        wait = "echo 'rt: low: another run on this machine is proving the same; waiting for it'"
        status, _, noted = self.built(wait + SAYS + MAKES)
        self.assertEqual(status, 0, noted)
        self.assertIn("build: low: another run on this machine is proving the same; waiting for it\n", noted)

    def test_a_line_tells_of_each_crate(self):
        status, _, noted = self.built(SAYS + MAKES)
        first, *lines, last = noted.splitlines()
        self.assertEqual(status, 0)
        self.assertRegex(first, "^build: 4 crates to prove$")
        self.assertEqual(lines, [
            "build: 1 of 4 crates, 23 % of the work, 0:00 minutes: low was proved by an earlier run",
            "build: 2 of 4 crates, 46 % of the work, 0:00 minutes: sums is proved, 12 functions",
            "build: 3 of 4 crates, 69 % of the work, 0:00 minutes: top is proved, 5 functions",
            "build: 4 of 4 crates, 100 % of the work, 0:00 minutes: mcs is proved, 1 functions"])
        self.assertIn("./mcs starts the proved program from now on", last)
        self.assertNothingIsLeft()

    def test_the_launcher_starts_what_was_built(self):
        self.assertEqual(self.built(SAYS + MAKES)[0], 0)
        self.assertEqual(self.ran(self.inside("mcs"), "solve", "x"), (0, "proved solve x\n", ""))
        self.assertEqual(self.read("crates", "mcs", "out", "mcs"), self.read("out", "mcs"))
        self.file(self.inside("crates", "low", "src", "lib.rt"), "changed\n")
        kit = 'echo "$*"'
        self.script(os.path.join("bin", "rt"), "#!/bin/sh\n" + kit)
        status, told, noted = self.ran(self.inside("mcs"), "make", "3", PATH=self.around(kit)["PATH"])
        self.assertNotEqual(told, "proved make 3\n")
        self.assertIn("not the proved program", noted)

    def test_what_is_not_proved_is_shown_and_nothing_is_built(self):
        status, told, noted = self.built("""
printf '== low\\nfn low::f: proved\\nsrc/lib.rt:3:1: error: no\\nfn low::g: not proved\\nrt: low NOT PROVED\\n'
echo 'rt: sums NOT PROVED: its library low failed'
echo 'rt: FAILED: low sums'
echo '0 passed, 2 failed'
exit 1""")
        self.assertEqual((status, told), (1, ""))
        self.assertEqual(noted.splitlines()[1:], [
            "src/lib.rt:3:1: error: no", "fn low::g: not proved",
            "build: 1 of 4 crates, 23 % of the work, 0:00 minutes: low IS NOT PROVED",
            "build: 2 of 4 crates, 46 % of the work, 0:00 minutes: sums IS NOT PROVED: its library low failed",
            "rt: FAILED: low sums", "0 passed, 2 failed", "build: nothing is built"])
        self.assertFalse(os.path.exists(self.inside("out")))
        self.assertNothingIsLeft()

    def test_tests_that_are_not_proved_are_shown(self):
        status, _, noted = self.built("""
printf '== low: its tests\\nfn low::t: not proved\\nrt: low: its tests are NOT PROVED\\n'
printf '== low\\nfn low::f: proved\\nrt: low proved\\n'
exit 1""")
        self.assertEqual(status, 1)
        self.assertEqual(noted.splitlines()[2:],
                         ["fn low::t: not proved", "rt: low: its tests are NOT PROVED", "build: nothing is built"])

    def test_a_program_that_was_built_before_stays_where_nothing_is_built(self):
        self.assertEqual(self.built(SAYS + MAKES)[0], 0)
        self.assertEqual(self.built("echo 'rt: HANDLES is one line' >&2; exit 2")[0], 2)
        self.assertEqual(self.ran(self.inside("mcs"), "x"), (0, "proved x\n", ""))

    def test_sources_that_change_meanwhile_are_not_passed_off_as_proved(self):
        change = 'echo "// more" >> "$room/a checkout/crates/low/src/lib.rt"\n'
        status, told, noted = self.built(SAYS + MAKES + change)
        self.assertEqual((status, told), (1, ""))
        self.assertEqual(noted.splitlines()[-1], "build: the sources changed meanwhile: build again")
        self.assertFalse(os.path.exists(self.inside("out", "mcs.sources")))

    def test_a_run_that_is_stopped_ends_the_kit_and_can_be_started_again(self):
        proves = 'echo $$ > "$room/process"\n' + "echo 'rt: low is kept: before'\nexec sleep 60"
        stops = (signal.SIGINT, signal.SIGTERM, signal.SIGHUP)

        def hear():
            """Lets the run be stopped, also where what runs these tests may not be."""
            for stop in stops:
                signal.signal(stop, signal.SIG_DFL)

        for number in stops:
            run = subprocess.Popen([self.inside("build")], env={**os.environ, **self.around(proves)}, text=True,
                                   stdin=subprocess.DEVNULL, stdout=subprocess.DEVNULL, stderr=subprocess.PIPE,
                                   preexec_fn=hear)
            self.addCleanup(run.kill)
            lines = [run.stderr.readline(), run.stderr.readline()]
            run.send_signal(number)
            lines += run.stderr.readlines()
            run.stderr.close()
            self.assertEqual(run.wait(), 130)
            self.assertRegex(lines[1], "^build: 1 of 4 crates.*: low was proved by an earlier run\n$")
            self.assertRegex(lines[-1], "^build: stopped$")
            with open(os.path.join(self.room, "process")) as file:
                self.assertFalse(os.path.exists(f"/proc/{file.read().strip()}"))
            self.assertNothingIsLeft()
        self.assertEqual(self.built(SAYS + MAKES)[0], 0)
