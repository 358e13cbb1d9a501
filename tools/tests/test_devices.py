"""The built program over devices that break: it ends with the status of what broke, its line, and a prefix."""
import os
import resource
import shutil
import stat
import subprocess
import threading
import time

from ground import PROGRAM, TOP, Ground, example, needs_program

NOBODY = 65534
READ, WRITE, MEMORY = "mcs: read fault\n", "mcs: write fault\n", "mcs: out of memory\n"
NOTHING = """mcs 1: 0 contexts, 0 rules, 0 variables
equilibrium 1: {} applicable {}
consistent
diagnosis 1: {} state {} active {}
end: 1 equilibria, 1 diagnoses, 0 explanations, need 0
"""


@needs_program
class Devices(Ground):
    def ended(self, *words, **ways):
        """How a run ends: the status, what was printed, and what was noted."""
        ways = {"stdin": subprocess.DEVNULL, "stdout": subprocess.PIPE, "stderr": subprocess.PIPE, **ways}
        run = subprocess.run([PROGRAM, *words], cwd=self.room, timeout=60, **ways)
        return run.returncode, (run.stdout or b"").decode(), (run.stderr or b"").decode()

    def listing(self, name="access"):
        with open(example(name + ".solve")) as file:
            return file.read()

    def test_output_that_is_full(self):
        with open("/dev/full", "wb") as full:
            for words in (["solve", example("access.mcs")], ["equilibria", example("birds.mcs")], ["make", "0"],
                          ["check", example("access.mcs"), example("access.solve")]):
                self.assertEqual(self.ended(*words, stdout=full), (6, "", WRITE), words)
            self.assertEqual(self.ended("solve", example("access.mcs"), stderr=full), (0, self.listing(), ""))
            self.assertEqual(self.ended("solve", stderr=full), (2, "", ""))
            self.assertEqual(self.ended("solve", example("access.mcs"), stdout=full, stderr=full), (6, "", ""))

    def test_output_that_is_closed(self):
        shell = lambda line: subprocess.run(["/bin/sh", "-c", line, PROGRAM, example("access.mcs")], capture_output=True,
                                            cwd=self.room, timeout=60)
        run = shell('"$0" solve "$1" >&-')
        self.assertEqual((run.returncode, run.stdout, run.stderr.decode()), (6, b"", WRITE))
        run = shell('"$0" solve "$1" 2>&-')
        self.assertEqual((run.returncode, run.stdout.decode(), run.stderr), (0, self.listing(), b""))
        run = shell('"$0" solve "$1" >&- 2>&-')
        self.assertEqual((run.returncode, run.stdout, run.stderr), (6, b"", b""))
        run = shell('"$0" solve "$1" <&-')
        self.assertEqual((run.returncode, run.stdout.decode(), run.stderr), (0, self.listing(), b""))

    def test_output_that_can_only_be_read(self):
        with open(os.devnull, "rb") as device:
            self.assertEqual(self.ended("solve", example("access.mcs"), stdout=device), (6, "", WRITE))

    def test_a_pipe_whose_reader_is_gone(self):
        reader, writer = os.pipe()
        os.close(reader)
        with os.fdopen(writer, "wb") as pipe:
            self.assertEqual(self.ended("solve", example("access.mcs"), stdout=pipe), (6, "", WRITE))

    def test_a_pipe_whose_reader_goes(self):
        text = self.file("a text.mcs", "context c classical {}\n" + "".join(f"bridge r{i}: c:a{i} if c:a{i}.\n" for i in range(12)))
        whole = self.ended("solve", text)[1]
        self.assertGreater(len(whole), 1 << 18)
        for taken in (1, 4096, 70000):
            run = subprocess.Popen([PROGRAM, "solve", text], stdout=subprocess.PIPE, stderr=subprocess.PIPE)
            front = run.stdout.read(taken)
            run.stdout.close()
            noted = run.stderr.read()
            run.stderr.close()
            self.assertEqual((run.wait(60), front.decode(), noted.decode()), (6, whole[:taken], WRITE))

    def test_files_that_can_not_be_read(self):
        text = example("access.mcs")
        loop = os.path.join(self.room, "loop")
        os.symlink(loop, loop)
        for path in (self.room, "nothing", loop, text + "/", "x" * 5000, "/proc/self/mem"):
            self.assertEqual(self.ended("solve", path), (5, "", READ), path[:40])
            self.assertEqual(self.ended("check", text, path), (5, "", READ), path[:40])

    def test_a_file_that_may_not_be_read(self):
        if os.geteuid() != 0:
            program, other = PROGRAM, {}
        else:
            # Who may do all reads all files: so the program is run as nobody.
            os.chmod(self.room, 0o755)
            program, other = shutil.copy(PROGRAM, self.room), {"user": NOBODY, "group": NOBODY, "extra_groups": []}
        text = self.file("a text.mcs", "")
        for mode, ended in ((0, (5, b"", READ)), (stat.S_IRUSR | stat.S_IROTH, (0, NOTHING.encode(), ""))):
            os.chmod(text, mode)
            run = subprocess.run([program, "solve", text], capture_output=True, timeout=60, **other)
            self.assertEqual((run.returncode, run.stdout, run.stderr.decode()), ended)

    def test_a_pipe_as_a_file(self):
        pipe = os.path.join(self.room, "pipe")
        os.mkfifo(pipe)
        with open(example("access.mcs"), "rb") as file:
            text = file.read()

        def give(pieces):
            with open(pipe, "wb", buffering=0) as file:
                for piece in pieces:
                    file.write(piece)
                    time.sleep(0.001)

        for pieces in ([text], [text[at:at + 7] for at in range(0, len(text), 7)]):
            giver = threading.Thread(target=give, args=(pieces,))
            giver.start()
            self.assertEqual(self.ended("solve", pipe), (0, self.listing(), ""))
            giver.join()
        run = subprocess.run([PROGRAM, "solve", "/dev/stdin"], input=text, capture_output=True, timeout=60)
        self.assertEqual((run.returncode, run.stdout.decode(), run.stderr), (0, self.listing(), b""))

    def test_files_without_an_end(self):
        self.assertEqual(self.ended("solve", "/dev/zero"), (3, "", "mcs: refused: file longer than 1048576\n"))

    def test_a_file_that_grows_while_it_is_read(self):
        ends = {(0, NOTHING, ""), (3, "", "mcs: refused: file longer than 1048576\n")}
        for start in (0, 900_000, 1_048_000):
            text = self.file("a text.mcs", b"#" * (start + 1))
            stop = threading.Event()

            def grow():
                with open(text, "ab", buffering=0) as file:
                    while not stop.is_set() and file.tell() < 4 << 20:
                        file.write(b"#" * 4096)

            grower = threading.Thread(target=grow)
            grower.start()
            try:
                for _ in range(5):
                    self.assertIn(self.ended("solve", text), ends)
            finally:
                stop.set()
                grower.join()

    def test_little_memory(self):
        """From 8 MB on in steps: a run is whole, or it ends for want of memory with a prefix of it."""
        formulas = "".join("~" * 250 + f"a{i % 60}.\n" for i in range(1000))
        text = self.file("a text.mcs", "context c classical {\n" + formulas + "}\ncontext d classical {}\nbridge r: d:x if c:q.\n")
        report = self.file("a report", b"\n" * (6 << 20) + b"end: \nproof\nend of proof\n")
        few = 0
        for words in (["equilibria", text], ["solve", "--proof", text], ["check", text, report]):
            whole = self.ended(*words)
            self.assertIn(whole[0], (0, 1))
            for megabytes in range(8, 64, 6):
                most = megabytes << 20
                ended = self.ended(*words, preexec_fn=lambda: resource.setrlimit(resource.RLIMIT_AS, (most, most)))
                if ended != whole:
                    few += 1
                    self.assertEqual((ended[0], ended[2]), (7, MEMORY), (words[0], megabytes))
                    self.assertTrue(whole[1].startswith(ended[1]), (words[0], megabytes))
        self.assertGreater(few, 5)
