"""tools/refuse: it counts how often the program asks for memory, and tells runs that end otherwise than they may."""
from ground import PROGRAM, Ground, needs_program, needs


@needs("cc")
class Refuse(Ground):
    def test_words(self):
        self.assertEqual(self.ran("tools/refuse", "--help")[0], 0)
        self.assertEqual(self.ran("tools/refuse", "--often")[0], 2)
        for job in ("no such job", "cycle"):
            status, _, noted = self.ran("tools/refuse", "--program", "nothing", job)
            self.assertEqual(status, 2)
            self.assertOneLine(noted)

    def test_a_run_that_ends_otherwise_is_told(self):
        # A shell has endings of its own.
        shell = self.script("mcs", "#!/bin/sh\necho mcs 1\n")
        status, told, _ = self.ran("tools/refuse", "--program", shell, "--every", "5", "cycle")
        self.assertEqual(status, 1)
        self.assertRegex(told, r"(?m)^  refused .* at [0-9]+: status ")

    @needs_program
    def test_the_program_ends_as_it_may(self):
        status, told, noted = self.ran("tools/refuse", "--program", PROGRAM, "--every", "211")
        self.assertEqual((status, noted), (0, ""), told)
        self.assertEqual(told.count("\n"), 15)
