"""How the tools of this folder read files, refuse what they can't take, and end."""
import contextlib
import os
import sys

import report_text
import system_text


class Refused(Exception):
    """A line that says what can't be done, and the status with which the tool ends."""

    def __init__(self, line, status=2):
        super().__init__(line)
        self.status = status


def name():
    """The name of the tool that runs, as its lines begin with it."""
    return os.path.basename(sys.argv[0])


def plain(words, least, most, usage):
    """The words, so many of them, none of which is an option."""
    if words[:1] == ["--"]:
        words = words[1:]
    elif any(word.startswith("-") and word != "-" for word in words):
        raise Refused(usage)
    if not least <= len(words) <= most:
        raise Refused(usage)
    return words


def bytes_of(path):
    """The bytes of a file; those of the standard input for `-`."""
    try:
        if path == "-":
            return sys.stdin.buffer.read() if sys.stdin else b""
        with open(path, "rb") as file:
            return file.read()
    except OSError as error:
        raise Refused(f"{name()}: {path} can't be read: {error.strerror}") from None


def system_of(path):
    """The system whose text is in a file."""
    data = bytes_of(path)
    try:
        return system_text.read(data)
    except system_text.Fault as fault:
        line, column = system_text.line_and_column(data, fault.offset)
        raise Refused(f"{path}:{line}:{column}: {fault.sentence}") from None


@contextlib.contextmanager
def refusing(path):
    """Refuses what is no listing, or not one of this text, by the file in which it stands."""
    try:
        yield
    except report_text.Fault as fault:
        shown = "standard input" if path == "-" else path
        raise Refused(f"{shown}:{fault.line}:1: {fault.sentence}", 1) from None


def run(told, work):
    """Prints what `work` makes of the words, or `told` where help is asked for, and answers the status."""
    words = sys.argv[1:]
    try:
        sys.stdout.write(told.strip() + "\n" if words and words[0] in ("-h", "--help") else work(words))
        sys.stdout.flush()
    except Refused as refused:
        print(refused, file=sys.stderr)
        return refused.status
    except BrokenPipeError:
        # Whoever reads has enough.
        os.dup2(os.open(os.devnull, os.O_WRONLY), 1)
        return 1
    return 0
