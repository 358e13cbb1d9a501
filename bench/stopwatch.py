"""Runs a program in a small process of its own, whose memory is little: python3 -IS stopwatch.py LIMIT OUT ERR PROGRAM WORD..

Prints the seconds on the clock, those of the processor, the most memory in kB, what of it may be this process's own,
and the status, which is `over` where the program was stopped at the limit.
"""
import os
import resource
import signal
import sys
import time


def own_memory():
    """The most memory in kB that this process has had since it was started, which the system counts as its child's too."""
    try:
        with open("/proc/self/status") as file:
            return next(int(line.split()[1]) for line in file if line.startswith("VmHWM:"))
    except (OSError, StopIteration):
        return resource.getrusage(resource.RUSAGE_SELF).ru_maxrss // (1024 if sys.platform == "darwin" else 1)


def main(limit, out, err, *words):
    write = os.O_WRONLY | os.O_CREAT | os.O_TRUNC
    files = [(os.POSIX_SPAWN_OPEN, 0, os.devnull, os.O_RDONLY, 0), (os.POSIX_SPAWN_OPEN, 1, out, write, 0o600),
             (os.POSIX_SPAWN_OPEN, 2, err, write, 0o600)]
    own = own_memory()
    began = time.perf_counter()
    child = os.posix_spawn(words[0], words, os.environ, file_actions=files)
    over = []
    signal.signal(signal.SIGALRM, lambda *_: (over.append(True), os.kill(child, signal.SIGKILL)))
    signal.setitimer(signal.ITIMER_REAL, float(limit))
    _, status, used = os.wait4(child, 0)
    wall = time.perf_counter() - began
    code = "over" if over else os.WEXITSTATUS(status) if os.WIFEXITED(status) else -os.WTERMSIG(status)
    unit = 1024 if sys.platform == "darwin" else 1
    print(wall, used.ru_utime + used.ru_stime, used.ru_maxrss // unit, own, code)


if __name__ == "__main__":
    main(*sys.argv[1:])
