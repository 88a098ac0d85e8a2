"""Times of several passes that take turns, so that other work on the machine meets all of them alike."""
import os
import resource
import statistics
import subprocess
import time

TURNS = 25


def spent(work):
    """The seconds that a call of `work` takes."""
    start = time.perf_counter()
    work()
    return time.perf_counter() - start


def spent_by_sha1sum(path):
    return spent(lambda: subprocess.run(["sha1sum", path], check=True, stdout=subprocess.DEVNULL))


def words_of(program, path):
    """What the program prints for the file, word by word."""
    return subprocess.run([program, path], check=True, capture_output=True, text=True).stdout.split()


class Cost:
    """What a run of a command took: seconds, seconds of the processors, the peak of its memory in bytes, its status."""

    def __init__(self, seconds, usage, status):
        self.seconds, self.status = seconds, status
        self.busy = usage.ru_utime + usage.ru_stime
        self.peak = usage.ru_maxrss * 1024


def cost_of(words):
    """Runs a command and throws its output away."""
    silent = [(os.POSIX_SPAWN_OPEN, where, os.devnull, os.O_WRONLY, 0) for where in (1, 2)]
    start = time.perf_counter()
    pid = os.posix_spawnp(words[0], words, os.environ, file_actions=silent)
    _, status, usage = os.wait4(pid, 0)
    return Cost(time.perf_counter() - start, usage, os.waitstatus_to_exitcode(status))


def own_peak():
    """A child begins in the memory of this process, so that a lower peak of its own is not seen."""
    return resource.getrusage(resource.RUSAGE_SELF).ru_maxrss * 1024


class Turns:
    """What each pass took by its name, turn by turn; `turn` gives that of one turn."""

    def __init__(self, turn, count=TURNS):
        self.turns = [turn() for _ in range(count)]

    def names(self):
        return list(self.turns[0])

    def middle(self, value):
        """The median over the turns of a value of each."""
        return statistics.median(value(turn) for turn in self.turns)
