"""Programs that are built, run, timed and counted."""
import os
import re
import shutil
import subprocess
import sys

HERE = os.path.dirname(os.path.abspath(__file__))
VALGRIND = shutil.which("valgrind")


def built(folder, name, source, *options):
    """A program in plain Rust."""
    path = os.path.join(folder, name)
    command = ["rustc", "-O", *options, "--edition", "2021", "-o", path, os.path.join(HERE, source)]
    subprocess.run(command, check=True)
    return path


def run(command, **variables):
    """The lines that a command prints, the seconds of the processor that it took, and its greatest memory in kilobytes.

    It runs with these variables of the environment, and those of this process. These programs have one thread and read a file that is in memory, so on an idle machine the wall says the same.
    """
    process = subprocess.Popen(command, stdout=subprocess.PIPE, env=os.environ | variables)
    lines = process.stdout.read().decode().splitlines()
    _, status, usage = os.wait4(process.pid, 0)
    process.stdout.close()
    if os.waitstatus_to_exitcode(status) not in (0, 1):
        sys.exit(f"{' '.join(command)} failed")
    return lines, usage.ru_utime + usage.ru_stime, usage.ru_maxrss


def instructions(command):
    """How many instructions a process takes, in millions; None where valgrind isn't there to count them."""
    if VALGRIND is None:
        return None
    count = [VALGRIND, "--tool=callgrind", "--callgrind-out-file=/dev/null", *command]
    told = subprocess.run(count, capture_output=True, text=True).stderr
    return int(re.search(r"Collected : (\d+)", told).group(1)) / 1e6


def one_more(command, repeats):
    """The instructions of one repeat alone: what a process with one more repeat takes, less what one without it takes."""
    if VALGRIND is None:
        return None
    more, fewer = (instructions([word.replace("REPEATS", str(n)) for word in command]) for n in (repeats + 1, repeats))
    return more - fewer


class Times:
    """What a step took each time, in milliseconds, and its answers, which must all be one."""

    def __init__(self):
        self.taken = []
        self.answers = set()

    def note(self, milliseconds, answer):
        self.taken.append(milliseconds)
        self.answers.add(answer)

    @property
    def best(self):
        return min(self.taken)


def the_same(*steps):
    """The answer of all runs of all these steps."""
    answers = set().union(*(step.answers for step in steps))
    if len(answers) != 1:
        sys.exit(f"the answers differ: {answers}")
    return answers.pop()


def field(line, name):
    """The value of 'name=value' in a line."""
    return re.search(rf"\b{name}=(\S+)", line).group(1)
