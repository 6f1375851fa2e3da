"""What the benchmarks share: the machine that they run on, and a run of a program on a file, with
the time and the memory that it took."""
import datetime
import os
import platform
import subprocess
import sys
import tempfile
from typing import NamedTuple

TOP = os.path.dirname(os.path.dirname(os.path.realpath(__file__)))
PROGRAM = f"{TOP}/crates/server_main/out/server_main"

# As the launcher has it.
ENVIRONMENT = {**os.environ, "GLIBC_TUNABLES": "glibc.malloc.hugetlb=1"}


class Run(NamedTuple):
    """What one run took: seconds of the processor, user and system, and bytes at the peak."""

    seconds: float
    memory: int


def processor_model():
    with open("/proc/cpuinfo", encoding="utf-8") as it:
        names = [line.split(":", 1)[1].strip() for line in it if line.startswith("model name")]
    return f"{len(names)} x {names[0]}" if names else platform.machine()


def print_head(command):
    """The lines that stand above the tables."""
    now = datetime.datetime.now(datetime.timezone.utc)
    print(f"- Machine: {processor_model()}, Linux {platform.release()}")
    print(f"- Date: {now:%Y-%m-%d %H:%M} UTC")
    print(f"- Command: {command}")


def run_on(words, file, status=0):
    """Runs the words once on a file, with output and faults to /dev/null."""
    streams = [
        (os.POSIX_SPAWN_OPEN, 0, file, os.O_RDONLY, 0),
        (os.POSIX_SPAWN_OPEN, 1, os.devnull, os.O_WRONLY, 0),
        (os.POSIX_SPAWN_OPEN, 2, os.devnull, os.O_WRONLY, 0),
    ]
    child = os.posix_spawnp(words[0], words, ENVIRONMENT, file_actions=streams)
    _, ended, used = os.wait4(child, 0)
    ended = os.waitstatus_to_exitcode(ended)
    if ended != status:
        sys.exit(f"{sys.argv[0]}: {words[0]} ended with {ended}, not {status}")
    return Run(used.ru_utime + used.ru_stime, used.ru_maxrss * 1024)


# The system counts what the caller held at the start to a program's peak, so a small one starts it.
SMALL_CALLER = """
import os, sys
status, file, *words = sys.argv[1:]
opened = [(os.POSIX_SPAWN_OPEN, 0, file, os.O_RDONLY, 0)]
opened += [(os.POSIX_SPAWN_OPEN, it, os.devnull, os.O_WRONLY, 0) for it in (1, 2)]
_, ended, used = os.wait4(os.posix_spawnp(words[0], words, os.environ, file_actions=opened), 0)
print(used.ru_maxrss if os.waitstatus_to_exitcode(ended) == int(status) else "")
"""


def peak_of(words, text, status=0):
    """The bytes at the peak of one run on a text."""
    with tempfile.NamedTemporaryFile() as file:
        file.write(text)
        file.flush()
        caller = [sys.executable, "-I", "-S", "-c", SMALL_CALLER, str(status), file.name, *words]
        told = subprocess.run(caller, env=ENVIRONMENT, stdout=subprocess.PIPE, check=True).stdout
    if not told.strip():
        sys.exit(f"{sys.argv[0]}: {words[0]} ended with another status than {status}")
    return int(told) * 1024


def least_of(runs, words, text, status=0):
    """The least of each over so many runs on a text."""
    with tempfile.NamedTemporaryFile() as file:
        file.write(text)
        file.flush()
        done = [run_on(words, file.name, status) for _ in range(runs)]
    return Run(min(it.seconds for it in done), min(it.memory for it in done))


class Table:
    """Rows of ratios with their bounds, and the bounds that were broken so far."""

    def __init__(self):
        self.broken = []

    def tell(self, what, one, other, unit, most=None):
        """Prints a row, of a figure and the one that it is measured by, and its bound if any."""
        ratio = one / other
        is_broken = most is not None and ratio > most
        told = "none" if most is None else f"{most:.4g}"
        bound = f"{told} (broken)" if is_broken else told
        print(f"| {what} | {one:,.1f} {unit} | {other:,.1f} {unit} | {ratio:.2f} | {bound} |")
        sys.stdout.flush()
        if is_broken:
            self.broken.append(what)

    def status(self):
        """Names the broken bounds, and tells the status to end with."""
        for it in self.broken:
            print(f"{sys.argv[0]}: above its bound: {it}", file=sys.stderr)
        return 1 if self.broken else 0


def print_columns():
    """The head of the rows that a `Table` prints."""
    print("\n| What, and what it is measured by | First | Second | Ratio | At most |")
    print("|---|---|---|---|---|")
