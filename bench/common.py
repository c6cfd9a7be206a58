"""What the benches share: their options, programs that are measured, tables in Markdown, and
targets.

A bench ends with status 0, with 3 if a target isn't met, and with 1 if a program answers otherwise
than it should.
"""

import contextlib
import fcntl
import os
import pathlib
import re
import resource
import statistics
import subprocess
import sys
import tempfile
import time

ROOT = pathlib.Path(__file__).resolve().parents[1]
BENCH = ROOT / "bench"
NOT_MET = 3
# The busy processes beside which some benches measure again: one for every two processors.
LOAD = max(1, os.cpu_count() // 2)
# What --first asks for, with all that a bench starts.
REAL_TIME = os.SCHED_FIFO, os.sched_param(10)
# It stands in Python's `fcntl` since 3.10.
F_GETPIPE_SZ = 1032

sys.path += [str(ROOT / "oracle"), str(ROOT / "tools")]

from live import servers
from options import parser_of


def bench(measure, **numbers):
    """Runs a bench: what its command line asks for and its targets are given to `measure`. The
    numbers are options, each with what it is if left out, and what with --short. With --first all
    is in a real-time class."""
    asked, targets = parser_of(sys.modules["__main__"].__doc__, program=ROOT / "release/mcrace",
                               short=False, first=False,
                               **{name: type(its[0])() for name, its in numbers.items()}
                               ).parse_args(), Targets()
    asked.program = str(asked.program.resolve())
    if asked.first:
        os.sched_setscheduler(0, *REAL_TIME)
    for name, (number, short) in numbers.items():
        setattr(asked, name, getattr(asked, name) or (short if asked.short else number))
    measure(asked, targets)
    sys.exit(targets.status())


def stop(*texts):
    sys.exit(f"{pathlib.Path(sys.argv[0]).name}: " + " ".join(str(it)[-500:] for it in texts))


def row(*cells):
    print("| " + " | ".join(map(str, cells)) + " |", flush=True)


def head(*cells):
    row(*cells)
    print("|" + len(cells) * "---|")


class Targets(list):
    """Rows of what is wanted, and whether it is met."""

    def add(self, words, measured, least=None, most=None, form="{:,.2f}"):
        shown = form if "%" in form else "{:,}"
        wanted = [f"{word} {shown.format(limit)}" for word, limit in
                  (("at least", least), ("at most", most)) if limit is not None]
        is_met = (least is None or least <= measured) and (most is None or measured <= most)
        self.append((words, " and ".join(wanted), form.format(measured),
                     "met" if is_met else "not met"))

    def status(self):
        """Prints them, and answers the status of the bench."""
        print()
        head("target", "wanted", "measured", "")
        for it in self:
            row(*it)
        return 0 if all(it[-1] == "met" for it in self) else NOT_MET


def in_turns(rounds, plays):
    """What each of the plays answers in so many rounds, in which they take turns."""
    found = {name: [] for name in plays}
    for number in range(rounds):
        for name in list(plays)[:: -1 if number % 2 else 1]:
            found[name].append(plays[name]())
    return found


@contextlib.contextmanager
def busy(count):
    """So many processes of the normal class that do nothing but compute."""
    with contextlib.ExitStack() as processes:
        for _ in range(count):
            process = subprocess.Popen([sys.executable, "-c", "while True: pass"])
            processes.enter_context(process)
            processes.callback(process.kill)
            os.sched_setscheduler(process.pid, os.SCHED_OTHER, os.sched_param(0))
        yield


def beside_each(load):
    """Says what is beside, for a measurement of its own: nothing, and so many busy processes."""
    for count in (0, load):
        beside = f"beside {count} busy processes" if count else "nothing beside"
        print(f"{beside.capitalize()}:\n")
        with busy(count):
            yield beside
        print()


def medians_in_turns(rounds, plays):
    """The medians of the numbers that each of the plays answers, in rounds in which they take
    turns."""
    return {name: [statistics.median(it) for it in zip(*found)]
            for name, found in in_turns(rounds, plays).items()}


def ran(words, text="", statuses=(0,), seconds=600):
    """What a command writes to standard output, if it ends with one of the statuses."""
    words = list(map(str, words))
    found = subprocess.run(words, input=text, capture_output=True, text=True, timeout=seconds)
    if found.returncode not in statuses:
        stop(words, "ended with", found.returncode, found.stdout, found.stderr)
    return found.stdout


def processor_seconds():
    """Those of the commands that have ended. They say more than a clock at a busy machine."""
    its = resource.getrusage(resource.RUSAGE_CHILDREN)
    return its.ru_utime + its.ru_stime


def timed(words, text, clock=time.perf_counter):
    """What a command answers to a text, its status, and the seconds that it took by the clock."""
    with tempfile.TemporaryFile() as given:
        given.write(text)
        given.seek(0)
        began = clock()
        ended = subprocess.run(words, stdin=given, stdout=subprocess.PIPE)
        return ended.stdout, ended.returncode, clock() - began


def quickest(repeats, words, text, is_right, clock=time.perf_counter):
    """What a command answers to a text, which must be right with its status; the milliseconds of
    the quickest of its runs; and the most kilobytes that it held."""
    runs = [timed(words, text, clock) for _ in range(repeats)]
    for answer, status, _ in runs:
        if not is_right(answer, status):
            stop(words, "answered", answer[:80], "with status", status)
    return runs[0][0], 1000 * min(it for _, _, it in runs), peak(words, text)


def peak(words, text):
    """The most kilobytes that a command held, read when its answer is to go into a full pipe."""
    reader, writer = os.pipe()
    os.write(writer, bytes(fcntl.fcntl(writer, F_GETPIPE_SZ)))
    with tempfile.TemporaryFile() as given, open(reader, "rb") as output:
        given.write(text)
        given.seek(0)
        with subprocess.Popen(words, stdin=given, stdout=writer) as process:
            os.close(writer)
            while status_of(process.pid, "State") not in "SZ":
                time.sleep(0.001)
            kilobytes = int(status_of(process.pid, "VmHWM"))
            output.read()
    return kilobytes


def status_of(process, name):
    """The first word of a line of a process's status; 0 if there is none."""
    text = pathlib.Path(f"/proc/{process}/status").read_text()
    found = re.search(rf"^{name}:\s+(\w+)", text, re.M)
    return found[1] if found else "0"


@contextlib.contextmanager
def all_compiled(*names):
    """The programs in C of these paths below the repository."""
    with tempfile.TemporaryDirectory() as folder:
        made = [f"{folder}/{pathlib.Path(name).name}" for name in names]
        for name, to in zip(names, made):
            words = ["cc", "-O2", "-Wall", "-Wextra", "-Werror", "-pthread", "-o", to]
            subprocess.run([*words, BENCH.parent / f"{name}.c"], check=True)
        yield made


def memcached(threads=4):
    """A memcached with so many threads, for as many connections as a bench opens."""
    return servers.memcached(threads, "-m", 1024, "-c", 4096)
