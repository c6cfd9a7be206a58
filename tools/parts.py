"""Runs commands as the parts of a test, one after another or side by side, and counts them."""

import contextlib
import ctypes
import os
import pathlib
import re
import shlex
import signal
import subprocess
import sys
import tempfile
import threading
import time

COUNTS = re.compile(r"(\d+) passed, (\d+) failed(?:, (\d+) skipped)?")
OF_FAILURE = re.compile(r"(^|: )(failed|odd): |^rt: FAILED")
# How many lines are told once more of a part that failed, and of each how much.
MOST_LINES, MOST_OF_LINE = 20, 900
# How long a process may take to end after SIGTERM.
PATIENCE = 5
PR_SET_CHILD_SUBREAPER = 36
# A command of `run` ends after so many seconds.
SECONDS = 3600
# Held while a command is begun; once all are ended, none is.
beginning, ending = threading.Lock(), threading.Event()


def jobs():
    """How many proofs run side by side: RT_JOBS, or one for each processor and 3 free gigabytes."""
    free = re.search(r"MemAvailable: *(\d+)", pathlib.Path("/proc/meminfo").read_text())[1]
    fitting = max(1, min(len(os.sched_getaffinity(0)), int(free) // (3 << 20)))
    return int(os.environ.get("RT_JOBS") or fitting)


def kit():
    """The folder of the toolchain."""
    said = subprocess.run(["rt", "doc"], capture_output=True, text=True, check=True).stdout
    return pathlib.Path(said.strip()).parent


def shell(line):
    """What a line of the shell prints at the top, with the functions of tools/sources.sh."""
    words = ["bash", "-c", f". tools/sources.sh; {line}"]
    how = {"cwd": pathlib.Path(__file__).resolve().parents[1], "stdout": subprocess.PIPE}
    return subprocess.run(words, text=True, check=False, **how).stdout.strip()


def run(words, folder):
    """Runs a command. Answers its status, all that it wrote and its processor seconds."""
    how = {"stdin": subprocess.DEVNULL, "stdout": subprocess.PIPE, "stderr": subprocess.STDOUT}
    with beginning:
        if ending.is_set():
            raise InterruptedError
        started = subprocess.Popen(["timeout", str(SECONDS), *words], cwd=folder, **how)
    with started.stdout:
        said = started.stdout.read().decode(errors="replace")
    _, status, used = os.wait4(started.pid, 0)
    started.returncode = os.waitstatus_to_exitcode(status)
    return started.returncode, said, used.ru_utime + used.ru_stime


def counted(passed, failed, skipped):
    """The line that counts."""
    return f"{passed} passed, {failed} failed" + (f", {skipped} skipped" if skipped else "")


def counts_in(line):
    """The three numbers of a line that counts, or None."""
    found = COUNTS.fullmatch(line)
    return found and [int(it or 0) for it in found.groups()]


class Parts:
    """What the parts have counted, and what those that failed said."""

    def __init__(self):
        self.counts, self.failures, self.beside = [0, 0, 0], [], []
        self.began = time.monotonic()

    def run_all(self, table, **fields):
        """Runs the commands of a table, with these fields in the place of their names in braces.
        One whose name begins with `&` runs beside what follows, until `finish`."""
        for name, command in table.items():
            log, words = tempfile.NamedTemporaryFile(), shlex.split(command.format(**fields))
            streams = {"stdin": subprocess.DEVNULL, "stdout": log, "stderr": subprocess.STDOUT}
            part = name, subprocess.Popen(words, start_new_session=True, **streams), log
            if name[0] == "&":
                self.beside.append(part)
            else:
                self.end(*part)

    def finish(self):
        """Waits for the parts that were started, in that order."""
        while self.beside:
            self.end(*self.beside.pop(0))

    def end(self, name, process, log):
        """Waits for a part, and prints what it says. Its last line that counts is added. If its
        name begins with `=`, its status counts, and what holds is printed by its last line."""
        is_counted, name = name[0] != "=", name.lstrip("=&")
        print(f"== {name} (after {time.monotonic() - self.began:.0f} s)", flush=True)
        said, is_over = "", False
        with log, open(log.name, encoding="utf-8", errors="replace") as text:
            while not is_over:
                time.sleep(0.05)
                is_over = process.poll() is not None
                piece = text.read()
                said += piece
                print(piece if is_counted else "", end="", flush=True)
        lines, status = said.splitlines(), process.returncode
        if is_counted:
            found = [it for it in map(counts_in, lines) if it]
        else:
            print(*(lines if status else lines[-1:]), sep="\n", flush=True)
            found = [[int(status == 0), int(status != 0), 0]]
        self.count(name, lines, status, found)

    def count(self, name, lines, status, found):
        passed, failed, skipped = found[-1] if found else (0, 0, 0)
        told = [it for it in lines if OF_FAILURE.search(it)] or lines[-3:]
        if not found or (status and not failed):
            failed += 1
            told = [*told[: MOST_LINES - 1], f"{name} broke off, with status {status}"]
        if failed:
            shown = (it[:MOST_OF_LINE] for it in told[:MOST_LINES])
            self.failures += [f"failed: {name}", *shown]
        self.counts = [a + b for a, b in zip(self.counts, (passed, failed, skipped))]

    def close(self, remark):
        """Says what failed, and the remark before the line that counts all. Answers a status."""
        if self.failures:
            print("what failed:", *self.failures, sep="\n")
        print(f"it took {time.monotonic() - self.began:.0f} s", *filter(None, [remark]), sep="\n")
        print(counted(*self.counts))
        return 1 if self.failures else 0


def below():
    """The processes below this one."""
    parents, found = {}, [os.getpid()]
    for stat in pathlib.Path("/proc").glob("[0-9]*/stat"):
        with contextlib.suppress(OSError):
            fields = stat.read_text(errors="replace").rpartition(")")[2].split()
            parents[int(stat.parent.name)] = int(fields[1])
    for pid in found:
        found += [it for it, parent in parents.items() if parent == pid]
    return {*found[1:]}


def end_all():
    """Ends all processes below this one: with SIGTERM, and soon with SIGKILL."""
    with beginning:
        ending.set()
    for number in (signal.SIGTERM, signal.SIGKILL):
        told, until = set(), time.monotonic() + PATIENCE
        while (left := below()) and time.monotonic() < until:
            for pid in left - told:
                with contextlib.suppress(OSError):
                    os.kill(pid, number)
            told |= left
            with contextlib.suppress(ChildProcessError):
                while os.waitpid(-1, os.WNOHANG)[0]:
                    pass
            time.sleep(0.02)


@contextlib.contextmanager
def ending_all():
    """A block at the end of which nothing runs below this process, if a signal ends it too. What
    loses its parent is below this process from then on."""
    ctypes.CDLL(None).prctl(PR_SET_CHILD_SUBREAPER, 1, 0, 0, 0)
    signals = (signal.SIGINT, signal.SIGTERM, signal.SIGHUP)
    heeded = [it for it in signals if signal.getsignal(it) != signal.SIG_IGN]
    received = []

    def end(number, _):
        for it in heeded:
            signal.signal(it, signal.SIG_IGN)
        received.append(number)
        # a test of `unittest` ends by no other exception
        raise KeyboardInterrupt

    for number in heeded:
        signal.signal(number, end)
    try:
        yield
    except KeyboardInterrupt:
        sys.exit(128 + (received or [signal.SIGINT])[0])
    finally:
        end_all()
