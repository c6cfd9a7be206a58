"""Programs whose allocations are refused by the library of allocations.c, and how they may end."""

import contextlib
import itertools
import os
import pathlib
import re
import subprocess
import sys
import tempfile
from dataclasses import dataclass

import cases
import parts
from live import servers

HERE = pathlib.Path(__file__).resolve().parent
ROOT, SECONDS = HERE.parents[1], 60
# What has a time limit is tried as often as this: the machine may stand still for longer.
TRIES = 3
TIME_LIMITS = ("--timeout", "--wait")
# Command lines with a fault, beside those of cases.
LINES = [["judge", "x"], ["draw", "x"], ["run", "x"]]
EXAMPLES = [("judge", "history"), ("draw", "history"), ("check", "script"), ("asm", "script"),
            ("drive", "drive")]
# P alone sends, so what comes of it doesn't rest on the schedule.
SCRIPT = b"script 1\nkeys a\nbudget P 2 26\nbudget A 0 0\nbudget B 0 0\nP\nset a 0 =5\nA\nB\nend\n"
MISS, STORED = b"NOT_FOUND\r\n", b"STORED\r\n"
# What a server answers to P's requests, and the options of the run.
AT_SERVERS = [
    ("more comes than the replies", [MISS, STORED + STORED], []),
    ("what comes is no reply", [b"NOT_FOUND\n"], []),
    ("nothing comes in time", [], ["--timeout", "0.05"]),
    ("no more comes in time", [MISS, b"STO"], ["--timeout=0.05", "--wait", "1"]),
    ("all is answered under a name", [MISS, STORED], ["--name", "ci7", "--timeout", "50"]),
]
# What a run may write if there is no memory: that, no run, or that P failed for it.
NO_MEMORY = re.compile(
    rb"(?:out of memory\n|not run\n|no connection [PAB]\n|P failed 8 Memory\n.*)?", re.S)
WANT = r"\b(OutOfMemory|AllocError|AllocFailed)\b"
# How a test ends whose call said that there is no memory: it gives that on, or compares it.
SAYS_SO = re.compile(rf"\Aerror: [^\n]*(?:{WANT}|\bNoThread\b)"
                     rf"|\Aassertion `left == right` failed.*^ +left: [^\n]*{WANT}", re.S | re.M)


def library(folder):
    """The shared object, made in the folder by the toolchain's own compiler."""
    made = pathlib.Path(folder, "allocations.so")
    words = [parts.kit() / "toolchain/bin/clang", "-O1", "-Wall", "-Werror", "-shared", "-fPIC"]
    words += ["-nostdlib", "-fuse-ld=lld", "-o", made, HERE / "allocations.c"]
    subprocess.run(words, check=True)
    return made


def ran(words, made, given="/dev/null", **settings):
    """Status, output and errors of a program with the library and variables; None if it goes on."""
    more = {name: str(value) for name, value in settings.items()}
    environment = {**os.environ, "LD_PRELOAD": str(made), **more}
    with open(given, "rb") as file, contextlib.suppress(subprocess.TimeoutExpired):
        # Closing no descriptors lets Python start it without a copy of itself.
        streams = {"stdin": file, "capture_output": True, "close_fds": False}
        ended = subprocess.run(words, env=environment, timeout=SECONDS, check=False, **streams)
        return ended.returncode, ended.stdout, ended.stderr
    return None


@dataclass
class Sweep:
    """A command, with what its runs may answer if allocations fail."""

    name: str
    words: list
    may_end: object
    made: object
    given: object = "/dev/null"

    def run(self, failing=None):
        """How a run ended, and how often it allocated."""
        with tempfile.NamedTemporaryFile("w+") as count:
            more = {"FAIL_ALLOCATION": failing} if failing else {}
            ended = ran(self.words, self.made, self.given, COUNT_ALLOCATIONS=count.name, **more)
            return ended, int(count.read() or -1)

    def count(self):
        """How often a run with memory allocates."""
        ended, count = self.run()
        if ended is None or count < 0:
            raise RuntimeError(f"{self.name} ends without counting its allocations")
        return count

    def odd_runs(self, numbers, until_none=False):
        """The runs that don't end as they may, as lines to print; and how many end as with memory.
        It may go on until the first of the numbers that no run meets."""
        tries = TRIES if any(str(it).startswith(TIME_LIMITS) for it in self.words) else 1
        (whole, _), odd, same = self.run(), [], 0
        for number, sign in itertools.product(numbers, ("", "+")):
            for _ in range(tries):
                ended, met = self.run(f"{number}{sign}")
                is_odd = ended is None or not self.may_end(whole, ended)
                if not is_odd:
                    break
                whole, _ = self.run()
            if until_none and not is_odd and met < number:
                break
            if is_odd:
                failed = f"{self.name}, allocation {number}{sign}"
                odd.append(f"{failed}: {shown(ended)}; with memory {shown(whole)}")
            same += not is_odd and ended[0] == whole[0]
        return odd, same


def shown(ended):
    """How a run ended, as a text."""
    return f"status {ended[0]}, {ended[1][:200]!r}, {ended[2][:400]!r}" if ended else "no end"


def program_may_end(whole, ended):
    return ended == whole or ended[0] == 4 and ended[1] in (b"", b"out of memory\n")


def campaign_may_end(whole, ended):
    """Without connections a job wasn't made or run, or there is no report. Why is said of fewer."""
    if program_may_end(whole, ended) or ended[:2] == (4, b"not run\n"):
        return True
    without = lambda it: re.sub(rb"(?m)^(\d+) (?:not made|not run|no connection .)$", rb"\1", it[1])
    is_told = all(line.startswith(b"mcrace: ") for line in ended[2].splitlines())
    return ended[0] == whole[0] and without(ended) == without(whole) and is_told


def selftest_may_end(whole, ended):
    return program_may_end(whole, ended) or ended == (1, b"failed\n", b"")


def serve_may_end(whole, ended):
    """Without connections. Each run listens at another port."""
    both = ((it[0], re.sub(rb":\d+\n", b":PORT\n", it[1]), it[2]) for it in (whole, ended))
    return program_may_end(*both)


def record_may_end(whole, ended):
    """Each run listens at another port. What was written before memory was short stays written."""
    both = ((*it[:2], re.sub(rb":\d+\n", b":PORT\n", it[2])) for it in (whole, ended))
    return program_may_end(*both) or ended[0] == 4 and whole[1].startswith(ended[1])


def run_may_end(whole, ended):
    return ended == whole or ended[0] == 4 and NO_MEMORY.fullmatch(ended[1]) is not None


def test_may_end(_, ended):
    return ended[0] == 0 or ended[0] in (101, -6) and bool(SAYS_SO.search(ended[2].decode()))


def repeated_may_end(whole, ended):
    """With `--keep-going` the first run that fails is written before the totals are known. The C
    library has several reasons why it can't look up a name; want of memory is none of them."""
    if ended[:2] == whole[:2] and all(b": failed to lookup " in it for it in (whole[2], ended[2])):
        return True
    found, totals, line = whole[1].rpartition(b"runs ")
    cut = (4, found + b"out of memory\n") if totals and line.count(b"\n") == 1 else None
    return program_may_end(whole, ended) or ended[:2] == cut


# How the commands may end that do more than to read and answer.
MAY_END = {
    "campaign": campaign_may_end, "record": record_may_end, "run": repeated_may_end,
    "selftest": selftest_may_end, "serve": serve_may_end,
}


def sweeps_of_cases(program, made, folder):
    """The program on each case, each example and two command lines without input."""
    given = [(it.name, it.words, it.input) for of in cases.all_files() for it in cases.cases_in(of)
             if not it.runs]
    given += [(it.name, [command], it.read_bytes()) for command, kind in EXAMPLES
              for it in sorted(ROOT.glob(f"examples/*.{kind}"))]
    given += [(" ".join(["mcrace", *words]), words, b"") for words in LINES]
    found = []
    for number, (name, words, text) in enumerate(given):
        file = folder / f"input{number}"
        file.write_bytes(text)
        may_end = MAY_END.get("".join(words[:1]), program_may_end)
        found.append(Sweep(name, [program, *words], may_end, made, file))
    return found


def sweeps_at_servers(program, made, folder, ending):
    """Runs against servers, which serve until `ending` is closed."""
    script, found = folder / "script", []
    script.write_bytes(SCRIPT)
    for name, texts, options in AT_SERVERS:
        port = ending.enter_context(servers.Replying(servers.answers(*texts))).port
        words = [program, "run", f"127.0.0.1:{port}", *options]
        found.append(Sweep(name, words, run_may_end, made, script))
    return found


def sweeps_of_tests(made, crates):
    """Each test of these crates, by its crate and name."""
    found = {}
    for crate in sorted(crates):
        program = ROOT / "crates" / crate / "out" / f"{crate}_tests"
        if not program.is_file():
            sys.exit(f"{program.relative_to(ROOT)} isn't there: run rt ci first, which builds it")
        asked = subprocess.run([program, "--list"], check=True, capture_output=True, text=True)
        for test in re.findall(r"^(.*): test$", asked.stdout, re.M):
            name = f"{crate} {test}"
            found[name] = Sweep(name, [program, test], test_may_end, made)
    return found
