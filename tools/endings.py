"""How the program ends on an input, and whether that is odd: by what it wrote, by its exit status,
and by what it took. The forms are those of docs/FORMATS.md as regular expressions."""

import contextlib
import os
import re
import signal

MOST_SECONDS = 2.0
MOST_KIBIBYTES = 600 * 1024
# A program that waits takes no processor time.
PATIENCE = 20
FAULTS_OF_HISTORY = "Header Line Number Order WrongReply NotCleared UnseenNumber TooMany Unended"
FAULTS_OF_SCRIPT = ("Header Line Name Duplicate UnknownKey UnknownFlag UnknownVar UnknownLabel "
                    "BackwardLabel Number Data TooMany Budget Unended")
FAULTS_OF_SHAPE = "BadTarget BadIndex NoHalt NotCleared"
FAULTS_OF_A_RUN = ("Unbound WrongKind NothingToBind FlagMayBeClear FlagMayBeSet TooManyRequests "
                   "TooManyBytes")
FAULTS_OF_SECTION = "WriteFailed ReadFailed Ended BadReply ErrorLine TooMuch Closed Memory"


def numbered(names, first=1):
    """Any of these names with its number before it."""
    its = (f"{number} {name}" for number, name in enumerate(names.split(), first))
    return f"(?:{'|'.join(its)})"


KEY = r"[a-z0-9-]{1,40}"
START, MARKS = rf"(?:start {KEY} \d+\n)*", r"(?: pad)?(?: refuse)?\n"
EXPLANATION = rf"{START}(?:[PAB] \d+{MARKS})*end\n"
# Of a timeline.
CLIENT = r"(?:[0-9]|[1-5][0-9]|6[0-3])"
LINEARIZATION = rf"{START}(?:{CLIENT} \d+{MARKS})*end\n"
VERDICT = rf"(?P<verdict>explained\n{EXPLANATION}|unexplained\n|undecided\n)"
TOO_LONG = "refused input too long\n"
NO_HISTORY = rf"refused history {numbered(FAULTS_OF_HISTORY)} line \d+\n"
NO_SCRIPT = rf"refused script {numbered(FAULTS_OF_SCRIPT)} line \d+\n"
TOO_LARGE = r"refused asm (?:1 TooManyTemplates|2 TooManyInstructions [PAB])\n"
NO_IMAGE = rf"refused image {numbered('Magic Short Range Template Extra')} byte \d+\n"
NO_STEPS = rf"refused steps {numbered('Header Line TooMany Unended')} line \d+\n"
# A fault of a run is shown by one, call by call.
UNSOUND = (rf"refused verify (?:{numbered(FAULTS_OF_SHAPE)} [PAB] \d+\n"
           rf"|{numbered(FAULTS_OF_A_RUN, 5)} [PAB] \d+\n(?:[PAB] [a-z]+\n)*end\n)")
ENDING = rf"(?:done|running|not begun|failed {numbered(FAULTS_OF_SECTION)})"
ENDINGS = rf"P (?P<p>{ENDING})\nA (?P<a>{ENDING})\nB (?P<b>{ENDING})\n"
HISTORY = r"history 2\n(?:[PAB] (?:begin|reply) [ -~]+\n)*end\n"
# What `--why` says after a refusal, in lines for a person, and after `unexplained`.
HINT = r"(?:[ -~]{1,80}\n)*"
WHY = r"(?:why\n(?:[ -~]+\n)*?end\n)?"
# Reports, as text with what stands after the totals, or as lines of JSON.
JOINED = r"(?:\d+ [ -~]+\n)+jobs [1-9][ -~]*\n(?:.*end\n)?|(?:\{[ -~]*\}\n)+"
REPORT_FAULT = numbered("Line Mixed Totals Campaign Missing Doubled Unended") + r" line \d+"


def status_of_sections(found):
    """The status of what `drive` and `run` write of a run."""
    endings = [found["p"], found["a"], found["b"]]
    if found["verdict"] == "unexplained\n" or "failed 4 BadReply" in endings:
        return 1
    return 0 if found["verdict"].startswith("explained") and endings == ["done"] * 3 else 4


def status_of_report(found):
    """The status of a report. In JSON `unexplained` is also the name of a total."""
    if re.search('"verdict":"unexplained"|^\\d+ unexplained|BadReply', found[0], re.M):
        return 1
    return 0 if re.fullmatch(r"(?:\d+ explained\n)*jobs [^\n]*\n|\{[^\n]*\n", found[0]) else 4


def forms_with(hint, why):
    """Of each command the forms, and for each its status, which may rest on what is written. After
    a refusal of a line stands a hint, and after `unexplained` why it is so."""
    no_code = f"{NO_SCRIPT}{hint}|{TOO_LARGE}{hint}|{UNSOUND}{hint}|{TOO_LONG}"
    forms = {
        "judge": [("confirmed\n", 0), ("not confirmed\n", 1),
                  (rf"explained\n(?:{EXPLANATION}|{LINEARIZATION})", 0),
                  (rf"unexplained\n(?:key {KEY}\n)?{why}", 1),
                  (rf"undecided\n(?:key {KEY}\n)?", 4),
                  (f"{NO_HISTORY}{hint}|{TOO_LONG}", 3)],
        "draw": [(r"(?:confirmed|explained|unexplained|undecided): [ -~\n]*|<svg .*</svg>\n", 0),
                 (f"{NO_HISTORY}|{TOO_LONG}", 3)],
        "convert": [(r"(?:\{[ -~]*\}\n)*", 0), (f"{NO_HISTORY}|refused edn\n|{TOO_LONG}", 3)],
        "join": [(JOINED, status_of_report), (rf"refused report {REPORT_FAULT}\n|{TOO_LONG}", 3)],
        "check": [(r"accepted\nP \d+ \d+\nA \d+ \d+\nB \d+ \d+\n", 0),
                  (f"{no_code}|{NO_IMAGE}", 3)],
        "asm": [(r"MCR[12].*", 0), (f"{NO_SCRIPT}{hint}|{TOO_LARGE}{hint}|{TOO_LONG}", 3)],
        "drive": [(rf"skipped \d+\n{ENDINGS}{VERDICT}{why}", status_of_sections),
                  (f"{no_code}|{NO_STEPS}{hint}", 3)],
        "run": [(rf"{ENDINGS}{VERDICT}{why}{HISTORY}", status_of_sections), (no_code, 3),
                (r"no connection [PAB]\n|not run\n", 4)],
    }
    return {command: [(re.compile(form, re.S), status)
                      for form, status in [*of_command, ("out of memory\n", 4)]]
            for command, of_command in forms.items()}


PLAIN, ASKED_WHY = forms_with("", ""), forms_with(HINT, WHY)


def fault_of_form(words, output, status):
    """What is wrong with what the command of these words wrote and its status, or None."""
    text = output.decode("latin-1")
    for form, expected in (ASKED_WHY if "--why" in words else PLAIN)[words[0]]:
        found = form.fullmatch(text)
        if found:
            expected = expected(found) if callable(expected) else expected
            if status == expected:
                return None
            return f"status {status} where {expected} belongs to what it wrote"
    return "it wrote nothing that is documented"


class Runs:
    """Runs the program on one input after another, through files of a folder."""

    def __init__(self, program, folder):
        self.program, self.given = program, folder / "input"
        self.output, self.faults = folder / "output", folder / "faults"

    def end_of(self, words):
        """How the program ends on the input that was written: its wait status and what it used."""
        flags = os.O_WRONLY | os.O_CREAT | os.O_TRUNC
        files = [(os.POSIX_SPAWN_OPEN, 0, str(self.given), os.O_RDONLY, 0),
                 (os.POSIX_SPAWN_OPEN, 1, str(self.output), flags, 0o600),
                 (os.POSIX_SPAWN_OPEN, 2, str(self.faults), flags, 0o600)]
        words = [str(self.program), *words]
        child = os.posix_spawn(self.program, words, os.environ, file_actions=files)

        def stop(*_):
            # it may just have ended
            with contextlib.suppress(ProcessLookupError):
                os.kill(child, signal.SIGKILL)

        signal.signal(signal.SIGALRM, stop)
        signal.alarm(PATIENCE)
        _, ended, used = os.wait4(child, 0)
        signal.alarm(0)
        return ended, used

    def odd(self, words):
        """What is odd about the program's end with these words, or None."""
        ended, used = self.end_of(words)
        seconds, faults = used.ru_utime + used.ru_stime, self.faults.read_bytes()
        if os.WIFSIGNALED(ended):
            return f"it ended by signal {os.WTERMSIG(ended)} (it may wait {PATIENCE} s at most)"
        if seconds > MOST_SECONDS:
            return f"it took {seconds:.1f} s of processor time"
        if used.ru_maxrss > MOST_KIBIBYTES:
            return f"it took {used.ru_maxrss // 1024} MB"
        if not all(line.startswith(b"mcrace: ") for line in faults.splitlines()):
            return f"it wrote to standard error: {faults[:200]!r}"
        output = self.output.read_bytes()
        found = fault_of_form(words, output, os.WEXITSTATUS(ended))
        return found and f"{found}: {output[:200]!r}"
