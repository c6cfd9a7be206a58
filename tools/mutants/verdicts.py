"""What a check says of each mutant: whether its function's contract kills it, and by what."""

import re
from collections import defaultdict

import crates
import parts
from copies import NO_OFFER
from mutants import GOAL, PROOF

GOAL_LINE = re.compile(r"note: (?:\./)?src/\S+: .*? \(`([^`]+)`\)(.*)")
PROOF_ERROR = re.compile(r"(?:\./)?proofs/(\S+)/(\w+)\.antt:\d+:\d+: error: (.*)")
LAST_LINE = re.compile(r"(?m)^only=\d+ (?:proved|holes)=\d+$")
WRITTEN = re.compile(r"(?m)^pub (\S+) :")
NOT_PROVED = "`search` did not prove "
NOT_COVERED = "the borrow checker does not cover this function"


class Answer:
    """What a check wrote: of each function its words and its open goals, and the errors of its
    proof files, each with the file."""

    def __init__(self, said, folder):
        self.said, self.folder = said, folder
        self.has_verdict = bool(LAST_LINE.search(said))
        self.words, self.goals, self.errors = {}, {}, defaultdict(list)
        goals = []
        for line in said.splitlines():
            if found := GOAL_LINE.match(line):
                goals.append(found.groups())
            elif line.startswith("fn "):
                name, _, self.words[name] = line[3:].partition(": ")
                self.goals[name], goals = goals, []
            elif (found := PROOF_ERROR.match(line)) and not found[3].startswith(f"`{NO_OFFER}`: "):
                self.errors[function_of(*found.groups())].append((found[2], found[3]))

    def errors_of_sources(self):
        """The first errors of the sources, or the last words if there are none."""
        lines = self.said.splitlines()
        found = [it for it in lines if "error" in it or "no verdict" in it] or lines
        return " / ".join(found[:3])[:400]

    def killed_by(self, function):
        """What kills the mutant in this function, and what is said of it; None if nothing does."""
        of_proof = None
        for name in self.parts_of(function):
            words, errors = self.words[name], self.errors[name.partition("::")[2]]
            if NOT_PROVED in words:
                return GOAL, f"{name}: {' '.join(*self.goals[name][:1]) or words}"
            if words.startswith("not proved"):
                if goals := self.open_goals(name, errors):
                    return GOAL, f"{name}: {' '.join(goals[0])}"
                if errors:
                    of_proof = of_proof or (PROOF, f"{name}: {errors[0][1]}")
        return of_proof

    def not_covered(self, function):
        """The part of the function for which the check looks for no goals, since the mutant makes
        of it what the borrow checker doesn't cover; None if there is no such part."""
        return next((it for it in self.parts_of(function) if NOT_COVERED in self.words[it]), None)

    def parts_of(self, function):
        """The functions of the answer that are this one, or a closure in it: the path of that has
        `fn` somewhere before the function's name."""
        crate, *path = function.split("::")
        inner = ["::".join([crate, *path[:at], "fn", *path[at:], ""]) for at in range(len(path))]
        heads = (f"{function}+", *inner)
        return [it for it in self.words if it == function or it.startswith(heads)]

    def open_goals(self, name, errors):
        """The goals of a function, whose proof files have errors, for which nothing is written: an
        error may be in what is written for another. There are none if it is in its invariants."""
        if any(file == "Invariants" for file, _ in errors):
            return []
        written = self.written_for(name)
        heads = tuple(f"{it}-clause-" for it in written)
        is_written = lambda goal: goal in written or goal.startswith(heads)
        return [it for it in self.goals[name] if not is_written(it[0])]

    def written_for(self, name):
        """The goals for which the function's file has an answer, or that of its cycle."""
        *modules, last = name.split("::")[1:]
        place = self.folder.joinpath("proofs", *modules)
        answers = lambda form: "".join(it.read_text("utf-8") for it in place.glob(form))
        of_cycle = WRITTEN.findall(answers("+*/Answers.antt"))
        own = WRITTEN.findall(answers(f"{last}/Answers.antt"))
        return own + [it for it in of_cycle if it.startswith(f"{last}-")]


def function_of(place, file, said):
    """The path of the function whose proof has this error. Functions of a cycle share their proof
    files, in a folder `+NAME`: there the goal that the error names says which function it is,
    `walk-returns` or `invariant-walk-loop`."""
    *modules, last = place.split("/")
    if last.startswith("+") and (goal := re.match(r"`([^`]+)`", said)):
        words = goal[1].split("-")
        last = words[0] if file == "Answers" else "".join(words[1:2])
    return "::".join((*modules, last))


def check(crate, folder, names, kit):
    """Checks these functions of the crate in this copy. Answers what was said and the seconds."""
    words = crates.words_of_check(crate, names, kit)
    _, said, seconds = parts.run(words, folder)
    return Answer(said, folder), seconds
