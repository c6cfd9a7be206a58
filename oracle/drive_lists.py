#!/usr/bin/env -S python3 -B
"""Compares `mcrace drive` with a second fold of step lists, and its verdict with that of `judge`.

usage: drive_lists.py PROGRAM SCRIPT.. [--lists N] [--seed N]

It reads scripts that `check` accepts, and makes step lists for each at random: mostly steps that a
section may take, with replies that a cache gives or at least may give, and now and then any other.
The fold here walks the lines of the script itself, not its code. It says how many steps are skipped
and how each section ends. What was taken is written as a `history 2`, and `judge` is asked for the
verdict. The lists are counted by the ends of their sections and their verdict.
"""

import pathlib
import random

from comparing import asked, compare, parser_of
from model import (CLASSES, GREATEST, SECTIONS, STORES, Cache, history_text, legal, words_in,
                   words_of)

FAULTS = "WriteFailed ReadFailed Ended BadReply ErrorLine TooMuch Closed Memory".split()
LONGEST_BODY = 65536
# How many words a request has after its key.
ARGUMENTS = {**dict.fromkeys(STORES, 2), "cas": 3, "incr": 1, "decr": 1}
REPLIES = dict(zip(CLASSES, "STORED NOT_STORED EXISTS NOT_FOUND HIT MISS DELETED TOUCHED NUMBER "
                            "NOT_A_NUMBER".split()))
NAMES = {word: name for name, word in REPLIES.items()}


def sections_of(text):
    """The keys of a script that is accepted, and the lines of its sections, as words."""
    lines = [line.split() for line in text.split("\n") if line[:1] != "#" and line.strip()]
    keys = next(words[1:] for words in lines if words[0] == "keys")
    starts = [lines.index([name]) for name in SECTIONS] + [lines.index(["end"])]
    return keys, [lines[start + 1 : end] for start, end in zip(starts, starts[1:])]


class Section:
    """A section as it runs: its lines, the next one, its variables, what its last reply showed, the
    request that waits for its reply, and how it failed."""

    def __init__(self, lines, variables):
        self.lines, self.at, self.variables, self.shown = lines, 0, dict(variables), None
        self.waiting = self.fault = None
        self.go_on()

    def go_to(self, label):
        self.at = self.lines.index([f"{label}:"])

    def go_on(self):
        """Goes on to the next request, or to the end."""
        while self.at < len(self.lines):
            words = self.lines[self.at]
            self.at += 1
            if words[0] == "goto" and len(words) == 2:
                self.go_to(words[1])
            elif words[0] == "bind" and len(words) == 2:
                self.variables[words[1]] = self.shown
            elif words == ["halt"]:
                self.at = len(self.lines)
            elif len(words) > 1 or not words[0].endswith(":"):
                self.at -= 1
                return

    def is_done(self):
        return self.fault is None and self.waiting is None and self.at == len(self.lines)

    def begin(self):
        """The request of the next line, of which marks and jumps are left out."""
        verb, key, *others = self.lines[self.at]
        numbers = {f"${name}": number for name, number in self.variables.items()}
        others = " ".join(str(numbers.get(it, it)) for it in others[: ARGUMENTS.get(verb, 0)])
        self.waiting = (verb, key, *words_in(others))
        return self.waiting

    def answer(self, reply):
        """Goes on after a reply to the line's request."""
        marks, self.waiting = self.lines[self.at][2:], None
        self.shown, self.at = number_in(reply), self.at + 1
        for mark in marks:
            if mark.startswith(">") and self.shown is not None:
                self.variables[mark[1:]] = self.shown
            if mark.startswith(f"{NAMES[reply[0]]}:"):
                self.go_to(mark.split(":")[1])
        self.go_on()

    def may_take(self, kind, reply):
        if self.fault is not None or self.is_done():
            return False
        if kind == "reply":
            return self.waiting is not None and fits(self.waiting[0], reply)
        return kind == "fail" or self.waiting is None


def number_in(reply):
    """The number that a reply shows, or None."""
    return reply[-1] if reply[0] == "NUMBER" or reply[0] == "HIT" and len(reply) == 4 else None


def fits(verb, reply):
    if NAMES[reply[0]] not in legal(verb):
        return False
    is_right = (number_in(reply) is not None) == (verb == "gets")
    return reply[0] != "HIT" or is_right and len(reply[2]) <= LONGEST_BODY


class World:
    """What the steps of a list come to."""

    def __init__(self, keys, bodies):
        self.bodies, self.notes, self.skipped = bodies, [], 0
        self.sections = {"P": Section([["delete", key] for key in keys] + bodies[0], {})}

    def take(self, name, kind, what):
        section = self.sections.get(name)
        if section is None or not section.may_take(kind, what):
            self.skipped += 1
            return
        if kind == "fail":
            section.fault = what
            return
        words = section.begin() if kind == "begin" else what
        self.notes.append(f"{name} {kind} {words_of(words)}")
        if kind == "reply":
            section.answer(what)
        if name == "P" and section.is_done():
            for other, body in zip("AB", self.bodies[1:]):
                self.sections[other] = Section(body, section.variables)

    def ending(self, name):
        section = self.sections.get(name)
        if section is None:
            return "not begun"
        if section.fault is not None:
            return f"failed {section.fault} {FAULTS[section.fault - 1]}"
        return "done" if section.is_done() else "running"

    def answer(self, program):
        """What `drive` is to print, its status, and words for both."""
        printed, _ = asked(program, "judge", history_text(self.notes, 2))
        verdict, status = printed.split("\n", 1)[0], 4
        endings = [self.ending(name) for name in SECTIONS]
        if verdict == "unexplained" or any(it.fault == 4 for it in self.sections.values()):
            status = 1
        elif verdict == "explained" and endings == ["done"] * 3:
            status = 0
        lines = [f"skipped {self.skipped}", *map(" ".join, zip(SECTIONS, endings)), printed]
        words = " ".join([*(it.split(" ")[0] for it in endings), verdict])
        return ("\n".join(lines), status), words


def reply_at_random(rng, name, verb):
    if name == "hit":
        flags, body = rng.choice([0, 0, 7]), rng.choice(["", "0", "5", "6", "x"])
        is_numbered = (verb == "gets") != (rng.random() < 0.1)
        return ("HIT", flags, body.encode(), *([rng.randint(1, 4)] if is_numbered else []))
    number = [rng.choice([0, 6, 7, GREATEST])] if name == "number" else []
    return (REPLIES[name], *number)


def event_at_random(rng, world, cache, name):
    section, sort = world.sections.get(name), rng.random()
    if sort < 0.015:
        return "fail", rng.randint(1, 8)
    if sort < 0.1 or section is None or section.waiting is None:
        names = legal(rng.choice(["set", "gets", "incr", "delete", "touch"]))
        if rng.random() < 0.85:
            return "begin", None
        return "reply", reply_at_random(rng, rng.choice(names), "gets")
    if sort < 0.85:
        return "reply", cache.answer(section.waiting)
    verb = section.waiting[0]
    return "reply", reply_at_random(rng, rng.choice(legal(verb)), verb)


def list_at_random(rng, world):
    """The lines of a step list, whose steps are taken in the world."""
    cache, lines = Cache(), []
    if rng.random() < 0.1:
        cache.items = {key: (0, b"", 9) for key in ("a", "item")}
    for _ in range(rng.choice([0, rng.randint(1, 12), rng.randint(12, 30), rng.randint(30, 60)])):
        name = rng.choice("PPPPPPPPAB" if len(world.sections) == 1 else "PAAAABBBB")
        kind, what = event_at_random(rng, world, cache, name)
        world.take(name, kind, what)
        told = words_of(what) if kind == "reply" else str(what) if kind == "fail" else ""
        line = f"{name} {kind} {told}".rstrip(" ")
        lines.append(line if rng.random() < 0.9 else f" {name}  {kind} {told}\r")
        if rng.random() < 0.05:
            lines.append(rng.choice(["# P begin", "", "  "]))
    return "\n".join(["steps", *lines, "end", ""])


def answers(given):
    for script in given.scripts:
        text = pathlib.Path(script).read_text(encoding="utf-8")
        rng = random.Random(f"{given.seed} {script}")
        for at in range(given.lists):
            world = World(*sections_of(text))
            steps = text + list_at_random(rng, world)
            expected, words = world.answer(given.program)
            found = asked(given.program, "drive", steps.encode())
            is_odd = found != expected
            fault = f"list {at} of {script}: expected {expected!r}, but got {found!r}, for\n{steps}"
            yield words, fault if is_odd else None


if __name__ == "__main__":
    parser = parser_of(__doc__, lists=100, seed=1)
    parser.add_argument("scripts", nargs="+", metavar="SCRIPT")
    compare(parser, answers)
