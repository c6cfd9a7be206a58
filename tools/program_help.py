"""What the program's help says, by its parts. Manual pages and completions are made from these."""

import re
import subprocess
from collections import defaultdict, namedtuple

HEADING = re.compile(r"^(Usage|Commands|Arguments|Options|Exit status|Topics):", re.M)
OPTION = re.compile(r"^ +(?:(-\w), )?(--[a-z-]+|<\S+>)(?: (<\S+>))?\n((?: {10}.+\n?)+)", re.M)
ROW = re.compile(r"^  (?:mcrace help )?(\w+)  +(.+(?:\n {4,}.+)*)", re.M)
# The words that an option takes, or examples of them, as `each, first or never`.
WORDS = re.compile(r"(?<!default): ((?:\w+, )*\w+ or \w+)")
# The name of an argument is as `<PORT>`. A value is as `<N>`, or empty.
Option = namedtuple("Option", "names value text words")


class Page:
    """What help says of the program, of a command or of a topic."""

    def __init__(self, text, name="", about="", choices=()):
        self.text, *rest = HEADING.split(text)
        parts = defaultdict(str, zip(rest[::2], rest[1::2]))
        rows = lambda part: [(it, " ".join(text.split())) for it, text in ROW.findall(parts[part])]
        options = lambda part: [
            Option([*filter(None, (short, name))], value, " ".join(text.split()),
                   re.split(", | or ", words[1]) if (words := WORDS.search(text)) else [])
            for short, name, value, text in OPTION.findall(parts[part])]
        about = about or self.text.strip()
        self.name, self.about = name, about[:1].lower() + about[1:]
        self.usage = parts["Usage"].strip()
        self.arguments, self.options = options("Arguments"), options("Options")
        self.statuses, self.topics = rows("Exit status"), rows("Topics")
        # The words that may come first, with what each is.
        self.choices = rows("Commands") or choices


def printed(*words):
    return subprocess.run(words, stdout=subprocess.PIPE, text=True, check=True).stdout


def pages_of(program):
    """The pages of the program and of its commands, the last of which is `help`; and of topics."""
    main = Page(printed(program, "--help"))
    of = lambda rows: [Page(printed(program, "help", it), it, about) for it, about in rows[:-1]]
    helped = Page("", *main.choices[-1], main.choices[:-1] + main.topics)
    return [main, *of(main.choices), helped], of(main.topics)
