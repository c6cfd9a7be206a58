"""What the comparisons share: their options, the program's answers, and the count at the end."""

import collections
import pathlib
import subprocess
import sys

ROOT = pathlib.Path(__file__).resolve().parents[1]
sys.path.append(str(ROOT / "tools"))

import options


def parser_of(doc, program=None, **more):
    """A parser of these options, and of the program, which may be left out if there is one here."""
    parser = options.parser_of(doc, **more)
    parser.add_argument("program", nargs="?" if program else None, default=program)
    return parser


def asked(program, command, text, *more):
    """What a command of the program prints for the text, and its status."""
    words = [program, command, *more]
    ran = subprocess.run(words, input=text, capture_output=True, check=False)
    return ran.stdout.decode(errors="replace"), ran.returncode


def compare(parser, answers):
    """Counts the answers to what a command line asks, each with words for what was compared, and
    what is wrong or None. It prints these, and last `N passed, M failed`, and exits."""
    seen, failed = collections.Counter(), 0
    for words, fault in answers(parser.parse_args()):
        seen[words] += 1
        if fault is not None:
            failed += 1
            print(f"failed: {fault}", flush=True)
    for words, count in sorted(seen.items()):
        print(f"{count:8} {words}")
    print(f"{sum(seen.values()) - failed} passed, {failed} failed")
    sys.exit(1 if failed else 0)
