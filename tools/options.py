"""Command lines, whose help is the text that begins a script."""

import argparse


def parser_of(doc, **options):
    """A parser of options, each with what it is if left out; False stands for a switch."""
    form = argparse.RawDescriptionHelpFormatter
    parser = argparse.ArgumentParser(description=doc, formatter_class=form)
    for name, value in options.items():
        kind = {"action": "store_true"} if value is False else {"type": type(value)}
        parser.add_argument(f"--{name}", default=value, **kind)
    return parser
