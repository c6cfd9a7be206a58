#!/usr/bin/env -S python3 -B
"""Prints what a client of a round of `mcrace stress` sends, by a second generator.

usage: rounds.py [--sum] [--seed N] [--round N] [--client N] [--mix WORD] [--requests N] [--keys N]

Client 64 stands for the requests that begin the round. A gets is answered by a hit with 100 more
than its place among the requests, at each third place by a miss. --sum prints a checksum of many
rounds, as a test of `crates/test_rounds` does. Written from docs/FORMATS.md (`stress`) alone.
"""

import itertools

from comparing import options
from generate_scripts import MASK, checksum, outputs

LETTERS = "abcdefghijklmnopqrstuvwxyz"
MIXES = {"all": "set add replace append prepend cas get gets incr decr delete touch",
         "counters": "set incr decr gets cas", "cas": "gets cas set",
         "bodies": "append prepend set get", "presence": "add delete replace get touch"}


def openings(draw, keys):
    lines = [f"delete {key}\r\n" for key in keys]
    if draw(2) == 0:
        lines += [f"set {key} 0 0 {len(it := str(draw(100)))}\r\n{it}\r\n" for key in keys]
    return lines


def body_by(draw):
    if (kind := draw(4)) == 0:
        return LETTERS[(first := draw(19)):first + draw(9)]
    return str(draw(10**8 if kind == 1 else 100))


def requests(draw, keys, verbs, count):
    heard = {}
    for place in range(count):
        verb, key = verbs[draw(len(verbs))], keys[draw(len(keys))]
        rest = " 0" if verb == "touch" else ""
        if verb in ("incr", "decr"):
            is_great, digit = draw(16) == 0, draw(10)
            rest = f" {2**64 - 1 - digit if is_great else digit}"
        elif verb not in ("get", "gets", "delete", "touch"):
            flags, body = draw(4), body_by(draw)
            swaps = f" {heard.get(key)}" if verb == "cas" else ""
            rest = f" {flags} 0 {len(body)}{swaps}\r\n{body}"
        if verb == "cas" and key not in heard:
            verb, rest = "gets", ""
        yield f"{verb} {key}{rest}\r\n"
        if verb == "gets" and (place + 1) % 3:
            heard[key] = 100 + place


def sent(seed, number, client, mix, count, keys):
    drawn = outputs(seed, number * 128 + client & MASK)
    keys = [f"k{1 + key}" for key in range(keys)]

    def draw(choices):
        return next(drawn) % choices

    if client == 64:
        return "".join(openings(draw, keys))
    return "".join(requests(draw, keys, MIXES[mix].split(), count))


def main():
    begun = {"seed": 1, "round": 1, "client": 0, "mix": "all", "requests": 50, "keys": 2}
    given = vars(options.parser_of(__doc__, **begun, sum=False).parse_args())
    if not given["sum"]:
        return print(sent(*(given[it] for it in begun)), end="")
    rounds = itertools.product(MIXES, (1, 2**64 - 1), (1, 2, 2**57 + 1), (0, 1, 63, 64))
    return print(checksum(sent(seed, number, client, mix, 300, 1 + client % 16)
                          for mix, seed, number, client in rounds))


if __name__ == "__main__":
    main()
